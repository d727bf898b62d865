/* A command of the program by the library, for scripts/c_library; its words are the program's.
 *
 * The text and the status are the program's. Beside that it calls the command with rooms that are too
 * small, just right and too large, and looks at each byte that a call may not write; calls it from four
 * threads at once; and, where MPTAB_FAIL is set, lets each allocation fail in turn and counts what isn't
 * freed. What is amiss is told on the standard error, with status 125. */
#include "mptab.h"
#include <pthread.h>
#include <stdatomic.h>
#include <stdio.h>
#include <stdlib.h>
#include <string.h>

#define MARGIN 64
#define FILL 0xA5
#define NO_MEMORY_LINE "mptab: no memory\n"

struct file {
    const uint8_t *bytes;
    size_t len;
};

struct command {
    const char *name;
    struct file files[3];
    uint16_t number;
};

/* The allocations of the library alone are counted, and one of them may fail. */
static atomic_long made, freed, failing;
static _Thread_local int counting;

void *__real_malloc(size_t size);
void *__real_realloc(void *block, size_t size);
void __real_free(void *block);
void *__wrap_malloc(size_t size);
void *__wrap_realloc(void *block, size_t size);
void __wrap_free(void *block);

static int fails(void) {
    return counting && failing && --failing == 0;
}

void *__wrap_malloc(size_t size) {
    if (fails())
        return NULL;
    made += counting;
    return __real_malloc(size);
}

void *__wrap_realloc(void *block, size_t size) {
    return fails() ? NULL : __real_realloc(block, size);
}

void __wrap_free(void *block) {
    freed += counting && block;
    __real_free(block);
}

static void refuse(const char *what) {
    fprintf(stderr, "c_library: %s\n", what);
    exit(125);
}

static int library(const struct command *c, uint8_t *out, size_t room, size_t *needed) {
    const struct file *f = c->files;
    if (!strcmp(c->name, "show"))
        return mptab_show(f[0].bytes, f[0].len, out, room, needed);
    if (!strcmp(c->name, "audit"))
        return mptab_audit(f[0].bytes, f[0].len, out, room, needed);
    if (!strcmp(c->name, "canon"))
        return mptab_canon(f[0].bytes, f[0].len, out, room, needed);
    if (!strcmp(c->name, "build"))
        return mptab_build(f[0].bytes, f[0].len, out, room, needed);
    if (!strcmp(c->name, "route"))
        return mptab_route(f[0].bytes, f[0].len, c->number, out, room, needed);
    if (!strcmp(c->name, "trace"))
        return mptab_trace(f[0].bytes, f[0].len, f[1].bytes, f[1].len, out, room, needed);
    if (!strcmp(c->name, "replay"))
        return mptab_replay(f[0].bytes, f[0].len, f[1].bytes, f[1].len, f[2].bytes, f[2].len, out, room, needed);
    if (!strcmp(c->name, "raise"))
        return mptab_raise(f[0].bytes, f[0].len, out, room, needed);
    if (!strcmp(c->name, "madt"))
        return mptab_madt(f[0].bytes, f[0].len, c->number, out, room, needed);
    if (!strcmp(c->name, "madtcmp"))
        return mptab_madtcmp(f[0].bytes, f[0].len, c->number, f[1].bytes, f[1].len, out, room, needed);
    if (!strcmp(c->name, "pirmake"))
        return mptab_pirmake(f[0].bytes, f[0].len, out, room, needed);
    if (!strcmp(c->name, "pircmp"))
        return mptab_pircmp(f[0].bytes, f[0].len, f[1].bytes, f[1].len, out, room, needed);
    if (!strcmp(c->name, "pic"))
        return mptab_pic(f[0].bytes, f[0].len, f[1].bytes, f[1].len, f[2].bytes, f[2].len, out, room, needed);
    if (!strcmp(c->name, "drill"))
        return mptab_drill(c->number, out, room, needed);
    refuse("no such command");
    return 125;
}

static int call(const struct command *c, uint8_t *out, size_t room, size_t *needed) {
    counting = 1;
    int status = library(c, out, room, needed);
    counting = 0;
    return status;
}

/* Calls with so much room inside of a larger block, and looks at what may not be written. */
static int call_in(const struct command *c, size_t room, uint8_t *block, size_t *needed) {
    memset(block, FILL, room + 2 * MARGIN);
    int status = call(c, block + MARGIN, room, needed);
    size_t written = status == MPTAB_NO_ROOM ? 0 : *needed;
    if ((status == MPTAB_NO_ROOM) != (*needed > room))
        refuse("the status of too small a room");
    for (size_t at = 0; at < room + 2 * MARGIN; at++)
        if ((at < MARGIN || at >= MARGIN + written) && block[at] != FILL)
            refuse("a byte beside the text is written");
    return status;
}

static const struct command *shared;
static const uint8_t *wanted;
static size_t wanted_len;
static int wanted_status;

static void *thread(void *unused) {
    size_t needed;
    uint8_t *block = malloc(wanted_len + 2 * MARGIN);
    (void)unused;
    if (!block || call_in(shared, wanted_len, block, &needed) != wanted_status || memcmp(block + MARGIN, wanted, wanted_len))
        refuse("another answer beside other threads");
    free(block);
    return NULL;
}

static void try_threads(void) {
    pthread_t threads[4];
    for (int n = 0; n < 4; n++)
        if (pthread_create(&threads[n], NULL, thread, NULL))
            refuse("no thread");
    for (int n = 0; n < 4; n++)
        pthread_join(threads[n], NULL);
}

/* Lets the first, the second and each further allocation fail, until one isn't reached. */
static void try_failures(const struct command *c) {
    uint8_t *block = malloc(wanted_len + 2 * MARGIN + sizeof NO_MEMORY_LINE);
    for (long n = 1; block; n++) {
        size_t needed;
        failing = n;
        int status = call_in(c, wanted_len + sizeof NO_MEMORY_LINE, block, &needed);
        const char *text = (const char *)block + MARGIN;
        int is_whole = status == wanted_status && needed == wanted_len && !memcmp(text, wanted, needed);
        int is_want = status == MPTAB_NO_MEMORY && needed == strlen(NO_MEMORY_LINE) && !memcmp(text, NO_MEMORY_LINE, needed);
        if (!is_whole && !is_want)
            refuse("another answer where an allocation failed");
        if (made != freed)
            refuse("a block isn't freed");
        if (failing)
            break;
    }
    failing = 0;
    free(block);
}

static struct file read_file(const char *name) {
    struct file file = {NULL, 0};
    FILE *from = fopen(name, "rb");
    if (!from || fseek(from, 0, SEEK_END))
        refuse("a file can't be read");
    file.len = (size_t)ftell(from);
    rewind(from);
    uint8_t *bytes = malloc(file.len + 1);
    if (!bytes || fread(bytes, 1, file.len, from) != file.len)
        refuse("a file can't be read");
    fclose(from);
    file.bytes = bytes;
    return file;
}

static struct command command_of(int argc, char **argv) {
    struct command c = {argv[1], {{NULL, 0}}, 0};
    int is_drill = !strcmp(c.name, "drill"), files = 0;
    int has_elcr = !strcmp(c.name, "route") || !strncmp(c.name, "madt", 4);
    for (int n = 2; n < argc && files < 3; n++) {
        if (is_drill || (has_elcr && n == 3))
            c.number = (uint16_t)strtoul(argv[n], NULL, is_drill ? 10 : 16);
        else
            c.files[files++] = read_file(argv[n]);
    }
    return c;
}

int main(int argc, char **argv) {
    if (argc < 3)
        refuse("wants COMMAND FILE..");
    struct command c = command_of(argc, argv);
    uint8_t first[2 * MARGIN];
    size_t needed, again;
    call_in(&c, 0, first, &needed);
    uint8_t *block = malloc(needed + 4 * MARGIN);
    if (!block)
        refuse("no memory");
    if (needed > 0)
        call_in(&c, needed - 1, block, &again);
    call_in(&c, needed + MARGIN, block, &again);
    int status = call_in(&c, needed, block, &again);
    if (again != needed || made != freed)
        refuse(again == needed ? "a block isn't freed" : "two lengths of one text");
    shared = &c, wanted = block + MARGIN, wanted_len = needed, wanted_status = status;
    try_threads();
    if (getenv("MPTAB_FAIL"))
        try_failures(&c);
    fwrite(wanted, 1, wanted_len, stdout);
    free(block);
    for (int n = 0; n < 3; n++)
        free((void *)c.files[n].bytes);
    return status;
}

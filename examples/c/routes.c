/* Prints where each interrupt of an image goes: routes IMAGE [ELCR in hexadecimal]. */
#include "mptab.h"
#include <stdio.h>
#include <stdlib.h>

/* 16 MiB and a byte more, by which a larger image is known. */
#define MOST ((16u << 20) + 1)

int main(int argc, char **argv) {
    FILE *file = argc > 1 ? fopen(argv[1], "rb") : NULL;
    uint8_t *image = malloc(MOST);
    if (!file || !image)
        return MPTAB_USAGE;
    size_t len = fread(image, 1, MOST, file);
    fclose(file);
    uint16_t elcr = argc > 2 ? (uint16_t)strtoul(argv[2], NULL, 16) : 0;

    /* A first call says how much room the text needs, a second writes it there: that text, or the line for
     * want of memory, which may be longer than the room. */
    uint8_t none[1];
    size_t room, needed;
    mptab_route(image, len, elcr, none, 0, &room);
    uint8_t *text = malloc(room + 1);
    if (!text)
        return MPTAB_NO_MEMORY;
    uint8_t status = mptab_route(image, len, elcr, text, room, &needed);
    if (status != MPTAB_NO_ROOM)
        fwrite(text, 1, needed, stdout);
    free(text);
    free(image);
    return status;
}

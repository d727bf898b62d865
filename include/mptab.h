/* The commands of `mptab` for C: tables of Intel's MultiProcessor Specification 1.4 (docs/C.md).
 *
 * Each call takes its files from the caller's memory, where they stay, and answers with the status of the
 * program. Its text, byte for byte that of the program (docs/FORMATS.md), goes to the start of `out`, and
 * `*needed` is the text's length in bytes; it isn't ended by a zero byte. Where it passes the room, `out`
 * stays as it was, the status is MPTAB_NO_ROOM, and a second call with room for `*needed` bytes gives the
 * text. Where memory runs out the status is MPTAB_NO_MEMORY.
 *
 * In texts a file has the name of its parameter, as in `mptab: too large image 16777217`.
 *
 * Nothing is printed, no file is opened, no thread is started, and nothing is kept after a call: calls
 * from several threads at once know nothing of one another. Each call returns.
 *
 * What a caller owes, which nothing checks:
 * - A pointer isn't null, not even with a length of 0, and names so many bytes. `needed` is aligned.
 * - `out` and `needed` overlap neither each other nor a file; two files may overlap. While a call runs
 *   nothing else writes to its files, and nothing else reads or writes `out` or `needed`.
 * - malloc, realloc and free are of one allocator, and align a block to each power of two up to 16
 *   that divides its size.
 * - No call from a signal handler, nor from the forked child of a process with threads.
 */
#ifndef MPTAB_H
#define MPTAB_H

#include <stddef.h>
#include <stdint.h>

#ifdef __cplusplus
extern "C" {
#endif

/* The statuses; those of the program that no call gives are left out. */
enum {
    MPTAB_DONE = 0,       /* the text is what the call is for */
    MPTAB_FINDINGS = 1,   /* the audit has findings, two tables differ, or the verdict isn't `replay legal` */
    MPTAB_USAGE = 2,      /* a drill above 9999 */
    MPTAB_NO_POINTER = 6, /* the image has no floating pointer */
    MPTAB_REFUSED = 7,    /* the tables have a fault; the text names it */
    MPTAB_NOT_LISTED = 8, /* a listing, script or report is refused, or the tables don't fit an image */
    MPTAB_NO_MEMORY = 9,
    MPTAB_TOO_LARGE = 10, /* above 16 MiB of image, 4 of listing, 256 of report, 1 of any other file */
    MPTAB_NO_BOARD = 11,  /* tables and script describe no board */
    MPTAB_BAD_MADT = 13,  /* a MADT has a fault, or there are too many processors for one */
    MPTAB_BAD_CALLS = 14, /* a line of the calls of the 8259A is none */
    MPTAB_BAD_PIR = 15,   /* a PCI IRQ routing table has a fault, or there are too many slots or links for one */
    MPTAB_NO_ROOM = 64    /* the text passes `room`; nothing was written */
};

/* The listing of an image. */
uint8_t mptab_show(const uint8_t *image, size_t image_len,
                   uint8_t *out, size_t room, size_t *needed);

/* The findings of the 24 rules on an image's tables. */
uint8_t mptab_audit(const uint8_t *image, size_t image_len,
                    uint8_t *out, size_t room, size_t *needed);

/* The image of the tables' canonical form: 1 MiB. */
uint8_t mptab_canon(const uint8_t *image, size_t image_len,
                    uint8_t *out, size_t room, size_t *needed);

/* The image of a listing: 1 MiB. */
uint8_t mptab_build(const uint8_t *listing, size_t listing_len,
                    uint8_t *out, size_t room, size_t *needed);

/* For each I/O interrupt its pin, vector, trigger and polarity, or why it has none. Bit n of `elcr` says
 * that IRQ n is level-triggered. */
uint8_t mptab_route(const uint8_t *image, size_t image_len, uint16_t elcr,
                    uint8_t *out, size_t room, size_t *needed);

/* The report of the board of tables and script, whose agents take turns to its end. */
uint8_t mptab_trace(const uint8_t *image, size_t image_len,
                    const uint8_t *script, size_t script_len,
                    uint8_t *out, size_t room, size_t *needed);

/* The verdict on a report of that board, whatever its origin. */
uint8_t mptab_replay(const uint8_t *image, size_t image_len,
                     const uint8_t *script, size_t script_len,
                     const uint8_t *report, size_t report_len,
                     uint8_t *out, size_t room, size_t *needed);

/* The image of the tables at revision 4: 1 MiB. */
uint8_t mptab_raise(const uint8_t *image, size_t image_len,
                    uint8_t *out, size_t room, size_t *needed);

/* The bytes of the ACPI MADT that says what the tables say. */
uint8_t mptab_madt(const uint8_t *image, size_t image_len, uint16_t elcr,
                   uint8_t *out, size_t room, size_t *needed);

/* Where a MADT says other lines of ISA interrupts than the tables. */
uint8_t mptab_madtcmp(const uint8_t *image, size_t image_len, uint16_t elcr,
                      const uint8_t *madt, size_t madt_len,
                      uint8_t *out, size_t room, size_t *needed);

/* The bytes of the PCI IRQ routing table that says what the tables say. */
uint8_t mptab_pirmake(const uint8_t *image, size_t image_len,
                      uint8_t *out, size_t room, size_t *needed);

/* Where a PCI IRQ routing table and the tables differ. */
uint8_t mptab_pircmp(const uint8_t *image, size_t image_len,
                     const uint8_t *table, size_t table_len,
                     uint8_t *out, size_t room, size_t *needed);

/* What a pair of 8259A answers to calls, on the board of tables and script. */
uint8_t mptab_pic(const uint8_t *image, size_t image_len,
                  const uint8_t *script, size_t script_len,
                  const uint8_t *calls, size_t calls_len,
                  uint8_t *out, size_t room, size_t *needed);

/* The summary of the drill of a number, 0 to 9999. */
uint8_t mptab_drill(uint16_t n, uint8_t *out, size_t room, size_t *needed);

#ifdef __cplusplus
}
#endif

#endif

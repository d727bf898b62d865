/* How an emulator calls the library: once the guest's firmware has written its tables, they are read where
 * they lie in the guest's memory, without a copy, and what is wrong with them is logged. */
#include "mptab.h"
#include <stdio.h>

#define RAM_SIZE (1u << 20)
static uint8_t ram[RAM_SIZE];

/* Logs what the audit says of the guest's tables, or why they are refused; of a text that passes the room
 * the length alone. 0 where nothing is amiss. */
static int check_tables(const uint8_t *memory, size_t size, FILE *log) {
    uint8_t text[4096];
    size_t needed;
    uint8_t status = mptab_audit(memory, size, text, sizeof text, &needed);
    if (status == MPTAB_NO_ROOM)
        fprintf(log, "guest: %zu bytes of findings\n", needed);
    else if (status != MPTAB_DONE)
        fprintf(log, "guest: status %d\n%.*s", status, (int)needed, (const char *)text);
    return status;
}

/* Stands for the guest's firmware: the image of a listing becomes its memory. */
static int boot_firmware(const char *listing_name) {
    static uint8_t listing[4u << 20];
    FILE *file = fopen(listing_name, "rb");
    if (!file)
        return -1;
    size_t needed, len = fread(listing, 1, sizeof listing, file);
    fclose(file);
    return mptab_build(listing, len, ram, sizeof ram, &needed);
}

int main(int argc, char **argv) {
    if (argc != 2 || boot_firmware(argv[1]) != MPTAB_DONE)
        return MPTAB_USAGE;
    return check_tables(ram, sizeof ram, stdout);
}

/*
 * Prints what each cabinet pays for the gates that it moved in a window without times:   bills START < LOG
 *
 * START is a file of 64 bytes, the levels of before the window, as a table is written. Prints a line for each cabinet whose mills or travel isn't 0, with its
 * mills, cents and travel in centimetres, or 'no order', or 'refused' and the number. Ends with 1 where the checker refuses, with 2 where START can't be read.
 */
#include <stdio.h>

#include "beaconcrumb.h"

static uint8_t log_bytes[1157], start[65]; /* a byte more than either has, so that what is longer is refused */

/* four bytes, low byte first */
static uint32_t word(const uint8_t *place)
{
    return place[0] | place[1] << 8 | place[2] << 16 | (uint32_t)place[3] << 24;
}

int main(int argc, char **argv)
{
    static const uint8_t none[1]; /* no times: nothing is read, but it is not null */
    uint8_t out[192];
    FILE *file = argc == 2 ? fopen(argv[1], "rb") : NULL;
    if (file == NULL) {
        fprintf(stderr, "usage: bills START < LOG\n");
        return 2;
    }
    size_t levels = fread(start, 1, sizeof start, file), length = fread(log_bytes, 1, sizeof log_bytes, stdin);
    fclose(file);

    uint32_t number = beaconcrumb_bills(log_bytes, length, start, levels, none, 0, none, 0, 0, out, sizeof out);
    if (number == 255) {
        printf("no order\n");
        return 0;
    }
    if (number != 0) {
        printf("refused %u\n", (unsigned)number);
        return 1;
    }
    for (int c = 0; c < 16; c++) {
        const uint8_t *bill = out + 12 * c;
        int32_t travel = (int32_t)word(bill + 8);
        if (word(bill) != 0 || travel != 0)
            printf("cabinet %d mills %u cents %u travel %d\n", c, (unsigned)word(bill), (unsigned)word(bill + 4), (int)travel);
    }
    return 0;
}

/*
 * Prints the polygraph of a log on standard input:   polygraph ENCODING PRUNING < LOG
 *
 * A line for each known edge, then one for each constraint left: the sources of its sides as masks, and their targets. Ends with 1 where the
 * log or the setting is refused.
 */
#include <stdio.h>
#include <string.h>

#include "beaconcrumb.h"

static unsigned word(const uint8_t *b) { return b[0] | b[1] << 8 | b[2] << 16 | (unsigned)b[3] << 24; }

int main(int argc, char **argv)
{
    static uint8_t log[1157], out[41090];
    if (argc != 3 || strlen(argv[1]) != 1 || strlen(argv[2]) != 1) {
        fprintf(stderr, "usage: polygraph ENCODING PRUNING < LOG\n");
        return 2;
    }
    size_t length = fread(log, 1, sizeof log, stdin);
    uint32_t number = beaconcrumb_encode(log, length, argv[1][0] - '0', argv[2][0] - '0', out, sizeof out);
    if (number != 0) {
        printf("refused %u\n", (unsigned)number);
        return 1;
    }
    for (unsigned u = 0; u < 32; u++)
        for (unsigned v = 0; v < 32; v++)
            if (word(out + 2 + 4 * u) >> v & 1)
                printf("%u to %u\n", u, v);
    for (int i = 0; i < (out[0] | out[1] << 8); i++) {
        const uint8_t *c = out + 130 + 10 * i;
        printf("A %#x to %u, B %#x to %u\n", word(c), c[4], word(c + 5), c[9]);
    }
    return 0;
}

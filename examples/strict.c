/*
 * Judges a log on standard input by the office clock:   strict DRIFT TIMES < LOG
 *
 * TIMES is a file of numbers: the begin and the end of each transaction, in the order of the log's entries. An empty one means a window without times.
 * Prints the known edges, a line each, then 'order' and the transaction numbers, 'no order', or 'refused' and the number. The starting levels are not known:
 * they change neither. Ends with 1 where the checker refuses, with 2 where the numbers can't be read, and with 3 where Check doesn't take the order, which is
 * never.
 */
#include <stdio.h>
#include <stdlib.h>

#include "beaconcrumb.h"

static uint8_t log_bytes[1157], begin[132], end[132]; /* room for a 33rd entry, so that too many are refused with 37 */

/* four bytes, low byte first */
static void put(uint8_t *place, unsigned long seconds)
{
    for (int i = 0; i < 4; i++)
        place[i] = (uint8_t)(seconds >> 8 * i);
}

/* reads the pairs; -1 where something else stands there */
static int read_times(const char *name)
{
    FILE *file = fopen(name, "r");
    unsigned long from, to;
    int n = 0, got = 0;
    if (file == NULL)
        return -1;
    while (n < 33 && (got = fscanf(file, "%lu %lu", &from, &to)) == 2 && from <= 0xffffffff && to <= 0xffffffff) {
        put(begin + 4 * n, from);
        put(end + 4 * n++, to);
    }
    fclose(file);
    return n == 33 || got == EOF ? n : -1;
}

static int refused(uint32_t number)
{
    printf("refused %u\n", (unsigned)number);
    return 1;
}

int main(int argc, char **argv)
{
    static uint8_t out[41090];
    uint8_t start[64] = {0}, order[32], table[64];
    int n = argc == 3 ? read_times(argv[2]) : -1;
    unsigned long seconds = argc == 3 ? strtoul(argv[1], NULL, 10) : 0;
    if (n < 0 || seconds > 0xffffffff) {
        fprintf(stderr, "usage: strict DRIFT TIMES < LOG\n");
        return 2;
    }
    size_t length = fread(log_bytes, 1, sizeof log_bytes, stdin), bytes = 4 * (size_t)n;
    uint32_t drift = (uint32_t)seconds;

    uint32_t number = beaconcrumb_encode_strict(log_bytes, length, begin, bytes, end, bytes, drift, 2, 0, out, sizeof out);
    if (number != 0)
        return refused(number);
    for (unsigned u = 0; u < 32; u++)
        for (unsigned v = 0; v < 32; v++)
            if (out[2 + 4 * u + v / 8] >> v % 8 & 1)
                printf("%u to %u\n", u, v);

    number = beaconcrumb_decide_strict(log_bytes, length, start, sizeof start, begin, bytes, end, bytes, drift, 2, 1, order, sizeof order, table, sizeof table);
    if (number == 255) {
        printf("no order\n");
        return 0;
    }
    if (number != 0)
        return refused(number);
    printf("order");
    for (int place = 0; place < log_bytes[0]; place++)
        printf(" %u", order[place]);
    printf("\n");
    /* what Decide gives Check takes; a program that has an order from elsewhere asks so */
    return beaconcrumb_check_strict(log_bytes, length, begin, bytes, end, bytes, drift, order, log_bytes[0]) == 0 ? 0 : 3;
}

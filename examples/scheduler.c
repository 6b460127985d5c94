/*
 * A scheduler that asks the proved checker:   scheduler [LOG [START [NEXT]]]   (without LOG, or with -: standard input)
 *
 * Without START it knows nothing of before the window, and prints what Judge prints: 'order' and the transaction numbers, then a line for each key that
 * the log writes, ascending, with the value that the order leaves in it; or 'no order'; or 'refused' and the number.
 * START is a file with the levels before the window, 32 values of two bytes, low byte first. Then each of the 32 keys has a line: the value that the order
 * leaves in it, or its level before. Where there is an order, that table is written to the file NEXT, which can be the START of the next window; where there
 * is none, or a refusal, NEXT is not touched, so look at the first word before going on from it.
 * Ends with 2 where a file can't be read or written, or START is -.
 */
#include <stdio.h>
#include <string.h>

#include "beaconcrumb.h"

/* reads the bytes of a file, at most so many; 0 where it can't be read */
static int read_file(const char *name, uint8_t *bytes, size_t most, size_t *length)
{
    FILE *file = strcmp(name, "-") == 0 ? stdin : fopen(name, "rb");
    if (file == NULL) {
        perror(name);
        return 0;
    }
    *length = fread(bytes, 1, most, file);
    if (ferror(file)) {
        perror(name);
        return 0;
    }
    return 1;
}

static int write_file(const char *name, const uint8_t *bytes, size_t length)
{
    FILE *file = fopen(name, "wb");
    if (file == NULL || fwrite(bytes, 1, length, file) != length || fclose(file) != 0) {
        perror(name);
        return 0;
    }
    return 1;
}

int main(int argc, char **argv)
{
    uint8_t log[1157]; /* one byte more than the longest log: what is longer is refused with 2 or 35 */
    uint8_t start[65]; /* one more than a start has: what is longer is refused with 36 */
    uint8_t order[32], table[64];
    size_t length = 0, start_length = 0;
    const char *name = argc > 1 ? argv[1] : "-";
    const char *levels = argc > 2 ? argv[2] : NULL;
    if (levels != NULL && strcmp(levels, "-") == 0) {
        fprintf(stderr, "scheduler: START is a file\n");
        return 2;
    }
    if (!read_file(name, log, sizeof log, &length))
        return 2;
    if (levels != NULL && !read_file(levels, start, sizeof start, &start_length))
        return 2;

    /* with levels, the table has a meaning for every key; without them, for those that the log writes */
    uint32_t number = levels != NULL
        ? beaconcrumb_decide_from(log, length, start, start_length, 2, 1, order, sizeof order, table, sizeof table)
        : beaconcrumb_decide(log, length, 2, 1, order, sizeof order, table, sizeof table);
    if (number == 255) {
        printf("no order\n");
        return 0;
    }
    if (number != 0) {
        printf("refused %u\n", (unsigned)number);
        return 0;
    }

    /* the log was taken, so its T and its bodies are where document 01 has them */
    size_t count = log[0];
    uint32_t shown = levels != NULL ? 0xffffffff : 0;
    for (size_t body = 4 + 4 * count; body < length; body += 4)
        if (log[body] == 1)
            shown |= (uint32_t)1 << log[body + 1];

    printf("order");
    for (size_t place = 0; place < count; place++)
        printf(" %u", order[place]);
    printf("\n");
    for (unsigned key = 0; key < 32; key++)
        if (shown >> key & 1)
            printf("key %u value %u\n", key, table[2 * key] | table[2 * key + 1] << 8);
    return argc > 3 && !write_file(argv[3], table, sizeof table) ? 2 : 0;
}

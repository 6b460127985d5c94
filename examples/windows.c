/*
 * Decides several windows at once, each in a thread of its own:   windows LOG..   (63 at most)
 *
 * Prints, as they get ready, each name with what beaconcrumb_decide returns: 0 an order, 255 no order, else the refusal's number.
 */
#include <pthread.h>
#include <stdio.h>

#include "beaconcrumb.h"

static void *decide(void *name)
{
    uint8_t log[1157], order[32], table[64];
    FILE *file = fopen(name, "rb");
    size_t length = file == NULL ? 0 : fread(log, 1, sizeof log, file);
    if (file == NULL || ferror(file)) {
        perror(name);
        return NULL;
    }
    fclose(file);
    uint32_t number = beaconcrumb_decide(log, length, 2, 1, order, sizeof order, table, sizeof table);
    printf("%s %u\n", (char *)name, (unsigned)number);
    return NULL;
}

int main(int argc, char **argv)
{
    pthread_t thread[64];
    pthread_attr_t attributes;
    if (argc > 64) {
        fprintf(stderr, "usage: windows LOG..   (63 at most)\n");
        return 2;
    }
    pthread_attr_init(&attributes);
    pthread_attr_setstacksize(&attributes, 4 << 20);
    for (int i = 1; i < argc; i++)
        if (pthread_create(&thread[i], &attributes, decide, argv[i]) != 0)
            return 2;
    for (int i = 1; i < argc; i++)
        pthread_join(thread[i], NULL);
    return 0;
}

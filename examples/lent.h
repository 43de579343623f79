/* What the examples share: memory to lend, and a whole file in it. */
#include <stdint.h>
#include <stdio.h>
#include <stdlib.h>

#define LIMIT 16777216

static void *lend(size_t length) {
    void *memory = malloc(length + 1); /* never NULL for no bytes */
    if (memory == NULL) {
        fprintf(stderr, "no memory\n");
        exit(2);
    }
    return memory;
}

/* The bytes of a file: all, or one more than a file may have, so that a longer one is refused by 1. */
static uint8_t *whole_file(const char *name, size_t *length) {
    FILE *file = fopen(name, "rb");
    if (file == NULL) {
        perror(name);
        exit(2);
    }
    uint8_t *raw = lend(LIMIT + 1);
    *length = fread(raw, 1, LIMIT + 1, file);
    fclose(file);
    return raw;
}

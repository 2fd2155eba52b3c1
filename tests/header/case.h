/* What the programs of tests/header share: files, bytes of a pack, and lines that say what passed and what failed. */
#ifndef CASE_H
#define CASE_H

#include <stdio.h>
#include <stdlib.h>
#include <string.h>

#include "tonekit.h"

/* An input or an expected output, with room for a byte more than can load. */
typedef struct {
    uint8_t bytes[TONEKIT_SHEET_MAX + 1];
    uint64_t length;
} File;

static int failures = 0;

static void check(const char *what, int right)
{
    printf("%s: %s\n", right ? "passed" : "FAILED", what);
    failures += !right;
}

static void load(File *file, const char *folder, const char *name)
{
    char path[4096];
    FILE *from;
    snprintf(path, sizeof path, "%s/%s", folder, name);
    from = fopen(path, "rb");
    if (!from) {
        perror(path);
        exit(2);
    }
    file->length = fread(file->bytes, 1, sizeof file->bytes, from);
    fclose(from);
}

/* Whether a call answered as it should. */
static int answered(uint32_t number, const uint64_t *place, uint32_t expected, uint64_t at)
{
    if (number == expected && *place == at)
        return 1;
    printf("answered %lu at %lu, not %lu at %lu\n", (unsigned long)number, (unsigned long)*place, (unsigned long)expected,
           (unsigned long)at);
    return 0;
}

#endif

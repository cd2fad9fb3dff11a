/* Reads a sheet from its file. */
#ifndef SHEET_FILE_H
#define SHEET_FILE_H

#include "planner.h"

#include <stdio.h>

/* Carry looks at no byte of a text after these. */
#define SHEET_FILE_BYTES (PLANNER_SHEET_BYTES + 1)

/* Reads the file's first bytes, SHEET_FILE_BYTES at the most, and tells how many there are; -1 where it cannot be read. */
static inline long read_sheet_file(const char *path, uint8_t *sheet)
{
    FILE *file = fopen(path, "rb");
    if (file == NULL) {
        return -1;
    }
    size_t length = fread(sheet, 1, SHEET_FILE_BYTES, file);
    int failed = ferror(file);
    fclose(file);
    return failed ? -1 : (long)length;
}

#endif

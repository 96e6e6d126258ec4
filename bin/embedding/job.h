/* What the tests in C have in common: files, and the records of a script. A file that can't be read ends the
 * program by 9. */
#ifndef JOB_H
#define JOB_H

#include "cadedit.h"
#include <stdio.h>
#include <stdlib.h>
#include <string.h>

struct text {
    uint8_t *bytes;
    size_t length;
};

static struct text read_file(const char *path)
{
    FILE *file = fopen(path, "rb");
    struct text text = {NULL, 0};
    size_t room = 1 << 16, got;
    if (!file || !(text.bytes = malloc(room)))
        exit(9);
    while ((got = fread(text.bytes + text.length, 1, room - text.length, file)) > 0) {
        text.length += got;
        if (text.length == room && !(text.bytes = realloc(text.bytes, room *= 2)))
            exit(9);
    }
    fclose(file);
    return text;
}

/* The length of the record at the front of a script with its line end, which is a line feed outside of quotes. */
static size_t record_length(const uint8_t *script, size_t length)
{
    int is_quoted = 0;
    for (size_t at = 0; at < length; at++) {
        is_quoted ^= script[at] == '"';
        if (script[at] == '\n' && !is_quoted)
            return at + 1;
    }
    return length;
}

#endif

#include "files.h"

#include <errno.h>
#include <stdio.h>
#include <stdlib.h>
#include <string.h>

/* Appends all that can be read from `file`. Answers 0, or the error's number. */
static int read_rest(FILE *file, struct content *content)
{
    size_t capacity = 0;
    for (;;) {
        if (content->length == capacity) {
            size_t larger = capacity == 0 ? 65536 : 2 * capacity;
            uint8_t *moved = larger > capacity ? realloc(content->bytes, larger) : NULL;
            if (moved == NULL) return ENOMEM;
            content->bytes = moved;
            capacity = larger;
        }
        errno = 0;
        content->length += fread(content->bytes + content->length, 1, capacity - content->length, file);
        if (ferror(file)) return errno != 0 ? errno : EIO;
        if (feof(file)) return 0;
    }
}

int read_file(const char *program, const char *path, struct content *content)
{
    errno = 0;
    FILE *file = fopen(path, "rb");
    int error = file == NULL ? (errno != 0 ? errno : EIO) : read_rest(file, content);
    if (file != NULL) fclose(file);
    if (error != 0) fprintf(stderr, "%s: cannot read %s: %s\n", program, path, strerror(error));
    return error != 0;
}

int end_output(const char *program)
{
    if (fflush(stdout) == 0 && !ferror(stdout)) return 0;
    fprintf(stderr, "%s: the output cannot be written\n", program);
    return 1;
}

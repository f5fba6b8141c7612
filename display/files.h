/* The inputs of a program, read whole, and the end of its output. */
#ifndef FILES_H
#define FILES_H

#include <stddef.h>
#include <stdint.h>

/* The bytes of a file; `bytes` is NULL or from malloc. */
struct content {
    uint8_t *bytes;
    size_t length;
};

/* Reads a whole file, of any size. Answers 0, or 1 after saying, with the program's name, why it cannot be read. */
int read_file(const char *program, const char *path, struct content *content);

/* Writes what is left of the standard output. Answers 0, or 1 after saying, with the program's name, that some of it is not
 * written. */
int end_output(const char *program);

#endif

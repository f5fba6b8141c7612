/* Prints the trees of random bytes, mostly heads of nodes and conditions, that stand right before memory which cannot be read:
 * a read behind their end ends the program by a signal. */
#define _DEFAULT_SOURCE
#include <stdlib.h>
#include <sys/mman.h>
#include <unistd.h>

#include "tree.h"

enum { TREES = 20000, MOST_BYTES = 40 };

int main(void)
{
    static const uint8_t heads[] = {0x00, 0x01, 0x0F, 0x10, 0x20, 0x30, 0x40, 0x50, 0x60, 0x70, 0x80, 0x2F, 0x12, 0x34};
    size_t page = (size_t)sysconf(_SC_PAGESIZE);
    uint8_t *memory = mmap(NULL, 2 * page, PROT_READ | PROT_WRITE, MAP_PRIVATE | MAP_ANONYMOUS, -1, 0);
    if (memory == MAP_FAILED || mprotect(memory + page, page, PROT_NONE) != 0) return 1;
    srand(1);
    for (int i = 0; i < TREES; i++) {
        size_t length = (size_t)rand() % MOST_BYTES;
        uint8_t *bytes = memory + page - length;
        for (size_t j = 0; j < length; j++) {
            bytes[j] = rand() % 8 == 0 ? (uint8_t)rand() : heads[(size_t)rand() % sizeof heads];
        }
        print_tree(stdout, bytes, length);
    }
    return 0;
}

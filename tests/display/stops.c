/*
 * A probe: does the display's entry look at bytes after a file refusal?
 *
 *   stops FILE EXPECTED     FILE is a file whose last byte brings a file refusal, EXPECTED its answer
 *
 * The bytes of FILE lie just before memory that may not be read, and the entry is told that the file goes on there. No caller
 * may do so: the header asks for a file that may be read to its end. But an entry that stops at the refusal does not notice,
 * and one that reads on is ended by the system, as it must be for a FILE that brings no file refusal.
 */
#define _DEFAULT_SOURCE
#include <string.h>
#include <sys/mman.h>

#include "display.h"
#include "files.h"

static uint8_t expected[MOST], room[DISPLAY_ROOM];

int main(int argc, char **argv)
{
    uint8_t *memory = mmap(NULL, 2 * MOST, PROT_READ | PROT_WRITE, MAP_PRIVATE | MAP_ANONYMOUS, -1, 0);

    if (argc != 3 || memory == MAP_FAILED || mprotect(memory + MOST, MOST, PROT_NONE) != 0) {
        fprintf(stderr, "usage: stops FILE EXPECTED, with memory for them\n");
        return 2;
    }
    size_t file_len = read_file(argv[1], memory), answer_len = read_file(argv[2], expected);
    uint8_t *file = memory + MOST - file_len;
    memmove(file, memory, file_len);
    if (display_answer(file, file_len + MOST, room, sizeof room) != answer_len || memcmp(room, expected, answer_len) != 0) {
        printf("the answer is another\n");
        return 1;
    }
    return 0;
}

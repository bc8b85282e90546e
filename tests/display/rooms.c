/*
 * Calls the display's entry on a file, at rooms of several sizes, and compares with the answer that is expected.
 *
 *   rooms FILE              prints the answer lines as they are
 *   rooms FILE EXPECTED     tries a room that is ample, one that just fits, one that is a byte short, and none
 *
 * Around each room lie guard bytes, and in it old bytes; what may not change is looked at after each call.
 */
#include <string.h>

#include "display.h"
#include "files.h"

#define GUARD 64

static uint8_t file[MOST], kept[MOST], expected[MOST], memory[MOST];

/* The byte that stands at a place before the call: no digit and no line feed, so that a written byte is a seen one. */
static uint8_t old_byte(size_t at)
{
    return (uint8_t)(128 + at % 97);
}

/* One call at a room of `size` bytes; returns 1 if it did what is expected. */
static int try_room(const char *what, size_t file_len, size_t answer_len, size_t size)
{
    uint8_t *room = memory + GUARD;
    size_t count, i, want = size < answer_len ? 0 : answer_len;

    for (i = 0; i < size + 2 * GUARD; i++) {
        memory[i] = old_byte(i);
    }
    count = display_answer(file_len == 0 ? NULL : file, file_len, size == 0 ? NULL : room, size);
    if (count != want) {
        printf("room that %s: the count is %zu and not %zu\n", what, count, want);
        return 0;
    }
    if (memcmp(room, expected, want) != 0) {
        printf("room that %s: other lines than expected\n", what);
        return 0;
    }
    for (i = 0; i < size + 2 * GUARD; i++) {
        if ((i < GUARD || i >= GUARD + want) && memory[i] != old_byte(i)) {
            printf("room that %s: a byte beyond the lines was changed\n", what);
            return 0;
        }
    }
    if (memcmp(file, kept, file_len) != 0) {
        printf("room that %s: the file was changed\n", what);
        return 0;
    }
    return 1;
}

int main(int argc, char **argv)
{
    size_t file_len, answer_len;
    int good;

    if (argc != 2 && argc != 3) {
        fprintf(stderr, "usage: rooms FILE [EXPECTED]\n");
        return 2;
    }
    file_len = read_file(argv[1], file);
    memcpy(kept, file, file_len);
    if (argc == 2) {
        answer_len = display_answer(file, file_len, memory, DISPLAY_ROOM);
        fwrite(memory, 1, answer_len, stdout);
        return 0;
    }
    answer_len = read_file(argv[2], expected);
    good = try_room("is ample", file_len, answer_len, DISPLAY_ROOM + 100);
    good &= try_room("just fits", file_len, answer_len, answer_len);
    good &= try_room("is a byte short", file_len, answer_len, answer_len - 1);
    good &= try_room("is empty", file_len, answer_len, 0);
    return good ? 0 : 1;
}

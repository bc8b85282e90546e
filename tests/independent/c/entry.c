/*
 * Lends the display's entry to a program of another language: one call for each request on standard input, to its end.
 *
 *   request  the length of the file, of the memory lent, of what lies before the room and of the room, each in eight bytes,
 *            lowest first; then the file and the memory
 *   reply    the count that the entry returned, in eight bytes; then the file and the memory as the call left them
 *
 * What should stand there is for the caller to judge.
 */
#include <stdio.h>
#include <stdlib.h>

#include "display.h"

#define MOST (4 * 1024 * 1024)

static uint8_t file[MOST], memory[MOST];

static void take(uint8_t *to, size_t length)
{
    if (length > MOST || fread(to, 1, length, stdin) != length) {
        fprintf(stderr, "entry: the request is too long or cut short\n");
        exit(2);
    }
}

static size_t number(const uint8_t *at)
{
    size_t sum = 0;

    for (int i = 7; i >= 0; i--) {
        sum = sum * 256 + at[i];
    }
    return sum;
}

int main(void)
{
    int first;

    while ((first = getchar()) != EOF) {
        uint8_t head[32] = {(uint8_t)first}, count[8];
        take(head + 1, sizeof head - 1);
        size_t file_len = number(head), memory_len = number(head + 8), before = number(head + 16), room_len = number(head + 24);
        take(file, file_len);
        take(memory, memory_len);
        if (before > memory_len || room_len > memory_len - before) {
            fprintf(stderr, "entry: the room is not in the memory\n");
            return 2;
        }
        size_t returned = display_answer(file, file_len, memory + before, room_len);
        for (int i = 0; i < 8; i++) {
            count[i] = (uint8_t)(returned >> (8 * i));
        }
        fwrite(count, 1, sizeof count, stdout);
        fwrite(file, 1, file_len, stdout);
        fwrite(memory, 1, memory_len, stdout);
        if (fflush(stdout) != 0) {
            return 2;
        }
    }
    return 0;
}

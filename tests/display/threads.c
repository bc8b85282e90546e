/*
 * Calls the display's entry from several threads at once, each with a stack of DISPLAY_STACK bytes and with a room of its own.
 *
 *   threads FILE EXPECTED     fails if a thread gets another answer than EXPECTED; a stack that does not suffice ends it
 *
 * A thread has a little less than its stack left for the call: what it needs to begin is on it too.
 */
#include <pthread.h>
#include <string.h>

#include "display.h"
#include "files.h"

#define THREADS 4

static uint8_t file[MOST], expected[MOST], rooms[THREADS][DISPLAY_ROOM];
static size_t file_len, answer_len;

/* Returns the room where the answer is as expected, and NULL where it is not. */
static void *answers(void *room)
{
    size_t count = display_answer(file, file_len, room, DISPLAY_ROOM);

    return count == answer_len && memcmp(room, expected, count) == 0 ? room : NULL;
}

int main(int argc, char **argv)
{
    pthread_attr_t attr;
    pthread_t threads[THREADS];
    int good = 1;

    if (argc != 3 || pthread_attr_init(&attr) != 0 || pthread_attr_setstacksize(&attr, DISPLAY_STACK) != 0) {
        fprintf(stderr, "usage: threads FILE EXPECTED\n");
        return 2;
    }
    file_len = read_file(argv[1], file);
    answer_len = read_file(argv[2], expected);
    for (int i = 0; i < THREADS; i++) {
        if (pthread_create(&threads[i], &attr, answers, rooms[i]) != 0) {
            fprintf(stderr, "threads: no thread\n");
            return 2;
        }
    }
    for (int i = 0; i < THREADS; i++) {
        void *room;
        good &= pthread_join(threads[i], &room) == 0 && room == rooms[i];
    }
    return good ? 0 : 1;
}

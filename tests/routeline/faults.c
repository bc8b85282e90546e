/*
 * Faults of the system, for the runs of `routeline`: a library that is loaded with the program and stands between it and the
 * C library's read, write and nanosleep. What goes wrong is a plan, given in the environment, so a fault that is rare on a
 * real system comes at the same call in every run.
 *
 *   READS   what the reads of standard input do, in order, a word a call:
 *               a number   at most so many bytes are moved
 *               an error   EINTR, EAGAIN, EIO or ENOSPC: the call fails with it and nothing is moved
 *               all        the call is passed on as it is
 *               again      the last word only: the plan starts over
 *           After the last word, and without a plan, every call is passed on.
 *   WRITES  the same of the writes to standard output
 *   SWAPS   a place and a text: when the program first writes to standard output, the bytes from that place on of what it
 *           last read are replaced by the text, in its own memory
 *   CALLS   a file that gets a line for each call: its name, its descriptor, how many bytes it asked for, and how many were
 *           moved or, below zero, the error. A pause has the descriptor -1 and asks for nanoseconds.
 *
 * A call that succeeds leaves an errno that means nothing, as the system may. A plan that cannot be read ends the program.
 */
#include <errno.h>
#include <fcntl.h>
#include <stdio.h>
#include <stdlib.h>
#include <string.h>
#include <time.h>
#include <unistd.h>

/* The C library's own calls, under names of theirs that are not stood between; a pause has clock_nanosleep. */
ssize_t __read(int file, void *to, size_t most);
ssize_t __write(int file, const void *from, size_t length);

/* What errno says after a success: an error that none of these calls gives. */
#define MEANS_NOTHING EDOM

/* A plan: the variable that has it, and the words of it that are not yet used. */
struct plan {
    const char *name;
    const char *rest;
};

/* The length of the longest word, with its end. */
#define WORD 16

/* Takes the next word of a plan; "all" where there is none. */
static void next_word(struct plan *plan, char word[WORD])
{
    const char *whole = getenv(plan->name);
    size_t length;

    if (whole == NULL) {
        whole = "";
    }
    if (plan->rest == NULL || strcmp(plan->rest, "again") == 0) {
        plan->rest = whole;
    }
    length = strcspn(plan->rest, " ");
    if (length >= WORD) {
        abort();
    }
    memcpy(word, plan->rest, length);
    word[length] = '\0';
    plan->rest += length;
    plan->rest += strspn(plan->rest, " ");
    if (length == 0) {
        strcpy(word, "all");
    }
}

/* What a plan says of this call: an error, or 0 and how many bytes may be moved at most. */
static int planned(struct plan *plan, size_t *most)
{
    static const struct {
        const char *name;
        int number;
    } errors[] = {{"EINTR", EINTR}, {"EAGAIN", EAGAIN}, {"EIO", EIO}, {"ENOSPC", ENOSPC}};
    char word[WORD];
    size_t number;
    char *end;

    next_word(plan, word);
    for (size_t i = 0; i < sizeof errors / sizeof errors[0]; i++) {
        if (strcmp(word, errors[i].name) == 0) {
            return errors[i].number;
        }
    }
    if (strcmp(word, "all") == 0) {
        return 0;
    }
    number = strtoul(word, &end, 10);
    if (end == word || *end != '\0') {
        abort();
    }
    if (number < *most) {
        *most = number;
    }
    return 0;
}

/* Notes a call and gives the program what came of it: how many bytes were moved, or the error. */
static ssize_t gives(const char *name, int file, size_t asked, ssize_t moved, int error)
{
    static int calls = -1;
    const char *log = getenv("CALLS");

    if (log != NULL && calls < 0) {
        int low = open(log, O_WRONLY | O_APPEND);

        /* out of the way of a standard descriptor that is closed, and must stay so */
        calls = fcntl(low, F_DUPFD, 100);
        close(low);
    }
    if (log != NULL && dprintf(calls, "%s %d %zu %zd\n", name, file, asked, error != 0 ? -error : moved) < 0) {
        abort();
    }
    errno = error != 0 ? error : MEANS_NOTHING;
    return error != 0 ? -1 : moved;
}

/* What the program last read. */
static char *heard;
static size_t heard_length;

ssize_t read(int file, void *to, size_t most)
{
    static struct plan reads = {"READS", NULL};
    size_t asked = most;
    int error = file == STDIN_FILENO ? planned(&reads, &most) : 0;
    ssize_t moved = error != 0 ? -1 : __read(file, to, most);

    if (moved < 0 && error == 0) {
        error = errno;
    }
    if (moved > 0) {
        heard = to;
        heard_length = (size_t)moved;
    }
    return gives("read", file, asked, moved, error);
}

/* Replaces bytes of what the program last read, once. */
static void swap(void)
{
    static int swapped;
    const char *swaps = getenv("SWAPS");
    size_t place;
    char *text;

    if (swaps == NULL || swapped) {
        return;
    }
    place = strtoul(swaps, &text, 10);
    text += strspn(text, " ");
    if (place + strlen(text) > heard_length) {
        abort();
    }
    memcpy(heard + place, text, strlen(text));
    swapped = 1;
}

ssize_t write(int file, const void *from, size_t length)
{
    static struct plan writes = {"WRITES", NULL};
    size_t asked = length;
    int error = file == STDOUT_FILENO ? planned(&writes, &length) : 0;
    ssize_t moved = error != 0 ? -1 : __write(file, from, length);

    if (moved < 0 && error == 0) {
        error = errno;
    }
    if (file == STDOUT_FILENO) {
        swap();
    }
    return gives("write", file, asked, moved, error);
}

int nanosleep(const struct timespec *wanted, struct timespec *left)
{
    size_t nanoseconds = (size_t)wanted->tv_sec * 1000000000 + (size_t)wanted->tv_nsec;
    int error = clock_nanosleep(CLOCK_REALTIME, 0, wanted, left);

    return (int)gives("nanosleep", -1, nanoseconds, 0, error);
}

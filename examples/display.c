/*
 * A small display: reads a district file with one query and says its answer in words.
 *
 *   display FILE        or, with no FILE, from standard input
 *
 * Exit status: 0 a route, no route, a provisional route or undecided, 1 the query or the file is refused, 2 there is no answer
 * to say, or not all of it could be written (the reason stands on standard error, and what was written is not to be used).
 */
#include <errno.h>
#include <inttypes.h>
#include <stdio.h>
#include <stdlib.h>
#include <string.h>

#include "display.h"

/* What each refusal says, what its place counts, and what a person should do about it. */
struct refusal {
    const char *place;
    const char *means;
    const char *todo;
};

static const struct refusal refusals[] = {
    {NULL, "unknown refusal", "the display and its library are of different versions; install them together."},
    {NULL, "the district has no nodes or more than 2,048", "ask for a file of a smaller district."},
    {NULL, "the district has more than 8,192 arcs", "ask for a file of a smaller district."},
    {NULL, "a potential list is too short", "the display and its library are of different versions; install them together."},
    {NULL, "the start or the end is no node of this district", "choose a start and an end on this district's map."},
    {NULL, "the turn pattern is empty, too long, or has an entry other than 0 and 1", "correct the pattern of the query."},
    {NULL, "a work list is too short", "the display and its library are of different versions; install them together."},
    {"arc", "the arc has an end that is no node, or too large a weight", "do not use this district; ask for a corrected file."},
    {"node", "a potential of the node is out of range", "do not use this district; ask for a corrected file."},
    {"arc", "the potentials break the consistency rule at this arc",
     "do not use this district; ask for a file whose potentials were computed for its present weights."},
    {"line", "the line is no sound frame", "the file is damaged or cut short; load it again, and if that does not help ask for a corrected file."},
    {"line", "the line may not stand there, or a line is missing", "ask for a file with its lines in order and one query."},
};

/* Loading a file again cannot mend what was written so; and it may help where the end is missing. */
static const char *const carriage_returns = "the file has carriage returns; have its line ends converted to line feeds alone.";
static const char *const lower_case = "the file has lower-case digits; have it written with upper-case ones.";
static const char *const byte_order_mark = "the file begins with a byte order mark; have it written without one.";
static const char *const spaces = "the line has a space; have the file written without spaces.";
static const char *const no_such_frame = "no frame has this kind and length; ask for a corrected file.";
static const char *const ends_early = "the file ends too early; load it again, and if that does not help ask for a whole one.";

/* Reads all of a stream into memory that the caller frees. Returns NULL where that fails, with errno set. */
static uint8_t *read_all(FILE *in, size_t *length)
{
    size_t room = 65536, used = 0;
    uint8_t *bytes = malloc(room);

    while (bytes != NULL) {
        used += fread(bytes + used, 1, room - used, in);
        if (used < room) {
            break;
        }
        uint8_t *larger = room > SIZE_MAX / 2 ? NULL : realloc(bytes, room * 2);
        if (larger == NULL) {
            free(bytes);
            errno = ENOMEM;
            return NULL;
        }
        bytes = larger;
        room *= 2;
    }
    if (bytes != NULL && ferror(in)) {
        free(bytes);
        return NULL;
    }
    *length = used;
    return bytes;
}

/* The number that `digits` upper-case hexadecimal digits give; the answer lines hold nothing else. */
static uint32_t field(const uint8_t *at, size_t digits)
{
    uint32_t number = 0;

    for (size_t i = 0; i < digits; i++) {
        number = number * 16 + (uint32_t)(at[i] <= '9' ? at[i] - '0' : at[i] - 'A' + 10);
    }
    return number;
}

static void say_duration(uint32_t tenths)
{
    uint32_t seconds = tenths / 10;

    printf("%" PRIu32 " %s of a second (", tenths, tenths == 1 ? "tenth" : "tenths");
    if (seconds >= 3600) {
        printf("%" PRIu32 " h ", seconds / 3600);
    }
    if (seconds >= 60) {
        printf("%" PRIu32 " min ", seconds / 60 % 60);
    }
    printf("%" PRIu32 ".%" PRIu32 " s)", seconds % 60, tenths % 10);
}

/* The figures of a search: turns, opened by each side, rejected, four digits each. */
static void say_figures(const uint8_t *at)
{
    uint32_t turns = field(at, 4), opened = field(at + 4, 4);

    printf("The search took %" PRIu32 " turn%s: %" PRIu32 " node%s opened from the start side, %" PRIu32
           " from the end side, %" PRIu32 " rejected.\n",
           turns, turns == 1 ? "" : "s", opened, opened == 1 ? "" : "s", field(at + 8, 4), field(at + 12, 4));
}

/* The line after a line that has one. */
static const uint8_t *line_after(const uint8_t *line, const uint8_t *end)
{
    return (const uint8_t *)memchr(line, '\n', (size_t)(end - line)) + 1;
}

/* The nodes of a path's line, four digits each after its kind; `after` is where the next line begins. */
static void say_path(const uint8_t *path, const uint8_t *after)
{
    size_t nodes = (size_t)(after - path - 3) / 4;

    printf(" over %zu node%s: ", nodes, nodes == 1 ? "" : "s");
    for (size_t i = 0; i < nodes; i++) {
        printf("%s%" PRIu32, i == 0 ? "" : ", ", field(path + 2 + 4 * i, 4));
    }
    printf(".\n");
}

static void say_route(const uint8_t *line, const uint8_t *path, const uint8_t *after)
{
    printf("Route of ");
    say_duration(field(line + 2, 8));
    say_path(path, after);
    say_figures(line + 14);
}

/* A route found before the search was stopped, and how much quicker another may be at most. */
static void say_provisional(const uint8_t *line, const uint8_t *path, const uint8_t *after)
{
    uint32_t excess = field(line + 10, 8);

    printf("Provisional route of ");
    say_duration(field(line + 2, 8));
    say_path(path, after);
    printf("It leads from the start to the end. The search was stopped early, at its cap of turns");
    if (excess == 0) {
        printf(", but no route is quicker.\n");
    } else {
        printf(": the quickest route may be shorter, by at most ");
        say_duration(excess);
        printf(".\n");
    }
}

static void say_undecided(uint32_t turns)
{
    printf("Undecided: the search was stopped after %" PRIu32 " turn%s, before it had a route; there may be one or none.\n"
           "What to do: ask again with a larger cap of turns, or with none.\n",
           turns, turns == 1 ? "" : "s");
}

/* How many bytes from `at` on, before `end`, are among `digits`. */
static size_t count_digits(const uint8_t *at, const uint8_t *end, const char *digits)
{
    const uint8_t *from = at;

    while (at < end && *at != 0 && strchr(digits, *at) != NULL) {
        at++;
    }
    return (size_t)(at - from);
}

/* What to do about a file refusal of a line, by what stands there in the file: lines are counted from 1. */
static const char *todo_of_line(uint32_t number, uint32_t line, const uint8_t *file, size_t length)
{
    const uint8_t *end = file + length, *at = file, *feed;

    while (--line > 0 && (feed = memchr(at, '\n', (size_t)(end - at))) != NULL) {
        at = feed + 1;
    }
    if (at == end) {
        return ends_early;
    }
    feed = memchr(at, '\n', (size_t)(end - at));
    const uint8_t *line_end = feed == NULL ? end : feed;
    size_t upper = count_digits(at, line_end, "0123456789ABCDEF"), digits = count_digits(at, line_end, "0123456789ABCDEFabcdef");
    if (at == file && length >= 3 && memcmp(file, "\xEF\xBB\xBF", 3) == 0) {
        return byte_order_mark;
    }
    if (at + digits < line_end) {
        return at[digits] == '\r' ? carriage_returns : at[digits] == ' ' ? spaces : refusals[number].todo;
    }
    if (upper < digits) {
        return lower_case;
    }
    return number == 10 && feed != NULL ? no_such_frame : refusals[number].todo;
}

static void say_refusal(const uint8_t *answer, const uint8_t *file, size_t length)
{
    uint32_t number = field(answer + 2, 2), place = field(answer + 4, 8);
    const struct refusal *is = &refusals[number < sizeof refusals / sizeof refusals[0] ? number : 0];

    printf("Refused, number %" PRIu32, number);
    if (is->place != NULL) {
        printf(" at %s %" PRIu32, is->place, place);
    }
    printf(": %s.\nWhat to do: %s\n", is->means, number == 10 || number == 11 ? todo_of_line(number, place, file, length) : is->todo);
}

/* Says every line of the answer to a file; returns whether one of them was a refusal. */
static int say_answer(const uint8_t *answer, size_t written, const uint8_t *file, size_t length)
{
    const uint8_t *at = answer, *end = answer + written;
    int refused = 0;

    while (at < end) {
        const uint8_t *path = line_after(at, end), *next = path;
        switch (field(at, 2)) {
        case 0x81:
            next = line_after(path, end);
            say_route(at, path, next);
            break;
        case 0x84:
            next = line_after(path, end);
            say_provisional(at, path, next);
            break;
        case 0x85:
            say_undecided(field(at + 2, 4));
            break;
        case 0x80:
            printf("No route leads from the start to the end.\n");
            say_figures(at + 2);
            break;
        default:
            say_refusal(at, file, length);
            refused = 1;
        }
        at = next;
    }
    return refused;
}

int main(int argc, char **argv)
{
    static uint8_t room[DISPLAY_ROOM];
    const char *name = argc == 2 ? argv[1] : "standard input";
    size_t length = 0;

    if (argc > 2) {
        fprintf(stderr, "usage: display [FILE]\n");
        return 2;
    }
    FILE *in = argc == 2 ? fopen(argv[1], "rb") : stdin;
    uint8_t *file = in == NULL ? NULL : read_all(in, &length);
    if (file == NULL) {
        fprintf(stderr, "display: %s: %s\n", name, strerror(errno));
        return 2;
    }
    size_t written = display_answer(file, length, room, sizeof room);
    if (written == 0) {
        fprintf(stderr, "display: the answer does not fit in a room of %d bytes\n", DISPLAY_ROOM);
        return 2;
    }
    int refused = say_answer(room, written, file, length);
    free(file);
    int lost = ferror(stdout);
    errno = 0;
    if (fclose(stdout) != 0 || lost) {
        fprintf(stderr, "display: standard output: %s\n", errno != 0 ? strerror(errno) : "a write failed");
        return 2;
    }
    return refused;
}

/*
 * display.h: the route answer of a district file, for the unit's display.
 *
 * One function. It reads the bytes of a district file with exactly one query, with a cap on its turns (a 07 line) or without
 * (a 04 line), and writes the answer lines into a room that the caller lends. What it does is proved for every file and every
 * room; how much stack it takes is measured. The archive libdisplay.a is for x86-64 programs; it asks for memcpy and memset of
 * the C library and for nothing else.
 *
 * Compile and link a program, or make a shared object, which then exports the function (README.md says how libdisplay.a is made):
 *   cc -std=c99 -Iinclude examples/display.c libdisplay.a -o display
 *   cc -shared -Wl,-u,display_answer libdisplay.a -o libdisplay.so
 */
#ifndef DISPLAY_H
#define DISPLAY_H

#include <stddef.h>
#include <stdint.h>

#ifdef __cplusplus
extern "C" {
#endif

/*
 * A room of this many bytes always suffices, and one that is smaller may not: the line of a route (31 bytes; a provisional
 * one's has 19), the line of a path over 2,048 nodes (8,195) and the line of a file refusal that follows the answer (13).
 */
#define DISPLAY_ROOM (31 + 8195 + 13)

/*
 * The most stack that a call took, in bytes, from its return address on. It is the archive's own, on x86-64; the C library's
 * memcpy and memset come on top. Most of it holds the district: its arcs, the index of its arcs by node and its potentials, and
 * the lists of the search, its two queues among them. There is no recursion, and the files that were
 * tried, the largest districts among them, hardly differ.
 * tests/display/stack.c measures it, and .ci/checks/display fails where the figure is another.
 */
#define DISPLAY_STACK_TAKEN 229820

/*
 * The stack that the calling thread should have left for a call: more than twice that, which leaves enough for the C library
 * and for a compiler that lays things out otherwise.
 */
#define DISPLAY_STACK (512 * 1024)

/*
 * Answers the query of a district file.
 *
 *   file, file_len   the bytes of the file; they are read and not changed
 *   room, room_len   where the answer goes
 *
 * The answer lines are, one after the other, each ended by a line feed (no 0 byte is added):
 *   81.. and 82..    a route with its figures, and its path
 *   80..             no route, with its figures
 *   84.. and 82..    a provisional route, where the cap of a 07 stopped the search: its length, the most by which the
 *                    shortest length may be less, and its path
 *   85..             undecided, with its turns: the cap stopped the search before it had a route
 *   FF..             a refusal with its number and place; it may also follow the lines above, when the file goes on after
 *                    its query with what may not stand there
 *
 * README.md has the fields of each line; lengths are tenths of a second.
 *
 * Returns the count of bytes written, which is at least 7. The bytes of the room beyond them are unchanged.
 * Returns 0 if the lines do not fit, and only then: no answer is empty. Then the whole room is unchanged, and a larger room
 * gives the answer.
 *
 * The caller sees to it that
 *   - file may be read for file_len bytes and room read and written for room_len bytes while the function runs;
 *     a pointer may be NULL only where its length is 0;
 *   - the two do not overlap, and no other thread writes either of them meanwhile;
 *   - neither length is above PTRDIFF_MAX;
 *   - the calling thread has DISPLAY_STACK bytes of stack left.
 *
 * Nothing is kept between calls and nothing global is used: calls from several threads, each with its own room, do not
 * disturb each other. It allocates nothing, makes no system call and always returns.
 */
size_t display_answer(const uint8_t *file, size_t file_len, uint8_t *room, size_t room_len);

#ifdef __cplusplus
}
#endif

#endif

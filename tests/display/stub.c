/*
 * Stands in for the display's entry in a shared object for the machine at hand, so that examples/display.py runs where the
 * archive's does not: the file itself is the answer, where it fits.
 */
#include <string.h>

#include "display.h"

size_t display_answer(const uint8_t *file, size_t file_len, uint8_t *room, size_t room_len)
{
    if (room_len < file_len) {
        return 0;
    }
    memcpy(room, file, file_len);
    return file_len;
}

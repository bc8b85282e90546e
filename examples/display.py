"""Prints the answer lines of a district file, by the display's entry in a shared object: display.py ./libdisplay.so FILE"""
import ctypes
import sys

entry = ctypes.CDLL(sys.argv[1]).display_answer
entry.argtypes = [ctypes.c_char_p, ctypes.c_size_t, ctypes.c_char_p, ctypes.c_size_t]
entry.restype = ctypes.c_size_t
with open(sys.argv[2], "rb") as source:
    file = source.read()
room = ctypes.create_string_buffer(16384)  # more than DISPLAY_ROOM of include/display.h
written = entry(file, len(file), room, len(room))
sys.stdout.write(room.raw[:written].decode("ascii"))

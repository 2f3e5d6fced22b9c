"""Answers words and the source on standard input by the shared library: python3 library/example.py build/libtagymelur.so layout D < my.src"""
import ctypes
import sys

FIRST_ROOM, MOST_ROOM = 1 << 16, 1 << 25


def answer(library, words, source):
    """The text and the status. Where the text does not fit, a larger buffer is tried."""
    call = library.tagymelur_answer
    call.restype = ctypes.c_uint8
    joined = b"".join(word.encode() + b"\0" for word in words)
    room, written = FIRST_ROOM, ctypes.c_size_t()
    while True:
        text = ctypes.create_string_buffer(room)
        status = call(joined, ctypes.c_size_t(len(joined)), source, ctypes.c_size_t(len(source)), text, ctypes.c_size_t(room), ctypes.byref(written))
        if status != 7 or room == MOST_ROOM:
            return text.raw[:written.value], status
        room *= 2


if __name__ == "__main__":
    if len(sys.argv) < 2:
        sys.exit("usage: example.py LIBRARY [WORD ..] < SOURCE")
    told, status = answer(ctypes.CDLL(sys.argv[1]), sys.argv[2:] or ["layout"], sys.stdin.buffer.read())
    sys.stdout.buffer.write(told)
    sys.exit(status)

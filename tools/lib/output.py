"""Writes a text to standard output as UTF-8, or as the bytes of a program's output, whatever the words of the system are."""
import sys


def write(text):
    sys.stdout.buffer.write(text.encode())
    sys.stdout.buffer.flush()


def write_bytes(text, stream=None):
    """Writes a text whose characters stand for bytes, as those of what a program printed; one with a character beyond them, as in a name, as UTF-8."""
    stream = stream or sys.stdout
    try:
        data = text.encode("latin-1")
    except UnicodeEncodeError:
        data = text.encode()
    stream.flush()
    stream.buffer.write(data)
    stream.buffer.flush()

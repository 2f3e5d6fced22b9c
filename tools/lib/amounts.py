"""Places and sizes in words. Both are numbers of bytes; those of bit-fields have eighths."""


def place_text(place):
    """`4`, or `4.3` for bit 3 of byte 4; the bits of a byte count from the lowest one."""
    return str(int(place)) if place == int(place) else f"{int(place)}.{_bits(place)}"


def size_text(size):
    """`4 bytes`, `3 bits`, or `1 byte and 3 bits`."""
    parts = [counted(int(size), "byte")] if size >= 1 else []
    parts += [counted(_bits(size), "bit")] if size != int(size) else []
    return " and ".join(parts) or "0 bytes"


def plain(size):
    """The number of bytes alone, or a text with the bits."""
    return str(int(size)) if size == int(size) else size_text(size)


def counted(number, word):
    return f"{number} {word}{'' if number == 1 else 's'}"


def _bits(number):
    return round(8 * (number - int(number)))

"""Where the rules of the language put bit-fields (docs/LAYOUT.md). Places are bits from the start of the class."""
from .stand_ins import WIDTHS


def place(free, width, size):
    """The first bit of a bit-field whose type has so many bytes, where `free` is the first free bit."""
    unit = 8 * size
    return free if free // unit == (free + width - 1) // unit else -(-free // unit) * unit


def filler(free, first, most):
    """Bit-fields that take the bits from `free` up to `first`: type, first bit and width of each. No type has more bytes than `most`."""
    found = []
    while free < first:
        size = next((one for one in sorted(WIDTHS) if one <= most and free // (8 * one) == (first - 1) // (8 * one)), most)
        end = min(first, (free // (8 * size) + 1) * 8 * size)
        found.append((WIDTHS[size], free, end - free))
        free = end
    return found

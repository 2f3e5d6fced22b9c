"""Where g++ puts bit-fields: a program sets each one of a zeroed object to all ones, and tells the first and the last bit that changed."""
import os
import subprocess

from . import clang
from .problem import Problem

SECONDS = 60
HEAD = """extern "C" int printf(const char *, ...);
static void tell(const char *name, const unsigned char *bytes, unsigned long size) {
    long first = -1, last = -1, count = 0;
    for (unsigned long bit = 0; bit < 8 * size; ++bit)
        if (bytes[bit / 8] >> bit % 8 & 1) { first = first < 0 ? bit : first; last = bit; ++count; }
    printf("%s %ld %ld %ld\\n", name, first, last, count);
}
"""


def places(text, flags, sources):
    """The first and the last bit of each bit-field by the names of source, class and member; `text` has the classes."""
    asked = [(name, one, field.name) for name, found in sources.items() for one, record in found.items() for field in record.fields if field.width is not None]
    if not asked:
        return {}

    def work(folder):
        program = os.path.join(folder, "bits")
        _, said, good = clang.call(["g++", *flags, "-O0", "-x", "c++", "-o", program, "-"], HEAD + text + _main(asked), folder)
        if not good:
            raise Problem("g++ does not take the bit-fields: " + "; ".join(line for line in said.splitlines() if "error" in line)[:300])
        return subprocess.run([program], stdout=subprocess.PIPE, timeout=SECONDS, encoding="ascii", check=True).stdout

    try:
        lines = clang.in_folder(work).splitlines()
    except (subprocess.SubprocessError, OSError) as error:
        raise Problem(f"the program that g++ makes of the bit-fields does not run: {error}") from None
    found = {}
    for number, first, last, count in (map(int, line.split()) for line in lines):
        if count != last - first + 1:
            raise Problem(f"g++ sets {count} bits of {'.'.join(asked[number][1:])} between {first} and {last}, which is no run of bits")
        found[asked[number]] = (first, last)
    return found


def _main(asked):
    lines = []
    for number, (name, one, field) in enumerate(asked):
        room = f"static unsigned long room[(sizeof({name}::{one}) + 7) / 8];"
        lines.append(f'    {{ {room} (({name}::{one} *)room)->{field} = -1; tell("{number}", (unsigned char *)room, sizeof room); }}\n')
    return "int main() {\n" + "".join(lines) + "}\n"

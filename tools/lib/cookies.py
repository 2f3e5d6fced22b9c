"""What `new C[n]` asks of a replaced operator new[] in programs that compilers build, beside what `array` says."""
import os
import re
import subprocess

from . import clang, compilers, cpp_text, program
from .compare import Difference
from .problem import Problem

SECONDS = 60
COUNTS = (1, 2, 3, 5)
HEAD = """extern "C" int printf(const char *, ...);
extern "C" void *malloc(unsigned long);
static char *block; static unsigned long asked, ended; static void *ends[4096];
void *operator new[](unsigned long size) { asked = size; return block = (char *)malloc(size); }
void operator delete[](void *) throw() {}
static void tell(void *one) { if (ended < 4096) ends[ended++] = one; }
template <class C> static void array(int number, int count, bool tells) {
    C *first = new C[count];
    unsigned long cookie = (char *)first - block;
    printf("%d region %lu cookie %lu", number, asked, cookie);
    if (cookie) printf(" count %lu", *((unsigned long *)first - 1));
    for (int i = 0; i < count; ++i) printf(" element %d at %ld", i, (long)((char *)&first[i] - block));
    ended = 0;
    delete[] first;
    for (unsigned long i = 0; tells && i < ended; ++i)
        for (int k = 0; k < count; ++k) if (ends[i] == (void *)&first[k]) { printf(" end %d at %ld", k, (long)((char *)ends[i] - block)); break; }
    printf("\\n");
}
"""


def unit(sources, arrays):
    """The classes, whose destructors tell of the class that is asked for, and a main that makes and ends each array."""
    lines = []
    for number, (name, one, count) in enumerate(arrays):
        lines.append(f"    array<{name}::{one}>({number}, {count}, {str(_tells(sources[name][one])).lower()});\n")
    text = "".join(cpp_text.in_namespace(name, _classes(found)) for name, found in sources.items())
    return HEAD + text + "int main() {\n" + "".join(lines) + "}\n"


def _tells(one):
    """Whether a class declares a destructor, which then tells each object that ends; one of a base at the same place would tell a second time."""
    return any(function.kind == "destructor" and not function.pure for function in one.functions)


def _classes(found):
    """The classes, where each destructor tells the object that it ends."""
    return re.sub(r"(~\w+\(\)) \{\}", r"\1 { tell(this); }", cpp_text.source_text(found))


def by_compiler(compiler, sources, arrays):
    """What a program tells of each array: a line of words by its number."""
    def work(folder):
        path = os.path.join(folder, "arrays")
        _, said, good = clang.call([compiler, *compilers.FLAGS, "-O0", "-x", "c++", "-o", path, "-"], unit(sources, arrays), folder)
        if not good:
            raise Problem(f"{compiler} does not take the arrays: " + "; ".join(line for line in said.splitlines() if "error" in line)[:300])
        return subprocess.run([path], stdout=subprocess.PIPE, timeout=SECONDS, encoding="ascii", check=True).stdout

    try:
        lines = clang.in_folder(work).splitlines()
    except (subprocess.SubprocessError, OSError) as error:
        raise Problem(f"the program that {compiler} makes of the arrays does not run: {error}") from None
    return {int(line.split(" ", 1)[0]): line.split(" ", 1)[1] for line in lines}


def words_of(answer, tells):
    """The answer of the program in the same words."""
    words = []
    for line in answer.splitlines():
        sort, rest = line.split(" ", 1)
        if sort == "count":
            rest = str(int.from_bytes(bytes.fromhex(rest), "little"))
        if sort != "end" or tells:
            words.append(f"{sort} {rest}")
    return " ".join(words)


def once(words):
    """The words without a second end of one element, which the destructor of a base at its start tells."""
    found = []
    for part in re.findall(r"\w+ \d+(?: at \d+)?", words):
        if part not in found or not part.startswith("end"):
            found.append(part)
    return " ".join(found)


def differences(sources, texts, chosen):
    """The differences of a batch, for each compiler, and how many arrays were compared, and how many have a cookie."""
    arrays, answers = [], []
    for name, classes in sources.items():
        for number, one in enumerate(classes):
            count = COUNTS[number % len(COUNTS)]
            answer, status = program.answer(["array", f"{one}@{count}"], texts[name])
            if status == 0:
                arrays.append((name, one, count))
                answers.append(words_of(answer, _tells(classes[one])))
            elif not re.match(r"refused A[12] ", answer):
                raise program.refused(["array", f"{one}@{count}"], answer, status)
    found = []
    for compiler in chosen if arrays else []:
        told = by_compiler(compiler, sources, arrays)
        for number, ((name, one, count), answer) in enumerate(zip(arrays, answers)):
            if once(told.get(number, "nothing")) != answer:
                found.append(Difference(name, one, compiler, [f"new {one}[{count}]: {answer}", f"{compiler}: {once(told.get(number, 'nothing'))}"], ""))
    return found, len(arrays), sum("cookie 0" not in answer for answer in answers)

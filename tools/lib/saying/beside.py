"""The same program as a compiler builds it: what it writes, and where that differs."""
import os
import re
import subprocess

from .. import clang

SECONDS = 20
REPORT = re.compile(r"(?:runtime error|ERROR: AddressSanitizer): (.*?)(?: on (?:unknown )?address .*)?$", re.M)


def built(compiler, files, flags):
    """What the program prints and its status, built by a compiler; None and what it said where it is not taken."""
    return reported(compiler, files, flags)[:2]


def reported(compiler, files, flags):
    """The same, and what a sanitizer among the flags reports first, or an empty text. A leak at the end counts as nothing."""

    def work(folder):
        program = os.path.join(folder, "program")
        sources = [os.path.abspath(file) for file in files]
        _, said, good = clang.call([compiler, "-w", "-O0", *flags, "-x", "c++", *sources, "-o", program])
        if not good:
            return None, next((line for line in said.splitlines() if "error" in line), "it gives no program"), ""
        try:
            done = subprocess.run([program], stdout=subprocess.PIPE, stderr=subprocess.PIPE, timeout=SECONDS, cwd=folder, env={**os.environ, "ASAN_OPTIONS": "detect_leaks=0"})
        except subprocess.TimeoutExpired:
            return None, f"the program does not end in {SECONDS} seconds", ""
        report = REPORT.search(done.stderr.decode("latin-1"))
        return done.stdout.decode("latin-1"), 128 - done.returncode if done.returncode < 0 else done.returncode, report[1] if report else ""

    return clang.in_folder(work)


def first_difference(ours, theirs):
    """The number of the first line that differs, from 1, with both lines; None where the texts are the same."""
    left, right = ours.splitlines(), theirs.splitlines()
    for number in range(max(len(left), len(right))):
        one = left[number] if number < len(left) else "no line"
        other = right[number] if number < len(right) else "no line"
        if one != other or (number >= len(left)) != (number >= len(right)):
            return number + 1, one, other
    return None

"""Runs Tagymelur itself on a source."""
import os
import subprocess

from .problem import Problem

TOP = os.path.dirname(os.path.dirname(os.path.dirname(os.path.abspath(__file__))))
BUILT = os.path.join(TOP, "crates", "tagymelur", "out", "tagymelur")
STATUSES = {6: "the source could not be read", 7: "the text could not be written", 8: "there was no memory", 9: "the system did not give the words"}


def path():
    """The program: the one that the variable TAGYMELUR names, else the built one. No tool builds it."""
    return os.environ.get("TAGYMELUR") or BUILT


def missing(error):
    """The problem of a program that cannot be run."""
    if path() == BUILT and not os.path.exists(BUILT):
        return Problem("the program is not built; ./tagymelur check < examples/diamond.cpp proves and builds it, or TAGYMELUR=PATH names one", 2)
    return Problem(f"{path()} cannot be run: {error.strerror or error}; ./tagymelur builds the program, and TAGYMELUR=PATH names one", 2)


def binary():
    """The program, which must be a binary where it is timed, or where a library stands before it: no script runs it."""
    try:
        with open(path(), "rb") as file:
            front = file.read(4)
    except OSError as error:
        raise missing(error) from None
    if front != b"\x7fELF":
        raise Problem(f"{path()} is no binary; build the program by ./tagymelur, or name one by TAGYMELUR=PATH", 2)
    return path()


def answer(words, source, seconds=None):
    """The text and the status that the program gives for words and a source; `subprocess.TimeoutExpired` after so many seconds."""
    try:
        done = subprocess.run([path(), *words], input=source.encode("latin-1", "replace"), stdout=subprocess.PIPE, timeout=seconds)
    except (OSError, ValueError) as error:
        raise missing(error) if isinstance(error, OSError) else Problem(f"the words cannot be given to a program: {error}", 2) from None
    return done.stdout.decode("latin-1"), done.returncode


def text_of(words, source):
    """The text of a command that the source must pass; a refusal or a limit is a problem of the source."""
    text, status = answer(words, source)
    if status == 0:
        return text
    raise refused(words, text, status)


def refused(words, text, status):
    """The problem of a source that the program does not take, or of words that it does not know."""
    if status == 2:
        return Problem(f"this build of Tagymelur has no command '{' '.join(words)}'", 2)
    if status < 0 or status in STATUSES:
        return Problem(f"{path()} gave no answer: {STATUSES.get(status) or f'it was ended by signal {-status}'}", 2)
    said = text.strip().splitlines()[-1] if text.strip() else f"status {status}"
    return Problem(f"the source is not taken: {said}. Run tools/explain {words[0]} on it, and it shows the place and the rule")

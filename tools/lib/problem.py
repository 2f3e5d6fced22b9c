"""What the user can mend: one sentence that says what to do, and a status that is not 0."""
import argparse
import errno
import os
import sys


REFUSED = (errno.EACCES, errno.EPERM, errno.ENOENT, errno.ENOMEM, errno.EMFILE, errno.ENFILE, errno.ENOSYS)  # what writing to a stream never meets


class Problem(Exception):
    """Something that the user can mend. The status is 1 where a source is not taken, and 2 for bad words, a file that cannot
    be read or written, or a program that is missing."""

    def __init__(self, sentence, status=1):
        super().__init__(sentence)
        self.status = status


def run(name, main, words, stopped=None):
    """Calls main on the words, and ends with its status. No problem ends in a traceback; its status is `stopped`, where 1 says
    something else."""
    try:
        _flush()
        status = main(words) or 0
        _flush()
    except Problem as problem:
        status = _tell(name, problem, stopped or problem.status)
    except BrokenPipeError:
        status = 0
    except KeyboardInterrupt:
        status = 130
    except OSError as error:
        what = error.filename or ("what the tool needs of the system" if error.errno in REFUSED else "standard output")
        status = _tell(name, f"{what} cannot be used: {error.strerror}", 2)
    _end(status)


def _flush():
    if sys.stdout is None:
        raise Problem("standard output is closed; lead it to a file or a terminal", 2)
    sys.stdout.flush()


def _tell(name, sentence, status):
    if sys.stderr is not None:
        print(f"{name}: {sentence}", file=sys.stderr)
    return status


def _end(status):
    """Ends with a status; what could not be written is not tried again."""
    try:
        _flush()
    except (OSError, Problem):
        if sys.stdout is not None:
            os.dup2(os.open(os.devnull, os.O_WRONLY), sys.stdout.fileno())
    sys.exit(status)


def read_text(path):
    """The text of a file, or of standard input where the path is '-'."""
    return read_bytes(path).decode("latin-1")


def read_bytes(path):
    """The bytes of a file, or of standard input where the path is '-'."""
    try:
        if path == "-":
            if sys.stdin is None:
                raise Problem("standard input is closed; give the source: < FILE", 2)
            return sys.stdin.buffer.read()
        with open(path, "rb") as file:
            return file.read()
    except (OSError, ValueError) as error:
        shown = "standard input" if path == "-" else path
        raise Problem(f"{shown} cannot be read: {getattr(error, 'strerror', error)}; give the path of a file", 2) from None


def make_folder(path):
    """Makes a folder, where it is not there."""
    try:
        os.makedirs(path, exist_ok=True)
    except OSError as error:
        raise Problem(f"{path} cannot be made: {error.strerror}; give the path of a folder", 2) from None


def write_text(path, text):
    """Writes a file."""
    write_bytes(path, text.encode("utf-8"))


def write_bytes(path, content):
    """Writes a file as it is."""
    try:
        with open(path, "wb") as file:
            file.write(content)
    except OSError as error:
        raise Problem(f"{path} cannot be written: {error.strerror}; give another path", 2) from None


def positive(word):
    """A number above 0, as a word of a command."""
    if not (word.isascii() and word.isdecimal()) or int(word) == 0:
        raise argparse.ArgumentTypeError(f"{word} is no number above 0")
    return int(word)


def class_and_file(arguments):
    """The words `[CLASS] [SOURCE]`: one word alone that names a file is the source."""
    if arguments.class_name and arguments.file == "-" and os.path.isfile(arguments.class_name):
        arguments.class_name, arguments.file = None, arguments.class_name
    return arguments

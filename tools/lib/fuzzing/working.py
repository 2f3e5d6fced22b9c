"""Tries inputs in a process of its own, many at a time, and brings back counts and faults."""
import collections
import functools
import signal

from . import answers, beside, commands, inputs, shrink

Task = collections.namedtuple("Task", "seed names seconds is_beside")
Found = collections.namedtuple("Found", "number words text fault shrunk")
Batch = collections.namedtuple("Batch", "counts sorts found said texts")  # the answers by command and status, and by the kind of the input and status
BY_CHANCE = "words by chance"
MOST_SMALLER = 3  # so many faults of a batch are made smaller


def leave_interrupts():
    """An interrupt from the terminal is for the tool, which ends its workers."""
    signal.signal(signal.SIGINT, signal.SIG_IGN)


@functools.cache
def judge_of(seconds):
    """The judge of this process."""
    return answers.Judge(seconds)


def tried(task, numbers):
    """Tries the inputs of these numbers, and counts the answers."""
    judge = judge_of(task.seconds)
    known = [command for command in commands.COMMANDS if command.name in task.names]
    counts, sorts, found, said, texts = collections.Counter(), collections.Counter(), [], collections.Counter(), {}
    for number in numbers:
        given = inputs.made(task.seed, number, known, judge.runner.plain)
        fault, answer = judge.fault(given)
        status = str(answer.status) if answer else "none"
        counts[given.command.name if given.command else BY_CHANCE, status] += 1
        sorts[given.sort, status] += 1
        if fault:
            text = smaller(judge, given, fault) if len(found) < MOST_SMALLER else given.text
            found.append(Found(number, given.words, given.text, fault, text))
        elif task.is_beside and given.sort in beside.SORTS:
            new = beside.said(judge, given)
            said.update(new)
            texts = beside.smallest(texts, beside.differing(new, given.text))
    return Batch(counts, sorts, found, said, texts)


def smaller(judge, given, fault):
    """A smaller text with the same fault; what is slow is left as it is."""
    return given.text if fault.sort == "slow" else shrink.Shrinking(judge, fault.sort).shrunk(given).text

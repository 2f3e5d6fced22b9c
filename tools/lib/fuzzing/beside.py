"""What g++ and clang++ take of the sources that tools/fuzz tries, beside the verdict of the program, counted by rule."""
import collections
import os
import re
import subprocess

from .. import clang
from . import answers

SORTS = ("mutants", "programs")  # the inputs that are near to C++
COMPILERS = ("g++", "clang++")
SECONDS = 600  # also where others have the processors
SHOWN = 12  # so many reasons of a compiler are shown

# C++03 without access control, which is no part of the language; the statements `print` and `dump` are functions
FLAGS = ["-x", "c++", "-std=c++03", "-w", "-fno-access-control", "-fsyntax-only", "-"]
HEAD = b"""namespace std { class type_info { public: bool operator==(const type_info&) const; bool operator!=(const type_info&) const; }; }
template <class T> void print(T); void print(const std::type_info&); template <class T> void dump(T*);
#line 1
"""


def need():
    """Both compilers must be there."""
    for compiler in COMPILERS:
        clang.need(compiler)


def said(judge, given):
    """The verdict of the program on a text, and what each compiler says, as counted items."""
    checked = judge.runner.answer([b"check"], given.text)
    rule = "taken" if checked.status == answers.DONE else " ".join(answers.last_line(checked).split()[1:3])
    found = collections.Counter({(rule, "inputs", ""): 1})
    for compiler in COMPILERS:
        reason = refused_by(compiler, given.text)
        if rule == "taken" and reason:
            found[rule, compiler, reason] += 1
        if rule != "taken" and not reason:
            found[rule, compiler, ""] += 1
    return found


def differing(found, text):
    """The text by each counted item in which a compiler says otherwise than the program."""
    return {item: text for item in found if item[1] in COMPILERS}


def smallest(*texts):
    """By each item the smallest of its texts, the first one of the smallest."""
    kept = {}
    for item, text in (pair for found in texts for pair in found.items()):
        kept[item] = min(kept.get(item, text), text, key=len)
    return kept


def sources(kept):
    """The smallest sources as bytes, each behind a line that says who takes it or why it is refused."""
    said = lambda rule, compiler, reason: f"refused here by {rule}, taken by {compiler}" if rule != "taken" else f"taken here, refused by {compiler}: {reason}"
    return b"".join(f"// {said(*item)}\n".encode() + kept[item] + b"\n\n" for item in sorted(kept))


def refused_by(compiler, text):
    """Why a compiler refuses a text, in its words without names and numbers; empty where it takes the text."""
    try:
        done = subprocess.run([compiler, *FLAGS], input=HEAD + text, stdout=subprocess.DEVNULL, stderr=subprocess.PIPE, timeout=SECONDS, env=dict(os.environ, LC_ALL="C"))
    except subprocess.TimeoutExpired:
        return "no answer"
    if done.returncode == 0:
        return ""
    errors = [line.split("error: ", 1)[1] for line in done.stderr.decode("latin-1").splitlines() if "error: " in line]
    return re.sub(r"\d+", "N", re.sub(r"'[^']*'", "_", errors[0]))[:120] if errors else "no error is told"


def table(counted):
    """The counts as lines: what is refused here and taken there, by rule, and the other way, by the compilers' reasons."""
    rules = sorted({rule for rule, _, _ in counted if rule != "taken"}, key=order)
    lines = [f"{'refused here by':24}  {'sources':>8}  {'g++ takes':>10}  {'clang++ takes':>13}"]
    for rule in rules:
        lines.append(f"{rule:24}  {counted[rule, 'inputs', '']:8}  {counted[rule, 'g++', '']:10}  {counted[rule, 'clang++', '']:13}")
    lines.append(f"taken here: {counted['taken', 'inputs', '']}")
    for compiler in COMPILERS:
        reasons = collections.Counter({reason: number for (rule, by, reason), number in counted.items() if rule == "taken" and by == compiler})
        lines.append(f"of these {compiler} refuses {sum(reasons.values())}")
        lines += [f"  {number:6}  {reason}" for reason, number in reasons.most_common(SHOWN)]
    return "".join(line + "\n" for line in lines)


def order(rule):
    """Rules stand by letter and number."""
    found = re.match(r"([A-Z])(\d+)", rule)
    return (found[1], int(found[2])) if found else ("Z", 0)

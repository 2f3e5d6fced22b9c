"""Manual pages and completions, from `--help`, README.md and LICENSE: nothing of them is written twice."""
import os
import re
import subprocess
import sys

from .problem import Problem
from .program import TOP

COMMANDS = ["check", "layout", "tables", "run", "paths", "array", "memptr", "inspect", "foreign", "gen"]


def page_text(*path):
    try:
        with open(os.path.join(TOP, *path), encoding="utf-8") as file:
            return file.read()
    except OSError as error:
        raise Problem(f"{os.path.join(TOP, *path)} cannot be read: {error.strerror}; run this tool inside the repository", 2) from None


def table(text, head):
    """The rows of a table of README.md, each a list of cells without the marks of code."""
    if head not in text:
        raise Problem(f"README.md has no table that begins with {head!r}", 2)
    lines = text[text.index(head):].split("\n\n")[0].splitlines()[2:]
    return [[cell.strip().replace("`", "") for cell in line.strip().strip("|").split(" | ")] for line in lines]


def quoted(text):
    """A text as roff: no line of it is a request."""
    return "\n".join("\\&" + line.replace("\\", "\\e").replace("-", "\\-") if line.startswith((".", "'")) else line.replace("\\", "\\e").replace("-", "\\-") for line in text.splitlines())


def _head(name, version, sentence):
    return f'.TH {name.upper()} 1 "" "Tagymelur {version}"\n.SH NAME\n{quoted(name)} \\- {quoted(sentence)}\n'


def plain(text):
    """A text of Markdown without its links and emphasis."""
    return re.sub(r"\*([^*]+)\*", r"\1", re.sub(r"\[([^]]+)\]\([^)]*\)", r"\1", text))


def of_program(version):
    """The page of the program, from the tables of README.md."""
    text = page_text("README.md")
    words = "\n".join(f".TP\n.B {quoted(cells[0])}\n{quoted(plain(cells[1]))}" for cells in table(text, "| Command | What it answers |"))
    ends = "\n".join(f".TP\n.B {cells[0]}\n{quoted(plain(cells[1]))}: {quoted(plain(cells[2]))}" for cells in table(text, "| Exit status |"))
    return (_head("tagymelur", version, "a proved workbench for the C++ object model")
            + ".SH SYNOPSIS\n.B tagymelur\n.I COMMAND\n.RI [ CLASS ]\n.RB [ \\-\\-steps\n.IR N ]\n.RB [ \\-\\-trace ]\n.RI \"< \" SOURCE\n"
            + ".SH DESCRIPTION\nIt reads classes of C++ from standard input, and writes how the Itanium C++ ABI lays them out, their virtual tables, or what main prints.\n"
            + f".SH COMMANDS\n{words}\n.SH \"EXIT STATUS\"\n{ends}\n.SH \"SEE ALSO\"\nThe pages are in /usr/share/tagymelur/docs, as LANGUAGE.md and ERRORS.md.\n")


def help_of(tool):
    done = subprocess.run([sys.executable, os.path.join(TOP, "tools", tool), "--help"], stdout=subprocess.PIPE, stderr=subprocess.PIPE, encoding="utf-8", env={**os.environ, "COLUMNS": "100"})
    if done.returncode:
        raise Problem(f"tools/{tool} --help ends with status {done.returncode}", 2)
    return done.stdout


def of_tool(tool, version, said):
    """The page of a tool, from what its `--help` says."""
    usage, _, rest = said.partition("\n\n")
    sentence = " ".join(rest.split("\n\n")[0].split()).rstrip(".")
    usage = " ".join(usage.split()).replace("usage: tools/", "tagymelur\\-", 1)
    return (_head(f"tagymelur-{tool}", version, sentence[0].lower() + sentence[1:]) + f".SH SYNOPSIS\n{quoted(usage).replace(chr(92) + 'e' + chr(92) + '-', chr(92) + '-')}\n.SH DESCRIPTION\n.nf\n{quoted(rest)}\n.fi\n")


def options(said):
    """The options of a tool, and the words of which it takes one, as its `--help` lists them."""
    listed = [word for words in re.findall(r"\{([a-z,-]+)\}", said.partition("\n\n")[0]) for word in words.split(",")]
    return sorted(set(re.findall(r"(?<![\w-])--[a-z][a-z-]*", said))) + list(dict.fromkeys(listed))


def for_bash(helps):
    """The completion of the program and of all tools, in one file."""
    cases = "\n".join(f"        tagymelur-{tool}) words='{' '.join(options(said))}' ;;" for tool, said in helps.items())
    names = " ".join(["tagymelur", *(f"tagymelur-{tool}" for tool in helps)])
    return f"""# Completion of Tagymelur for bash.
_tagymelur() {{
    local words=''
    case ${{1##*/}} in
        tagymelur) words='{' '.join(COMMANDS)} --steps --trace' ;;
{cases}
    esac
    COMPREPLY=($(compgen -W "$words" -- "$2") $(compgen -f -- "$2"))
}}
complete -o filenames -F _tagymelur {names}
"""


def for_zsh(helps):
    cases = "\n".join(f"    tagymelur-{tool}) _values option {' '.join(options(said))}; _files ;;" for tool, said in helps.items())
    return f"""#compdef tagymelur {' '.join(f'tagymelur-{tool}' for tool in helps)}
# Completion of Tagymelur for zsh.
case $service in
    tagymelur) _arguments '--steps[the budget of steps]:number:' '--trace[tell each call, construction and destruction]' '1:command:({' '.join(COMMANDS)})' '*:class:_files' ;;
{cases}
esac
"""

"""A trace in the words of the user's program: without the classes and functions that only say it, and with the names of C++."""
import re

LINE = re.compile(r"(call|built|ending) (\w+)(?:::(\w+))? (#\d+\+\d+)")


def told(said, line):
    """A line of a trace as it is shown; None for one that is not shown, and the line itself where it is none of a trace."""
    found = LINE.fullmatch(line)
    if not found:
        return line
    event, name, function, place = found.groups()
    if event == "call" and name == said.functions:
        shown = said.function_names.get(function)
        return None if shown is None else f"call {shown}"
    if name not in said.names:
        return None
    if event == "call" and re.fullmatch(rf"{name}_(\d+|end)|at_\w+", function):
        return None
    return f"{event} {said.names[name]}{'::' + function if function else ''} {place}"


def traced(said, printed):
    """The lines of a traced run, without those that are not shown."""
    shown = (told(said, line) for line in printed.splitlines())
    return "".join(line + "\n" for line in shown if line is not None)

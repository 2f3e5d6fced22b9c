"""What the tests share: how a tool is run, and when a test is skipped."""
import os
import shutil
import subprocess
import sys
import unittest

TOOLS = os.path.dirname(os.path.dirname(os.path.abspath(__file__)))
sys.path.insert(0, TOOLS)
from lib import elf, problem, program  # noqa: E402


def run(tool, *words, text="", environment=None):
    """Runs a tool on words and standard input."""
    return subprocess.run([sys.executable, os.path.join(TOOLS, tool), *words], input=text, capture_output=True, encoding="utf-8", env=environment)


needs_program = unittest.skipUnless(os.access(program.path(), os.X_OK), "the program is not built: ./tagymelur builds it")


def needs(*commands):
    """Skips a test where a command is missing, and says which."""
    missing = [command for command in commands if shutil.which(command) is None]
    return unittest.skipIf(missing, f"{', '.join(missing)} missing")


def has_elftools():
    """Whether python3-pyelftools is there, by which object files are read."""
    try:
        elf.library()
    except problem.Problem:
        return False
    return True


needs_elftools = unittest.skipUnless(has_elftools(), "python3-pyelftools is missing: apt-get install python3-pyelftools")

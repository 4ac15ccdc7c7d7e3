"""Counts the instructions of a program by valgrind, for the benches that measure: nothing that runs beside it moves them."""
import re
import shutil
import subprocess

WORDS = ["valgrind", "--tool=callgrind", "--callgrind-out-file=/dev/null"]


class CannotCount(Exception):
    """There is no valgrind, or the program did not end well under it."""


def counted(command, text):
    """The instructions of a run over a text as its input."""
    if shutil.which(WORDS[0]) is None:
        raise CannotCount("instructions are counted by valgrind, which is not installed")
    ran = subprocess.run(WORDS + command, input=text.encode(), stdout=subprocess.DEVNULL, stderr=subprocess.PIPE)
    found = re.search(rb"Collected : (\d+)", ran.stderr)
    if ran.returncode != 0 or not found:
        raise CannotCount("%s ended with status %d under valgrind" % (" ".join(command), ran.returncode))
    return int(found[1])

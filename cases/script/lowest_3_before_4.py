"""A section line that is too long and has a word too many."""
import sys

sys.stdout.write("@setup" + " " * 65536 + "x\n")

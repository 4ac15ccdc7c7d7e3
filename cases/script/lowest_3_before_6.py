"""A section line that is too long and has no name."""
import sys

sys.stdout.write("@session" + " " * 65536 + "1\n")

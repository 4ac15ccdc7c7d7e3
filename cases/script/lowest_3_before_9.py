"""A line that is too long and is statement 100,001."""
import sys

sys.stdout.write("@setup\n" + "x\n" * 100000 + "x" * 65537)

"""A line that is too long and stands before the first section."""
import sys

sys.stdout.write("x" * 65537)

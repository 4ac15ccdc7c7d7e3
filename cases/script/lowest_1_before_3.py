"""A line that is too long and not UTF-8."""
import sys

sys.stdout.buffer.write(b"\xff" * 65537)

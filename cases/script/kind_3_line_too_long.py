"""A line of 65,537 bytes; its carriage return does not count."""
import sys

sys.stdout.write("@setup\n" + "x" * 65537 + "\r\n")

"""The line of a seventeenth session that is too long."""
import sys

sys.stdout.write("".join(f"@session {name}\n" for name in "abcdefghijklmnop") + "@session q" + " " * 65536)

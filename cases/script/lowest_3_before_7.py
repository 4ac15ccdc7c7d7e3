"""A section line that is too long and has a name that is used."""
import sys

sys.stdout.write("@session a\n@session a" + " " * 65536)

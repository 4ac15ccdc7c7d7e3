"""One byte more than a script may have, in lines that could stand."""
import sys

sys.stdout.write((" " * 4095 + "\n") * 4096 + "x")

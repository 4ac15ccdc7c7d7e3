"""An order line that is too long and has an item that is none."""
import sys

sys.stdout.write("@order" + " " * 65536 + "x")

"""An order line that is too long and has a turn too many."""
import sys

sys.stdout.write("@session a\n@order" + " " * 65536 + "a")

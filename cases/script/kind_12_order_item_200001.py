"""200,000 order items in twenty lines, and one more."""
import sys

sys.stdout.write("@session a\nbegin\n" + ("@order" + " clean" * 10000 + "\n") * 20 + "@order a")

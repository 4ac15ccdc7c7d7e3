"""Order item 200,001 is a turn too many."""
import sys

sys.stdout.write("@session a\nbegin\n" + ("@order" + " clean" * 10000 + "\n") * 20 + "@order a a")

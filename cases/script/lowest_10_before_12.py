"""Behind order item 200,001 stands one that is none."""
import sys

sys.stdout.write("@session a\nbegin\n" + ("@order" + " clean" * 10000 + "\n") * 20 + "@order a a a b")

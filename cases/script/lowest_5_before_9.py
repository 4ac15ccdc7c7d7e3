"""Statement 100,001 stands behind the order."""
import sys

sys.stdout.write("@setup\n" + "x\n" * 100000 + "@order\nx")

"""100,001 statements, half of them in the setup."""
import sys

sys.stdout.write("@setup\n" + "x\n" * 50000 + "@session a\n" + "x\n" * 50001)

"""As many bytes as a script may have, in one line."""
import sys

sys.stdout.write("x" * 16777216)

"""python -m jk.convert."""
import sys

from .._scripts import convert

sys.exit(convert())

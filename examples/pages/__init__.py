"""What the pages of sheet.py and live.py are made of. It stands on the package python/t1edit."""

import os
import sys

# (the package that stands beside this folder; an installed one needs no such line)
sys.path.insert(0, os.path.join(os.path.dirname(os.path.dirname(os.path.dirname(os.path.realpath(__file__)))), "python"))

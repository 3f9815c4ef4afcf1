# Generators of random inputs for the tests; no part of the product.
"""The programs that are tested."""

import os
import sys

CRATES = os.path.join(os.path.dirname(os.path.abspath(__file__)), "..", "..", "crates")


def built(crate):
    """The program of a crate, or the one that its environment variable names."""
    variable = crate.upper().replace("_", "")
    path = os.path.abspath(os.environ.get(variable) or os.path.join(CRATES, crate, "out", crate))
    if not os.access(path, os.X_OK):
        sys.exit(f"{path} is missing: rt run in crates/{crate} builds it")
    return path

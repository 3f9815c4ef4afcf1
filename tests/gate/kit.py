# How the tests are run and counted; no part of the product.
"""What the gate asks of the kit: whether its `rt ci` proves crates by name, and keeps what passed for the runs after it."""

import subprocess

FORGETS = "rattle-kit-13b "


def keeps_proofs():
    """Whether `rt ci` of this kit does; an older one takes no names and proves all from nothing each time."""
    return not subprocess.run(["rt", "version"], capture_output=True, text=True).stdout.startswith(FORGETS)

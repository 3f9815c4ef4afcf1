# How the tests are run and counted; no part of the product.
"""What a test needs and doesn't find: a line for each, and the line that ends a test.

There are two kinds. A package can be installed, and where CI=true the gate wants all of them (tests/all tells by the beginning
of the line). What a machine doesn't let a test do, as to mount a file system in a container, no package brings.
"""

NOT_INSTALLED = "skipped: "
NOT_LET = "skipped on this machine: "


class Skips:
    """Counts what is passed over."""

    def __init__(self):
        self.count = 0

    def lacks(self, what, need, package):
        """Something is skipped for want of what a Debian package has."""
        self.count += 1
        print(f"{NOT_INSTALLED}{what}: {need} isn't installed (package {package})", flush=True)

    def not_let(self, what, why):
        """Something is skipped since the machine doesn't let it be tried."""
        self.count += 1
        print(f"{NOT_LET}{what}: {why}", flush=True)


def closing(passed, failed, skipped=0):
    """The line that ends a test, or the gate."""
    return f"{passed} passed, {failed} failed" + (f", {skipped} skipped" if skipped else "")


def ended(passed, failed, skips):
    """Prints the line that ends a test, and gives its status."""
    print(closing(passed, failed, skips.count))
    return 1 if failed else 0

# Independent implementation that computes the tests' expected values; no part of the product.
"""The text of an outline."""


def numbers(points):
    """The coordinates of points, exact."""
    return " ".join(str(value) for point in points for value in point)


def outline_text(segments):
    """A line for each segment, and one for each that doesn't begin where the last one ended."""
    found, ended = [], None
    for segment in segments:
        if segment[0] != ended:
            found.append("M " + numbers(segment[:1]))
        found.append(("L " if len(segment) == 2 else "C ") + numbers(segment[1:]))
        ended = segment[-1]
    return "".join(line + "\n" for line in found).encode()

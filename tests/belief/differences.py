"""Where a page that is written from the sources isn't what they give."""

import difflib
import re

MOST = 40
SUM = re.compile(r".*; sum `\w+`\.")


def differences(name, old, new):
    """One text, with a line for each line that differs, under its heading; none where nothing differs."""
    if old == new:
        return
    lines, sums = [], []
    for heading, mark, line in changed_lines(old.split("\n"), new.split("\n")):
        if SUM.fullmatch(line):
            sums += [heading] if mark == "+" else []
        elif line.strip():
            lines.append(f"{name}: {heading}: {mark} {line.strip()}")
    if sums:
        others = f" and of {len(sums) - 1} more" if len(sums) > 1 else ""
        lines.append(f"{name}: another sum of what is below {sums[0]}{others}")
    more = [f"{name}: and {len(lines) - MOST} lines more"] if len(lines) > MOST else []
    yield "\n".join([f"{name} isn't what tests/believed --write writes:", *lines[:MOST], *more])


def changed_lines(old, new):
    """The heading, '-' or '+', and the text of each line that one of two pages has alone."""
    start = 0
    while start < min(len(old), len(new)) and old[start] == new[start]:
        start += 1
    end = 0
    while end < min(len(old), len(new)) - start and old[-1 - end] == new[-1 - end]:
        end += 1
    olds, news = old[start:len(old) - end], new[start:len(new) - end]
    for kind, from_old, to_old, from_new, to_new in difflib.SequenceMatcher(None, olds, news).get_opcodes():
        if kind != "equal":
            yield from ((heading_at(old, start + at), "-", olds[at]) for at in range(from_old, to_old))
            yield from ((heading_at(new, start + at), "+", news[at]) for at in range(from_new, to_new))


def heading_at(lines, at):
    """The words of the heading that a line stands under."""
    while at and not lines[at].startswith("#"):
        at -= 1
    return re.sub(r"\[(.*?)\]\(.*?\)", r"\1", lines[at]).strip("# `")

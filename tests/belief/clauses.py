"""docs/CLAUSES.md: the contracts that the promises cite, whole."""

import os
import textwrap

WIDTH = 118
HEAD = """\
# The clauses that promises cite

`tests/believed --write` writes this page from the sources, and `tests/believed` fails where it is another. It has the contract of
each function that a table of [PROVED.md](PROVED.md#in-plain-words) cites, whole, under the part of its first row. So a clause that
is taken out, one that says less, a premise that is put in and an argument that is exchanged are changed lines here, which whoever
makes the change commits and whoever reviews it reads.

Below each contract stands how many definitions and types those of its clauses stand on that the promises cite, and a sum of their
texts: a change below, which [DEFINITIONS.md](DEFINITIONS.md) shows, changes the sums of all contracts that stand on it, and so does
another meaning of a name of the toolchain's libraries. Blanks and comments don't count.
"""


def clauses_page(belief):
    """The whole page."""
    cited = cited_functions(belief)
    text = [HEAD]
    for part in belief.parts:
        here = [path for path, (first, _) in cited.items() if first is part]
        if here:
            text.append(f"## {part.title}\n")
        text += [function_text(belief, belief.function(path), cited[path][1]) for path in here]
    return "\n".join(text)


def cited_functions(belief):
    """Each function that is cited, by its path, with the part of its first citation and all its citations."""
    found = {}
    for part in belief.parts:
        for citation in part.citations:
            for path in citation.functions:
                if belief.function(path):
                    found.setdefault(path, (part, []))[1].append(citation)
    return found


def function_text(belief, function, citations):
    """A function's heading, the promises that cite it, its contract, and what this stands on."""
    place = function.source.place()
    promises = list(dict.fromkeys(citation.promise for citation in citations))
    cited_by = wrapped(f"[{os.path.basename(place)}](../{place}), for {'; '.join(f'*{promise}*' for promise in promises)}.")
    return f"### `{function.path()}`\n\n{cited_by}\n\n```\n{contract(function)}\n```\n\n{stands_on(belief, function, citations)}\n"


def contract(function):
    """A function's head and its clauses, a line each where it isn't too long."""
    clauses = [folded(clause.shown, "    ", "        ") for clause in function.clauses]
    return "\n".join([folded(function.head, "", "        "), *clauses])


def folded(text, first, later):
    plain = " ".join(text.split()).replace("( ", "(").replace(", )", ")")
    return textwrap.fill(plain, WIDTH, initial_indent=first, subsequent_indent=later, break_long_words=False, break_on_hyphens=False)


def stands_on(belief, function, citations):
    """How much the cited clauses stand on, and its sum."""
    starts = set().union(*(belief.of_citation(function.path(), citation) for citation in citations))
    keys = set(belief.closure.of(starts))
    definitions = sum(key[0] == "definition" for key in keys)
    total = belief.closure.sum(keys, belief.closure.outside_of(function))
    return f"On {definitions} definitions and {len(keys) - definitions} types; sum `{total}`."


def wrapped(text):
    return textwrap.fill(text, 125, break_long_words=False, break_on_hyphens=False)

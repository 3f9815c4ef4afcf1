"""docs/DEFINITIONS.md: the definitions that the promises stand on, part by part, in the order to read them."""

import os
import textwrap

WIDTH = 125
LINES_AN_HOUR = 600
HEAD = """\
# What must be believed

`tests/believed --write` writes this page, and `tests/believed` fails where it isn't what the sources give. Whoever believes these
definitions, and the toolchain, believes the promises of the tables in [PROVED.md](PROVED.md#in-plain-words): the clauses that they
cite ([CLAUSES.md](CLAUSES.md)) stand on nothing else of this repository. Each part of the promises has here what it adds to the
parts before it, each definition with its comment and its body as they stand in `specs`. The files are in the order to read them,
each after those that it uses; a file's heading leads to it, and its `use` lines say where a name comes from.

The first words of a comment are the definition's tag: the public standard that says it, with the chapter; or `profile`, where it is
a choice of this project: what the standard leaves open, or what a contract sees or says of a call. A definition with the tag `word`,
of contracts within, of loops, caches and proofs, isn't here: no promise stands on one. A contract sees a type of the sources by its
fields, or by the view that its file gives it, which stands here.
"""
TABLE = """\
A part takes what it adds and some of what the parts before it added; lines are counted with their comments, and hours are those of
reading ten lines a minute.

| part | takes | lines | adds | lines | files | hours | all up to here | lines | hours |
|---|---|---|---|---|---|---|---|---|---|
"""


def definitions_page(belief):
    """The whole page."""
    rows = [table_row(belief, part) for part in belief.part_beliefs]
    text = [HEAD, belief.counts() + "\n", TABLE + "\n".join(rows) + "\n"]
    return "\n".join([*text, *(part_text(belief, part) for part in belief.part_beliefs)])


def table_row(belief, part):
    """How much a part takes and adds, how much that is with all before it, and how long to read."""
    taken, added, all_here = (belief.in_reading_order(keys) for keys in (part.keys, part.added, part.added | part.before))
    files = len({definition.spec for definition in added})
    title = f"[{part.part.title}](#{part.part.title.lower().replace(' ', '-')})"
    return f"| {title} | {amount(taken)} | {amount(added)} | {files} | {hours(added)} | {amount(all_here)} | {hours(all_here)} |"


def amount(definitions):
    return f"{len(definitions)} | {lines_of(definitions)}"


def hours(definitions):
    return f"{lines_of(definitions) / LINES_AN_HOUR:.1f}"


def lines_of(definitions):
    return sum(definition.lines() for definition in definitions)


def part_text(belief, part):
    """What a part adds, crate by crate."""
    text = [f"## {part.part.title}\n"]
    if part.part.left:
        names = ", ".join(f"`{name}`" for name in part.part.left)
        text.append(wrapped(f"What {names} says stands under [{part.part.later}](#{part.part.later.lower()}).") + "\n")
    for crate in belief.crates:
        seen = belief.closure.seen_in(crate, part.added)
        files = [spec for spec in belief.files[crate] if any(d.key in part.added for d in spec.definitions)]
        if seen or files:
            text.append(f"### {crate}\n")
        text += [seen_text(seen)] if seen else []
        text += [file_text(spec, [d for d in spec.definitions if d.key in part.added]) for spec in files]
    return "\n".join(text)


def file_text(spec, definitions):
    """A file's heading, with its own comment, and its definitions in their order."""
    name = os.path.basename(spec.place())
    about = " ".join(line[3:] for line in spec.lines[:head_end(spec.lines)])
    return f"#### [{name}](../{spec.place()})\n\n{wrapped(about)}\n\n```\n{bodies_text(definitions)}\n```\n"


def head_end(lines):
    """The number of the first line that isn't of the comment at the head of a file."""
    return next(at for at, line in enumerate(lines) if not line.startswith("--"))


def bodies_text(definitions):
    """Definitions as they stand in their file, with the head of the block that they stand in."""
    texts, around = [], ""
    for definition in definitions:
        if definition.parameters != around:
            around = definition.parameters
            texts += [f"module _ {around} where"] if around else []
        indent = definition.text[0][:len(definition.text[0]) - len(definition.text[0].lstrip())]
        fixity = [definition.fixity] if definition.fixity else []
        texts.append("\n".join([*fixity, *(f"{indent}-- {line}" for line in definition.comment), *definition.text]))
    return "\n\n".join(texts)


def seen_text(seen):
    """What contracts see of the types of a crate's sources, and the ghost items of its `impl`s."""
    by_fields = [item for item in seen if item.key[0] == "type" and not item.view]
    text = []
    if by_fields:
        links = ", ".join(f"[`{kind.name}`](../{kind.source.place()})" for kind in by_fields)
        text.append(wrapped(f"Types seen by their fields: {links}.") + "\n")
    views = [view_text(item) for item in seen if item not in by_fields]
    if views:
        text.append("What contracts see of types and of traits:\n\n```\n" + "\n\n".join(views) + "\n```\n")
    return "\n".join(text)


def view_text(item):
    """The view of a type, or a ghost item, as it stands in its file."""
    if item.key[0] == "ghost":
        return f"-- {item.source.place()}: {item.block.head}\n{dedented(item.shown)}"
    return "\n".join([f"-- {item.source.place()}: {item.name}", *(dedented(item.shown[name]) for name in sorted(item.shown))])


def dedented(text):
    first, *others = text.split("\n")
    return "\n".join([first, *(line.removeprefix("    ") for line in others)])


def wrapped(text):
    return textwrap.fill(text, WIDTH, break_long_words=False, break_on_hyphens=False)


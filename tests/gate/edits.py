# How the tests are run and counted; no part of the product.
"""The edits that the prover must refuse: what they change, and in which functions."""

import os
import re

TOP = os.path.dirname(os.path.dirname(os.path.dirname(os.path.abspath(__file__))))
FUNCTION = re.compile(r"(\s*)(?:pub(?:\(\w+\))? )?(?:const )?(?:unsafe )?(?:extern \"C\" )?fn (\w+)")
# the type of an `impl`, and its number if it has one; the prover calls Sides<20> Sides+20
IMPL = re.compile(r"impl(?:<.*?>)? (?:(?:.*) for )?(\w+)(?:<(\d+)>)?")
CYCLE = re.compile(r"\s*#\[cycle\((\w+)\)\]")
OTHER_ITEM = re.compile(r"(?:pub(?:\(\w+\))? )?(?:const|static|struct|enum|type|use|mod|trait|macro_rules)\b")


def crates_in_order():
    """The crates of crates.txt: each one's name, its kind or nothing, and the crates that it names."""
    with open(os.path.join(TOP, "crates.txt"), encoding="utf-8") as file:
        for head, below in re.findall(r"^(\w+(?: \w+)*):(.*)$", file.read(), re.MULTILINE):
            name, *kind = head.split()
            yield name, "".join(kind), below.split()


def edits_of(crate):
    """The further edits of a crate, in the order of their names."""
    folder = os.path.join(TOP, "tests", "edits", crate)
    if os.path.isdir(folder):
        yield from (Edit(crate, os.path.join(folder, it)) for it in sorted(os.listdir(folder)) if it.endswith(".edit"))


def wrong_bodies():
    """The edits of the table of wrong bodies that must never come back, of either place: 'CRATE/NAME'."""
    with open(os.path.join(TOP, "tests", "edits", "README.md"), encoding="utf-8") as page:
        return set(re.findall(r"`(t1\w+/\w+)`", page.read()))


def pairs_of(text):
    """The changes of an edit: for each the file, the old text and the new one."""
    pairs, file, old = [], None, None
    for line in text.splitlines():
        word, _, rest = line.partition(": ")
        if word == "file":
            file = rest
        elif word == "old" and file is not None and old is None:
            old = rest
        elif word == "new" and old is not None:
            pairs.append((file, old, rest))
            old = None
        else:
            raise ValueError(f"a line out of place: {line}")
    if not pairs or old is not None:
        raise ValueError("an old text without a new one, or none at all")
    return pairs


class Function:
    """A function of a crate, by its file and its line there."""

    def __init__(self, file, line, module, owner, is_of_trait, name, cycle):
        self.file, self.line, self.module, self.owner, self.name = file, line, module, owner, name
        # where the answers stand of functions that call each other: those of one cycle stand together
        self.answers = "::".join(it for it in (module, cycle) if it) if cycle else None
        self.is_of_trait = is_of_trait
        # a method is named after the module of its type, which may be another one, so that its path is the end of that name;
        # the functions of a trait have no short name: their module has
        self.path = module if is_of_trait else f"{owner}::{name}" if owner else "::".join(it for it in (module, name) if it)

    def __eq__(self, other):
        return (self.file, self.line) == (other.file, other.line)

    def __hash__(self):
        return hash((self.file, self.line))

    def is_called(self, path):
        """Whether the prover calls it so, or a closure in it, by the path below the crate."""
        around, is_inside, closure = f"::{path}".partition("::fn::")
        if is_inside:
            path = f"{around}::{closure.split('::')[0]}".removeprefix("::")
        if self.is_of_trait:
            return path.startswith(self.module) and path.endswith(f"::{self.name}") and self.owner in path
        return path == self.path or bool(self.owner) and path.endswith(f"::{self.path}")


def function_at(file, text, at):
    """The function around a place of a source file; None where none is there."""
    lines, number = text.split("\n"), text.count("\n", 0, at)
    head = number
    while head >= 0 and not FUNCTION.match(lines[head]):
        if head < number and OTHER_ITEM.match(lines[head]):
            return None
        head -= 1
    if head < 0:
        return None
    indent, name = FUNCTION.match(lines[head]).groups()
    if f"{indent}}}" in (it.rstrip() for it in lines[head + 1 : number]):
        return None
    parts = file.removeprefix("src/").removesuffix(".rt").split("/")
    module = "::".join(parts[:-1] if parts[-1] in ("lib", "main", "mod") else parts)
    above = next((it for it in reversed(lines[:head]) if indent and IMPL.match(it)), "")
    owner = "+".join(it for it in IMPL.match(above).groups() if it) if above else ""
    return Function(file, head, module, owner, " for " in above, name, cycle_of(lines, head))


def cycle_of(lines, head):
    """The cycle of functions that a function names among its attributes; None where it names none."""
    at = head - 1
    while at >= 0 and lines[at].strip().startswith("#["):
        if found := CYCLE.match(lines[at]):
            return found.group(1)
        at -= 1
    return None


class Edit:
    """An edit of a crate, and the functions that it changes: none where a change stands in no function."""

    def __init__(self, crate, path):
        self.crate, self.name = crate, f"{crate}/{os.path.basename(path).removesuffix('.edit')}"
        with open(path, encoding="utf-8") as file:
            self.pairs = pairs_of(file.read())
        found = set()
        for file, old, _ in self.pairs:
            with open(os.path.join(TOP, "crates", crate, file), encoding="utf-8") as source:
                text = source.read()
            at = text.find(old)
            found.add(function_at(file, text, at) if at >= 0 and file.startswith("src/") else None)
        self.functions = set() if None in found else found
        # by which the prover's lines tell edits apart: of a cycle there is one text of answers
        self.names = {it.answers or it.name for it in self.functions}

    def make(self, folder):
        """Makes it in a copy of the crate; false where a text isn't there once."""
        for file, old, new in self.pairs:
            path = os.path.join(folder, file)
            with open(path, encoding="utf-8") as source:
                text = source.read()
            if text.count(old) != 1:
                return False
            with open(path, "w", encoding="utf-8") as source:
                source.write(text.replace(old, new))
        return True

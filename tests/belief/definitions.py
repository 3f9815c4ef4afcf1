"""The definitions of the crates' specs, and the names that each stands on."""

import functools
import glob
import os
import re

# An item is seen with `pub` and without; `record` without it also makes a value, whose line doesn't end so.
ITEM = re.compile(r"^( *)(?:(?:abbrev|unfoldable)(?: pub)?|pub (?:record|data)|(?:record|data)(?= .* where$)) (\S+)(.*)")
FIXITY = re.compile(r"^\s*infix[lr]? \d+ (\S+)$")
USE = re.compile(r"^(?:pub )?use (Rattle\.\S+?)(?:\.\{(.*)\}| as (\S+))$")
MODULE = re.compile(r"^module _ (.*) where$")
# What else stands in a file of specs: comments, and names of the toolchain's own.
OTHER = re.compile(r"^\s*(?:--.*|use .*)?$")
STRING = re.compile(r'"(?:\\.|[^"\\])*"')
WORD = re.compile(r"[^\s(){}\[\];,:◌]+")
TAGS = ("profile", "Type 1 Font Format", "AFM 4.1", "ASCII", "Technical Note 5040", "PostScript Language Reference")


class Definition:
    """An item of a file of specs: its name, the comment above it, its lines."""

    def __init__(self, spec, line, name, comment, text, parameters):
        self.spec, self.line, self.name, self.comment, self.text = spec, line, name, comment, text
        self.parameters, self.fixity = parameters, spec.fixities.get(name)
        self.key = ("definition", spec.crate, spec.module, bare(name))

    def tag(self):
        """'standard', 'profile', 'word', or None where the comment has none of them."""
        head = " ".join(self.comment)
        if re.match(r"word\b", head):
            return "word"
        if re.match(r"profile\b", head):
            return "profile"
        return "standard" if head.startswith(TAGS) else None

    def place(self):
        return f"{self.spec.place()}:{self.line}: {self.name}"

    def body(self):
        """Its text without comments, what stands around it, and how it binds."""
        around = [self.parameters, self.fixity or ""]
        return "\n".join([*around, *(re.sub(r"--.*", "", line) for line in self.text)])

    @functools.cached_property
    def names(self):
        """The names that stand in it; one that is a variable there counts too, where a definition has the same name."""
        return names_in(STRING.sub(" ", self.body())) - {bare(self.name)}

    def constructors(self):
        """The constructors of a `data` item."""
        if not re.match(r" *(?:pub )?data ", self.text[0]):
            return []
        return re.findall(r"^ +([A-Z]\w*) :", "\n".join(self.text[1:]), re.M)

    def lines(self):
        """How many lines it has, with its comment."""
        return len(self.text) + len(self.comment)


class Spec:
    """A file of specs: its definitions in order, and where the names come from that it uses."""

    def __init__(self, crate, module, text):
        self.crate, self.module, self.lines = crate, module, text.split("\n")
        self.imports, self.aliases, self.passed_on, self.definitions, self.unread = {}, {}, {}, [], []
        self.fixities = {found[1]: line.strip() for line in self.lines for found in [FIXITY.match(line)] if found}
        self.read()

    def place(self):
        return f"crates/{self.crate}/specs/{self.module}.antt"

    @functools.cached_property
    def used(self):
        """The modules of its own crate that it uses, and perhaps itself."""
        prefix = f"Rattle.{self.crate}.specs."
        paths = [path for path, _ in self.imports.values()] + list(self.aliases.values())
        return {path[len(prefix):].split(".")[0] for path in paths if path.startswith(prefix)} - {self.module}

    def read(self):
        comment, parameters, at = [], "", 0
        while at < len(self.lines):
            line = self.lines[at]
            item = ITEM.match(line)
            if item:
                end = self.end_of(at, len(item[1]))
                around = parameters if item[1] else ""
                self.definitions.append(Definition(self, at + 1, item[2], comment, self.lines[at:end], around))
                comment, at = [], end
                continue
            self.read_other(at + 1, line)
            module = MODULE.match(line)
            if module:
                parameters = module[1]
            comment = comment + [line.strip()[3:]] if line.lstrip().startswith("-- ") else []
            at += 1

    def read_other(self, number, line):
        """A line that is of no item."""
        used = USE.match(line)
        if used:
            add_use(used, self.imports, self.aliases)
            if line.startswith("pub use"):
                add_use(used, self.passed_on, {})
        elif not any(kind.match(line) for kind in (OTHER, MODULE, FIXITY)):
            self.unread.append(f"{self.place()}:{number}: what this line defines isn't read: {line.strip()}")

    def end_of(self, at, indent):
        """The number of the line after an item: up to a blank line or the next item."""
        end = at + 1
        while end < len(self.lines) and self.lines[end].strip():
            if ITEM.match(self.lines[end]):
                break
            end += 1
        while self.lines[end - 1].startswith(" " * indent + "-- "):
            end -= 1
        return end


def add_use(used, imports, aliases):
    """Notes what a `use` line brings: names of a module, each perhaps under another, or a module under a name."""
    if used[3]:
        aliases[used[3]] = used[1]
        return
    for name in used[2].split(","):
        old, _, new = name.strip().partition(" as ")
        imports[bare(new or old)] = (used[1], bare(old))


def bare(name):
    """A name as it stands in a text: an operator without the marks of its places."""
    return name.replace("◌", "")


def names_in(text):
    """The words of a text; `do` and `←` stand for the operator that they bind by."""
    found = set(WORD.findall(text))
    return found | {">>="} if {"do", "←"} & found else found


@functools.lru_cache(maxsize=None)
def spec_of(crate, module, text):
    """A file of specs by its text; a text that was read before isn't read again."""
    return Spec(crate, module, text)


def in_order(specs, crate):
    """A crate's files of specs, each after those that it uses."""
    left = sorted(module for owner, module in specs if owner == crate)
    ordered = []
    while left:
        free = [module for module in left if not specs[crate, module].used & set(left)]
        ordered.append((free or left)[0])
        left.remove(ordered[-1])
    return [specs[crate, module] for module in ordered]


def read_specs(top, crates):
    """All files of specs of these crates, by crate and module."""
    found = {}
    for crate in crates:
        for path in sorted(glob.glob(os.path.join(top, "crates", crate, "specs", "*.antt"))):
            module = os.path.basename(path)[: -len(".antt")]
            if module != "Lib":
                with open(path, encoding="utf-8") as file:
                    found[crate, module] = spec_of(crate, module, file.read())
    return found

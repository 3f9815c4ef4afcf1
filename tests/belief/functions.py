"""The functions of the crates' sources: their contracts, what they call, the types that they speak of."""

import collections
import functools
import glob
import os
import re

from belief.definitions import add_use, names_in

NOISE = re.compile(r'//[^\n]*|b?"(?:\\.|[^"\\])*"|b?\'(?:\\.[^\']*|[^\\\'\n])\'', re.S)
GHOST_USE = re.compile(r"ghost use (Rattle\.[^\s;]+?)(?:\.\{([^}]*)\}| as (\w+));")
USE = re.compile(r"^[ ]*(?:pub(?:\([a-z]+\))? )?use ([^;]+);", re.M)
# The name of a foreign interface is a text, and so blank here.
FUNCTION = re.compile(r"^[ ]*(?:pub(?:\([a-z]+\))? )?(?:const )?(?:unsafe )?(extern +)?fn (\w+)", re.M)
BLOCK = re.compile(r"^[ ]*(?:pub(?:\([a-z]+\))? )?(?:unsafe )?(impl|trait)\b([^{;]*)\{", re.M)
TYPE = re.compile(r"^(?:pub(?:\([a-z]+\))? )?(struct|enum) (\w+)", re.M)
FIELD = re.compile(r"^\s+(?:pub(?:\([a-z]+\))? )?(?:ghost )?(\w+): (.*),$", re.M)
GHOST_ITEM = re.compile(r"ghost (\w+) = \{")
OPENING = re.compile(r"[{;]")
BRACE = re.compile(r"[{}]")
HEAD_PART = re.compile(r"[()\[\]{;]|\b(?:requires|ensures)\b")
CLAUSE = re.compile(r"(requires|ensures)\b\*? *(\w*) *\{")

# What a clause is, its name, its text for the search of names, and as it stands in the source.
Clause = collections.namedtuple("Clause", "kind name text shown")
# A block of a type's or of a trait's items: where it begins and ends, of what, and the words at its head.
Block = collections.namedtuple("Block", "start end owner trait head")


class Function:
    """A function: the type or trait that it stands in, its signature, its clauses and its body."""

    def __init__(self, source, block, found):
        self.source, self.block, self.at, self.is_foreign, self.name = source, block, found.start(), bool(found[1]), found[2]
        self.owner, self.trait = (block.owner, block.trait) if block else (None, None)
        self.signature, self.head, self.clauses, self.body = "", "", [], ""
        self.head_end = self.end = found.end()
        self.key = ("function", source.crate, source.module, self.owner, self.name)

    def path(self):
        owner = self.owner + "::" if self.owner else ""
        module = "laws::" if self.is_law() else ""
        return f"{self.source.crate}::{module}{owner}{self.name}"

    def label(self):
        """Its name in its file; that of a trait's call with the trait, since a type may have several of it."""
        if not self.block:
            return self.name
        head = re.sub(r"^<[^<>]*> ", "", self.block.head)
        trait, _, owner = head.partition(" for ")
        return f"<{owner} as {trait}>::{self.name}" if owner else f"{self.owner}::{self.name}"

    def is_law(self):
        return self.source.module == "laws"


class Type:
    """A struct or an enum, with what contracts see of it where that isn't its fields."""

    def __init__(self, source, name, text):
        self.source, self.name, self.text = source, name, text
        self.view, self.shown = None, {}
        self.key = ("type", source.crate, source.module, name)

    @property
    def at(self):
        """Where its view stands, or anywhere."""
        return self.view[0] if self.view else 0

    @property
    def names(self):
        return names_in(self.view[1]) if self.view else set()

    def fields(self):
        """The types in it, by its fields; all of them, under no name, where it is an enum or a tuple."""
        return FIELD.findall(self.text) or [(None, self.text)]

    def body(self):
        """What contracts see of it."""
        return self.view[1] if self.view else self.text


class Ghost:
    """What an `impl` of a trait of the repository says a ghost item of the trait is."""

    def __init__(self, source, block, name, text, shown):
        self.source, self.block, self.name, self.text, self.shown = source, block, name, text, shown
        self.at = block.start + 1
        self.key = ("ghost", source.crate, source.module, f"{block.trait} for {block.owner}", name)
        self.names = names_in(text)

    def body(self):
        return self.text


class Source:
    """A file of a crate's sources."""

    def __init__(self, crate, module, text):
        self.crate, self.module = crate, module
        self.shown = NOISE.sub(lambda noise: noise[0] if noise[0][0] != "/" else " " * len(noise[0]), text)
        self.text = NOISE.sub(lambda noise: " " * len(noise[0]), text)
        self.uses = self.read_uses()
        self.blocks = self.read_blocks()
        self.ghost_uses = [(self.scope_of(used.start()), used) for used in GHOST_USE.finditer(self.text)]
        self.types = [Type(self, found[2], self.item_at(found)) for found in TYPE.finditer(self.text)]
        self.functions = [self.read_function(found) for found in FUNCTION.finditer(self.text)]
        self.traits = {block.owner for block in self.blocks if block.trait == block.owner}
        self.ghosts = [ghost for block in self.blocks if block.trait != block.owner for ghost in self.read_ghosts(block)]
        self.add_models()

    def place(self):
        path = self.module.replace("::", "/")
        return f"crates/{self.crate}/src/{path}" + ("/mod.rt" if self.is_folder else ".rt")

    def read_uses(self):
        """What each name of a `use` is: the path of a function or a type."""
        found = {}
        for used in USE.finditer(self.text):
            for path, name in paths_of(re.sub(r"\s+", " ", used[1])):
                found[name] = path
        return found

    def read_blocks(self):
        found = []
        for block in BLOCK.finditer(self.text):
            head = re.sub(r"\s+", " ", block[2]).strip()
            plain = head
            for _ in range(3):
                plain = re.sub(r"<[^<>]*>", "", plain)
            trait, owner = None, re.split(r"[:\s]", plain.strip())[0]
            if block[1] == "impl" and " for " in plain:
                trait, owner = plain.split(" for ")
                owner = re.split(r"\s", owner.strip())[0]
                trait = trait.strip()
            elif block[1] == "trait":
                trait = owner
            found.append(Block(block.end() - 1, matching(self.text, block.end() - 1), owner, trait, head))
        return found

    def read_ghosts(self, block):
        """The ghost items of an `impl` of a trait."""
        for item in GHOST_ITEM.finditer(self.text, block.start, block.end):
            end = matching(self.text, item.end() - 1)
            yield Ghost(self, block, item[1], self.text[item.end():end], self.shown[item.start():end + 1])

    def add_models(self):
        """Gives the types of the file what contracts see of them, where an `impl Model` says so."""
        for ghost in self.ghosts:
            for seen in self.types:
                if ghost.block.trait == "Model" and seen.name == ghost.block.owner and ghost.name in ("Value", "view"):
                    before = seen.view[1] + " " if seen.view else ""
                    seen.view = (ghost.at, before + ghost.text)
                    seen.shown[ghost.name] = ghost.shown

    def scope_of(self, at):
        inner = [(block.start, block.end) for block in self.blocks if block.start <= at <= block.end]
        return max(inner) if inner else (0, len(self.text))

    def item_at(self, found):
        """The text of a type, to its closing brace or its semicolon."""
        opening = OPENING.search(self.text, found.end())
        end = matching(self.text, opening.start()) + 1 if opening[0] == "{" else opening.end()
        return self.text[found.start():end]

    def block_at(self, at):
        """The block that stands around a place; None where there is none."""
        around = [block for block in self.blocks if block.start <= at <= block.end]
        return around[-1] if around else None

    def read_function(self, found):
        """A function: its signature up to its body or its semicolon, its clauses, its body."""
        function = Function(self, self.block_at(found.start()), found)
        at, depth = found.end(), 0
        while True:
            part = HEAD_PART.search(self.text, at)
            function.signature += self.text[at:part.start()] + " "
            at = part.end()
            is_clause = depth == 0 and part[0] in ("requires", "ensures")
            if depth == 0 and not function.head and (is_clause or part[0] in "{;"):
                function.head_end = part.start()
                function.head = self.shown[found.start():part.start()]
            if part[0] in "([":
                depth += 1
            elif part[0] in ")]":
                depth -= 1
            elif is_clause:
                at = self.read_clause(function, part.start())
            elif depth == 0:
                function.end = matching(self.text, part.start()) + 1 if part[0] == "{" else part.end()
                function.body = self.text[part.start():function.end] if part[0] == "{" else ""
                return function

    def read_clause(self, function, at):
        """Adds a clause to a function; answers the place after it."""
        clause = CLAUSE.match(self.text, at)
        end = matching(self.text, clause.end() - 1)
        function.clauses.append(Clause(clause[1], clause[2], self.text[clause.end():end], self.shown[at:end + 1]))
        return end + 1

    def ghost_names(self, at):
        """The names of definitions that are in scope at a place, and the modules under other names."""
        imports, aliases = {}, {}
        for (start, end), used in sorted(self.ghost_uses, key=lambda scoped: scoped[0][0]):
            if start <= at <= end:
                add_use(used, imports, aliases)
        return imports, aliases


def matching(text, at):
    """The place of the brace that closes the one at a place."""
    depth = 0
    for brace in BRACE.finditer(text, at):
        depth += 1 if brace[0] == "{" else -1
        if depth == 0:
            return brace.start()
    raise ValueError("an open brace")


def paths_of(used):
    """The paths of a `use`, with the name of each: a list in braces has a path for each of its names."""
    front, brace, rest = used.partition("{")
    if not brace:
        path, _, name = used.strip().partition(" as ")
        yield path, name or path.split("::")[-1]
        return
    depth, part, parts = 0, "", []
    for letter in rest.rstrip()[:-1] + ",":
        depth += {"{": 1, "}": -1}.get(letter, 0)
        if letter == "," and depth == 0:
            parts.append(part)
            part = ""
        else:
            part += letter
    for part in parts:
        if part.strip() == "self":
            yield front.rstrip(":"), front.rstrip(":").split("::")[-1]
        elif part.strip():
            for path, name in paths_of(part.strip()):
                yield front.strip() + path, name


@functools.lru_cache(maxsize=None)
def source_of(crate, module, is_folder, text):
    """A file of sources by its text; a text that was read before isn't read again."""
    source = Source(crate, module, text)
    source.is_folder = is_folder
    return source


def read_sources(top, crates):
    """All files of sources of these crates, by crate and module."""
    found = {}
    for crate in crates:
        root = os.path.join(top, "crates", crate, "src")
        for path in sorted(glob.glob(os.path.join(root, "**", "*.rt"), recursive=True)):
            inside = os.path.relpath(path, root)[: -len(".rt")]
            module = inside.removesuffix("/mod").replace("/", "::")
            with open(path, encoding="utf-8") as file:
                found[crate, module] = source_of(crate, module, inside.endswith("/mod"), file.read())
    return found

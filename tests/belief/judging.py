"""The promises of docs/PROVED.md, what they stand on, and what is wrong with them."""

import os

from belief.calls import Calls
from belief.clauses import clauses_page
from belief.closure import DECLARED, Closure, said_in
from belief.definitions import in_order, read_specs
from belief.differences import differences
from belief.functions import read_sources
from belief.page import definitions_page
from belief.promises import read_parts

# The program, the library for C, and the laws that neither calls; and what calls the engine as a library in Rattle.
PROGRAM, LIBRARY, LAWS, CALLER = "t1edit", "t1_c", "t1_round_trip", "t1_runs"
# The part of PROVED whose functions the libraries reach; those of all others are reached by the program.
LIBRARY_PART = "The libraries"
PROMISES, DEFINITIONS, CLAUSES = (os.path.join("docs", name) for name in ("PROVED.md", "DEFINITIONS.md", "CLAUSES.md"))


def read_crates(top):
    """The crates of crates.txt, each with what it names."""
    listed = {}
    with open(os.path.join(top, "crates.txt"), encoding="utf-8") as file:
        for line in file:
            name, colon, below = line.partition(":")
            if colon and not line.startswith("#"):
                listed[name.split()[0]] = below.split()
    return listed


def crates_below(listed, roots):
    """The crates that some are built from, they too, in the order of the list."""
    found, open_crates = set(), list(roots)
    while open_crates:
        crate = open_crates.pop()
        if crate in listed and crate not in found:
            found.add(crate)
            open_crates += listed[crate]
    return [crate for crate in listed if crate in found]


class PartBelief:
    """What a part of the promises takes, and what of it no part before takes."""

    def __init__(self, part, keys, before):
        self.part, self.keys, self.before, self.added = part, keys, before, keys - before


class Belief:
    """The promises, and what they stand on."""

    def __init__(self, top):
        self.top = top
        self.crates = crates_below(read_crates(top), [PROGRAM, LIBRARY, LAWS])
        self.specs = read_specs(top, self.crates)
        self.files = {crate: in_order(self.specs, crate) for crate in self.crates}
        self.sources = read_sources(top, [*self.crates, CALLER])
        self.closure = Closure(self.specs, self.sources, self.crates)
        self.parts = read_parts(os.path.join(top, PROMISES))
        self.citations = [citation for part in self.parts for citation in part.citations]
        self.find_functions()
        self.start()
        self.divide()

    def find_functions(self):
        """Finds each function by its path, and which are reached."""
        calls = Calls(self.sources, self.crates)
        self.by_program = calls.of_program(PROGRAM)
        self.by_libraries = calls.of_library(LIBRARY) | calls.of_program(CALLER)
        self.functions = {}
        for function in calls.functions:
            self.functions.setdefault(function.path(), []).append(function)

    def start(self):
        """Finds what the citations stand on, all together."""
        self.starts = {}
        for citation in self.citations:
            for path in citation.functions:
                for key in self.of_citation(path, citation):
                    self.starts.setdefault(key, f"{path}, for '{citation.promise}'")
        self.met = self.closure.of(self.starts)
        self.definitions = self.in_reading_order(self.met)

    def divide(self):
        """Finds what each part takes."""
        self.part_beliefs, before = [], set()
        for part in self.parts:
            cited = [(path, citation) for citation in part.citations for path in citation.functions]
            starts = {key for path, citation in cited for key in self.of_citation(path, citation)}
            left = {key for key in self.met if key[-1] in part.left}
            self.part_beliefs.append(PartBelief(part, set(self.closure.of(starts, left)), before))
            before = before | self.part_beliefs[-1].keys

    def function(self, path):
        """The function of a path; None where there is none."""
        return self.functions.get(path, [None])[0]

    def of_citation(self, path, citation):
        """What a function that a citation names stands on, without the ghost items that are left open."""
        function = self.function(path)
        found = self.closure.of_function(function, set(citation.words)) if function else set()
        return {key for key in found if key[0] != "ghost" or key[-1] not in citation.open_items}

    def in_reading_order(self, keys):
        """The definitions among these, each file after those that it uses."""
        return [d for crate in self.crates for spec in self.files[crate] for d in spec.definitions if d.key in keys]

    def all_definitions(self):
        return [definition for spec in self.specs.values() for definition in spec.definitions]

    def judged(self):
        """How much is judged: functions with each of their words, tags of all definitions, what parts leave, and two pages."""
        cited = sum(len(it.functions) * (1 + len(it.words) + len(it.inner) + len(it.open_items)) for it in self.citations)
        return cited + len(self.all_definitions()) + sum(len(part.left) for part in self.parts) + 2

    def faults(self):
        """What is wrong with the citations, with the definitions, and with the pages."""
        if not self.citations:
            yield f"{PROMISES}: no table 'In plain words'"
        for part in self.parts:
            for citation in part.citations:
                yield from self.citation_faults(part, citation)
        yield from (f"no promise cites {path}" for path in self.uncited())
        yield from self.left_faults()
        for spec in self.specs.values():
            yield from spec.unread
        for definition in self.all_definitions():
            yield from self.definition_faults(definition)
        yield from self.lost_faults()
        yield from differences(CLAUSES, self.written(CLAUSES), clauses_page(self))
        yield from differences(DEFINITIONS, self.written(DEFINITIONS), definitions_page(self))

    def citation_faults(self, part, citation):
        if not citation.functions:
            yield f"{citation.promise}: no function is cited beside {', '.join(citation.words) or 'nothing'}"
        for path in citation.functions:
            found = self.functions.get(path, [])
            if not found:
                yield f"{citation.promise}: there is no {path}"
            elif len(found) > 1:
                yield f"{citation.promise}: there are {len(found)} functions {path}"
            else:
                yield from self.function_faults(part, citation, found[0])

    def function_faults(self, part, citation, function):
        """What is wrong with a function that is cited: who calls it, and each word by itself."""
        reached = self.by_libraries if part.title == LIBRARY_PART else self.by_program
        if function not in reached and not function.is_law():
            caller = f"{LIBRARY} and {CALLER} don't reach" if part.title == LIBRARY_PART else "main doesn't reach"
            yield f"{citation.promise}: {caller} {function.path()}"
        said = set().union(*(said_in(clause) for clause in function.clauses))
        for word in citation.words:
            if word not in said:
                yield f"{citation.promise}: no clause of {function.path()} says {word}"
        met = {key[-1] for key in self.closure.of(self.of_citation(function.path(), citation))}
        for word in citation.inner:
            if word not in met:
                yield f"{citation.promise}: {function.path()} doesn't stand on {word}"
        ghosts = {key[-1] for key in self.closure.of_function(function, set(citation.words)) if key[0] == "ghost"}
        for item in citation.open_items:
            if item not in ghosts:
                yield f"{citation.promise}: no clause of {function.path()} speaks of {item}, which is left open"

    def uncited(self):
        """The calls for C and the laws that nobody calls which no promise cites."""
        cited = {path for citation in self.citations for path in citation.functions}
        for path, functions in self.functions.items():
            is_outer = any(it.is_foreign if it.source.crate == LIBRARY else it.source.crate == LAWS for it in functions)
            if is_outer and path not in cited:
                yield path

    def left_faults(self):
        """What a part leaves to a later one that doesn't take it."""
        titles = [part.title for part in self.parts]
        for at, part in enumerate(self.parts):
            later = [it for it in self.part_beliefs[at + 1:] if it.part.title == part.later]
            taken = {key[-1] for it in later for key in it.keys}
            for name in part.left:
                if name not in taken:
                    where = part.later if part.later in titles[at + 1:] else f"{part.later}, which doesn't come later"
                    yield f"{PROMISES}: {part.title} leaves {name} to {where}, and it isn't there"

    def definition_faults(self, definition):
        if definition.tag() is None:
            yield f"{definition.place()} has no tag"
        if definition.tag() == "word" and definition.key in self.met:
            yield f"{definition.place()} is a word, and a promise stands on it: {self.way_to(definition.key)}"

    def lost_faults(self):
        """The names that lead to no definition."""
        for key, user in self.closure.lost.items():
            where = f"src: there is no type {key[-1]}" if key[2] == DECLARED else f"specs/{key[2]}.antt: there is no {key[-1]}"
            yield f"crates/{key[1]}/{where}, which {user[-1]} names"

    def way_to(self, key):
        """How the closure comes to a definition or a type."""
        way = []
        while key:
            way.append(key[-1])
            start, key = key, self.met[key]
        return " of ".join(way) + f" of {self.starts[start]}"

    def counts(self):
        """How much must be believed."""
        every = self.all_definitions()
        files = {d.spec for d in self.definitions}
        return (f"{len(self.definitions)} of {len(every)} definitions are to be believed, {lines_of(self.definitions)} of"
                f" {lines_of(every)} lines with their comments, in {len(files)} of {len(self.specs)} files.")

    def written(self, name):
        """What stands in a file; nothing where there is none."""
        path = os.path.join(self.top, name)
        if not os.path.exists(path):
            return ""
        with open(path, encoding="utf-8") as file:
            return file.read()

    def write(self):
        """Writes both pages."""
        for name, text in ((CLAUSES, clauses_page(self)), (DEFINITIONS, definitions_page(self))):
            with open(os.path.join(self.top, name), "w", encoding="utf-8") as file:
                file.write(text)


def lines_of(definitions):
    return sum(definition.lines() for definition in definitions)

"""What the statements of functions stand on: definitions, and what contracts see of types and of traits."""

import hashlib
import re

from belief.definitions import bare, names_in

TYPE_NAME = re.compile(r"(?<![\w.])(?:\w+::)*([A-Z]\w*)")
# The module of specs by which definitions name the types of a crate's sources.
DECLARED = "declared"
GHOST_OF = re.compile(r"(?<![\w.])[A-Z]\w*\.(\w+)")


class Closure:
    """The definitions, types and ghost items that some statements stand on."""

    def __init__(self, specs, sources, roots):
        self.specs, self.sources, self.roots = specs, sources, roots
        self.definitions = {d.key: d for spec in specs.values() for d in spec.definitions}
        self.by_constructor = {(d.spec.crate, d.spec.module, name): d.key
                               for d in self.definitions.values() for name in d.constructors()}
        self.types = {kind.key: kind for source in sources.values() for kind in source.types}
        self.types_by_name = {}
        for key in self.types:
            self.types_by_name.setdefault(key[3], []).append(key)
        self.ghosts, self.ghosts_by_name = self.read_ghosts()
        self.below, self.texts, self.lost = {}, {}, {}

    def read_ghosts(self):
        """The ghost items of each `impl` of a trait of the repository, by key and by name."""
        traits = set().union(*(source.traits for source in self.sources.values()))
        ghosts = {ghost.key: ghost for source in self.sources.values() for ghost in source.ghosts if ghost.block.trait in traits}
        by_name = {}
        for ghost in ghosts.values():
            by_name.setdefault(ghost.name, set()).add(ghost.key)
        return ghosts, by_name

    def of(self, starts, left=frozenset()):
        """All that these keys stand on, they too, with what each was met from; without what is left out, and what is below that
        alone."""
        met = {key: None for key in starts if key not in left}
        open_keys = list(met)
        for key in open_keys:
            for other in self.beneath(key):
                if other not in met and other not in left:
                    met[other] = key
                    open_keys.append(other)
        return met

    def item(self, key):
        """The definition, type or ghost item of a key."""
        return {"definition": self.definitions, "type": self.types, "ghost": self.ghosts}[key[0]][key]

    def seen_in(self, crate, keys):
        """The types and ghost items of a crate among some keys."""
        return [item for seen in (self.types, self.ghosts) for key, item in seen.items() if key[1] == crate and key in keys]

    def sum(self, keys, outside):
        """A number that changes where the text of one of these changes, but for blanks and comments, or what is meant by a name of
        another library in it."""
        texts = sorted(self.text_of(key) for key in keys)
        return hashlib.sha256("\n".join([*sorted(outside), *texts]).encode()).hexdigest()[:12]

    def text_of(self, key):
        """A key, the text that it leads to, and the names of other libraries in it, in one line."""
        if key not in self.texts:
            item = self.item(key)
            names = self.outside(item.names, *self.scope_of(item))
            self.texts[key] = " ".join([*key, *item.body().split(), *sorted(names)])
        return self.texts[key]

    def scope_of(self, item):
        """What the names in a definition, a type or a ghost item are."""
        if item.key[0] == "definition":
            return item.spec.imports, item.spec.aliases
        return item.source.ghost_names(item.at)

    def outside(self, names, imports, aliases):
        """The paths of the names of other libraries among some."""
        heads = {name.partition(".")[0] for name in names}
        paths = {f"{module}.{name}" for head in heads & set(imports) for module, name in [imports[head]]}
        paths |= {aliases[head] for head in heads & set(aliases)}
        return {path for path in paths if path.split(".")[1] not in self.roots}

    def outside_of(self, function):
        """The paths of the names of other libraries in the clauses of a function."""
        names = set().union(*(names_in(clause.text) for clause in function.clauses))
        return self.outside(names, *function.source.ghost_names(function.at))

    def beneath(self, key):
        """What a definition, a type or a ghost item stands on, in an order of its own."""
        if key not in self.below:
            finders = {"definition": self.beneath_definition, "type": self.beneath_type, "ghost": self.beneath_ghost}
            found = finders[key[0]](self.item(key))
            self.below[key] = sorted((other for other in found if self.is_there(other, key)), key=str)
        return self.below[key]

    def is_there(self, key, user):
        """Whether a key leads to something; else it is noted as lost, with what names it."""
        there = key[0] != "definition" or key in self.definitions
        if not there:
            self.lost.setdefault(key, user)
        return there

    def beneath_definition(self, definition):
        spec = definition.spec
        local = {name: (f"Rattle.{spec.crate}.specs.{spec.module}", name) for name in self.named_in(spec)}
        return self.resolved(definition.names, {**spec.imports, **local}, spec.aliases)

    def named_in(self, spec):
        """The names that a file of specs defines."""
        for definition in spec.definitions:
            yield bare(definition.name)
            yield from definition.constructors()

    def beneath_ghost(self, ghost):
        return self.of_text(ghost.source, ghost.at, ghost.text)

    def beneath_type(self, kind):
        """What contracts see of a type: its view, by the fields that it names; or all its fields."""
        if not kind.view:
            return set().union(*(self.types_in(kind.source, text) for _, text in kind.fields())) - {kind.key}
        at, text = kind.view
        found = self.of_text(kind.source, at, text)
        for path in re.findall(r"\b[a-z]\w*\.([a-z][\w.]*)", text):
            found |= self.followed(kind, path.split("."))
        return found - {kind.key}

    def followed(self, kind, path):
        """The types at the end of a path of fields; one that contracts see by a view is an end."""
        found = set()
        for name, text in kind.fields():
            for key in self.types_in(kind.source, text) if name == path[0] else ():
                at_end = len(path) == 1 or self.types[key].view
                found |= {key} if at_end else self.followed(self.types[key], path[1:])
        return found

    def of_text(self, source, at, text):
        """What a clause, a view or a ghost item at a place of a source stands on."""
        found = self.resolved(names_in(text), *source.ghost_names(at))
        return found.union(*(self.ghosts_by_name.get(name, ()) for name in GHOST_OF.findall(text)))

    def of_function(self, function, wanted):
        """What the clauses of a function stand on that name one of these words, and what it asks for."""
        found = self.types_in(function.source, function.signature)
        for clause in function.clauses:
            if clause.kind == "requires" or not wanted or wanted & said_in(clause):
                found |= self.of_text(function.source, function.at, clause.text) | self.types_in(function.source, clause.text)
        return {key for key in found if self.is_there(key, function.key)}

    def resolved(self, names, imports, aliases):
        found = set()
        for name in names:
            head, _, rest = name.partition(".")
            if head in aliases and rest:
                found |= self.at_path(aliases[head], rest.split(".")[0])
            elif head in imports:
                found |= self.at_path(*imports[head])
        return found

    def at_path(self, module, name):
        """The definition or type of a name in a module of specs; none where it is of another library."""
        parts = module.split(".")
        crate, rest = parts[1], parts[3:]
        if crate not in self.roots:
            return set()
        if rest[0] in (DECLARED, "contracts"):
            return self.declared(crate, [part for part in rest[1:] if part != "TheVariants"])
        spec = self.specs.get((crate, rest[0]))
        if spec and name in spec.passed_on:
            return self.at_path(*spec.passed_on[name])
        key = ("definition", crate, rest[0], name)
        return {self.by_constructor.get((crate, rest[0], name), key)}

    def declared(self, crate, path):
        """The type of the code by its module in `declared`; a key that leads nowhere where there is none."""
        module, kind = "::".join(path[:-1]), path[-1]
        keys = {key for key in self.types_by_name.get(kind, ()) if key[1] == crate and key[2] in (module, module or "lib")}
        return keys or {("definition", crate, DECLARED, kind)}

    def types_in(self, source, text):
        """The types of the repository that a signature or a field names."""
        found = set()
        for name in set(TYPE_NAME.findall(text)):
            found |= self.type_of(source, name)
        return found

    def type_of(self, source, name):
        local = {kind.key for kind in source.types if kind.name == name}
        if local or name not in source.uses:
            return local
        path = source.uses[name].split("::")
        crate = path[0] if path[0] in self.roots else source.crate
        named = set(self.types_by_name.get(path[-1], ()))
        return {key for key in named if key[1] == crate} or (named if crate == path[0] else set())


def said_in(clause):
    """The words of a clause: its name, and the names in its text."""
    return names_in(clause.text) | {clause.name}

"""Which functions a program or a library reaches, by the names in its bodies."""

import re

CALL = re.compile(r"(?<![\w.])((?:\w+(?:::<[^()]*?>)?::)*)(\w+)\b(?!!)")
METHOD = re.compile(r"\.(?:await\.)?(\w+)\s*(?:::<[^()]*?>)?\(")


class Calls:
    """The functions of some crates, and those that each may call. A method is taken to be called wherever its name is."""

    def __init__(self, sources, roots):
        self.sources, self.roots = sources, roots
        self.functions = [function for source in sources.values() for function in source.functions]
        self.methods, self.owned, self.free, self.free_anywhere, self.below = {}, {}, {}, {}, {}
        for function in self.functions:
            if function.owner:
                self.methods.setdefault(function.name, []).append(function)
                self.owned.setdefault((function.owner, function.name), []).append(function)
            else:
                self.free.setdefault((function.source.crate, function.name), []).append(function)
                self.free_anywhere.setdefault(function.name, []).append(function)

    def of_program(self, crate):
        """What the `main` of a crate reaches."""
        return self.reached(f for f in self.functions if f.source.crate == crate and f.source.module == f.name == "main")

    def of_library(self, crate):
        """What the calls reach that a crate has for another language."""
        return self.reached(f for f in self.functions if f.source.crate == crate and f.is_foreign)

    def reached(self, starts):
        """All functions that some reach; methods of traits of other libraries are called by what isn't read here."""
        starts = [*starts, *(f for f in self.functions if f.trait and (f.trait, f.name) not in self.owned)]
        met, open_functions = set(starts), list(starts)
        while open_functions:
            for other in self.called(open_functions.pop()):
                if other not in met:
                    met.add(other)
                    open_functions.append(other)
        return met

    def called(self, function):
        """The functions that the body of one may call."""
        if function not in self.below:
            self.below[function] = set(self.named_in(function))
        return self.below[function]

    def named_in(self, function):
        body, source = function.body, function.source
        for name in set(METHOD.findall(body)):
            yield from self.methods.get(name, [])
        for path, name in set(CALL.findall(body)):
            front = [part for part in re.sub(r"<.*?>", "", path).split("::") if part]
            yield from self.named(source, function.owner, front, name)

    def named(self, source, owner, front, name):
        """The functions that a path in a body may name."""
        if front:
            last = owner if front[-1] == "Self" else front[-1]
            if (last, name) in self.owned:
                return self.owned[last, name]
            return self.free_in(source.uses.get(front[0], front[0]).split("::")[0], source, name)
        if name in source.uses:
            path = source.uses[name].split("::")
            return self.free_in(path[0], source, path[-1])
        return [f for f in self.free.get((source.crate, name), []) if f.source is source]

    def free_in(self, crate, source, name):
        """The functions of a name in a crate, which may pass on that of another; in a file's own one, where it is none."""
        if crate not in self.roots:
            return self.free.get((source.crate, name), [])
        return self.free.get((crate, name)) or self.free_anywhere.get(name, [])

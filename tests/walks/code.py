"""The functions of the crates, and the calls in their bodies in the order of the text."""

import glob
import os
import re
from dataclasses import dataclass, field

TOP = os.path.dirname(os.path.dirname(os.path.dirname(os.path.abspath(__file__))))
TEXTS = re.compile(r'//[^\n]*|b?"(?:\\.|[^"\\])*"|b?\'(?:\\.[^\']*|[^\'\\])\'', re.S)
HEAD = re.compile(r"\bfn\s+([a-z_]\w*)")
BLOCK = re.compile(r"^(?:impl|(?:pub\s+)?trait)\b[^{;]*", re.M)
STRUCT = re.compile(r"\bstruct\s+([A-Z]\w*)[^{;(]*\{([^}]*)\}")
FIELD = re.compile(r"([a-z_]\w*)\s*:\s*([^,]+)")
NAME = re.compile(r"[A-Z]\w*")
CLAUSE = re.compile(r"\s*(?:requires|ensures|decreases)\b\s*(?:[a-z_]\w*\s*)*\{")
CALL = re.compile(r"(?<!\w)(?P<receiver>[a-z_][\w.]*\.)?(?P<path>(?:[A-Za-z_]\w*\s*(?:::<[^()]*?>)?::)*[a-z_]\w*)\s*(?:::<[^()]*?>)?\(")
BOUND = re.compile(r"\blet\s+(?:mut\s+)?([a-z_]\w*)\s*(?::\s*([^=;]+))?=\s*([^;]*)")
# Methods of the library's types: without a type that is known such a call isn't one of the crates.
LIBRARYS = frozenset(
    "as_bytes as_mut as_ref as_slice as_str chars clear clone cloned cmp contains copied count extend find first flush from_fn get "
    "get_mut insert into into_iter is_empty is_none is_some iter iter_mut last len lines map map_err max min next ok or_else or pop "
    "position push read remove replace reserve retain rev sort split_at split_first starts_with sum take to_vec trim truncate "
    "unwrap_or write write_all zip".split()
)
USE = re.compile(r"^(?:pub(?:\(crate\))?\s+)?use\s+([^;]+);", re.M)


@dataclass(frozen=True)
class Called:
    """A call as it is written: what stands before the last dot, and the path of the name."""

    receiver: str
    path: tuple


@dataclass(eq=False)
class Function:
    """A function of a crate, in its file; the type that owns it, if any."""

    crate: str
    file: str
    owner: str
    name: str
    types: dict
    answers: str
    calls: list = field(default_factory=list)

    def __str__(self):
        return f"{self.owner}::{self.name}" if self.owner else self.name


def closing(text, start):
    """The place behind the bracket that closes the one at a place."""
    pairs, depth = {"(": ")", "[": "]", "{": "}"}, []
    for at in range(start, len(text)):
        if text[at] in pairs:
            depth.append(pairs[text[at]])
        elif depth and text[at] == depth[-1]:
            depth.pop()
            if not depth:
                return at + 1
    return len(text)


def body_of(text, start):
    """Where the body of a function stands, whose head begins at a place; its head ends where the first clause begins."""
    at, head = start, None
    while at < len(text):
        clause = CLAUSE.match(text, at)
        if clause:
            head = head or at
            at = closing(text, clause.end() - 1)
        elif text[at] in "([":
            at = closing(text, at)
        elif text[at] == "{":
            return head or at, at, closing(text, at)
        elif text[at] == ";":
            return None
        else:
            at += 1
    return None


def owned(text):
    """The ranges of impl and trait blocks, each with the name of its type."""
    found = []
    for block in BLOCK.finditer(text):
        start = text.find("{", block.end() - 1)
        words = re.sub(r"<[^<>]*(?:<[^<>]*(?:<[^<>]*>[^<>]*)*>[^<>]*)*>", "", block.group())
        names = NAME.findall(words.split(" for ")[-1])
        if start >= 0 and names:
            found.append((start, closing(text, start), names[0]))
    return found


def calls_in(body):
    """The calls of a body in the order of its text."""
    found = []
    for call in CALL.finditer(body):
        path = tuple(re.sub(r"::<[^()]*?>", "", call["path"]).replace(" ", "").split("::"))
        before = body[: call.start()].rstrip()
        receiver = (call["receiver"] or "").rstrip(".")
        if call["receiver"] or before.endswith("."):
            found.append(Called(receiver or ")", path[-1:]))
        elif not before.endswith(("fn", "!")) and path[-1] not in ("if", "match", "while", "for", "return", "in"):
            found.append(Called("", path))
    return found


def imported(text, crate):
    """The functions that a file brings in, each with its crate and its module."""
    for use in USE.findall(text):
        path, _, _ = use.partition("{")
        names = [it.strip() for it in path.split("::") if it.strip()]
        root = names[0] if names[0].startswith("t1_") else crate
        module = names[-1] if "{" in use else names[-2] if len(names) > 1 else ""
        for name in re.findall(r"\b([a-z_]\w*)\b(?!\s*::)", use):
            yield name, (root, module)


def first_type(text, known):
    """The first type of the crates that a text names."""
    return next((name for name in NAME.findall(text or "") if name in known), None)


class Code:
    """All functions of the crates; of traits, the types that a walk takes for them."""

    def __init__(self, implementors):
        self.implementors = implementors
        self.functions, self.by_name, self.fields, self.types, self.imports = [], {}, {}, {}, {}
        texts = {path: self.text_of(path) for path in sorted(glob.glob(f"{TOP}/crates/*/src/**/*.rt", recursive=True))}
        for path, text in texts.items():
            for name in re.findall(r"\b(?:struct|enum|trait)\s+([A-Z]\w*)", text):
                self.types.setdefault(name, set()).add(self.place(path))
        for path, text in texts.items():
            self.read(path, text)

    @staticmethod
    def text_of(path):
        with open(path, encoding="utf-8") as file:
            return TEXTS.sub(lambda it: " " if it.group().startswith("//") else '""', file.read())

    @staticmethod
    def place(path):
        parts = os.path.relpath(path, f"{TOP}/crates").split(os.sep)
        return parts[0], "/".join(parts[2:])

    def read(self, path, text):
        crate, name = self.place(path)
        blocks = owned(text)
        for struct in STRUCT.finditer(text):
            self.fields[struct[1]] = {it[1]: first_type(it[2], self.types) for it in FIELD.finditer(struct[2])}
        used = frozenset(NAME.findall(" ".join(USE.findall(text)))) | {it for it in self.types if (crate, name) in self.types[it]}
        self.imports[crate, name] = dict(imported(text, crate))
        for head in HEAD.finditer(text):
            found = body_of(text, head.end())
            if found:
                self.add(crate, name, text, head, found, blocks, used)

    def add(self, crate, name, text, head, found, blocks, used):
        clauses, start, end = found
        owner = next((it[2] for it in reversed(blocks) if it[0] < head.start() < it[1]), None)
        words = text[head.end() : clauses]
        given, _, answers = words.partition("->")
        bounds = {it[1]: first_type(it[2], self.types) for it in re.finditer(r"\b([A-Z])\s*:\s*([^,>]+)", given.split("(")[0])}
        types = {it[1]: first_type(it[2], self.types) or bounds.get(it[2].strip(" &\n)").split()[-1]) for it in FIELD.finditer(given[given.find("(") :])}
        function = Function(crate, name, owner, head[1], types, first_type(answers, self.types), calls_in(text[start:end]))
        function.used, function.body = used, text[start:end]
        self.functions.append(function)
        self.by_name.setdefault(head[1], []).append(function)

    def bound(self, function):
        """The types of a function's names, as far as they are written or follow from what a call answers."""
        types = dict(function.types)
        for name, written, value in BOUND.findall(function.body):
            kind = first_type(written, self.types)
            if not kind:
                call = next(iter(calls_in(value)), None)
                callee = call and self.called(function, call, types)
                kind = callee.answers if callee else None
                kind = callee.owner if callee and "Self" in (callee.answers or "") else kind
            types[name] = kind or types.get(name)
        return types

    def called(self, function, call, types):
        """The function that a call enters; none where it isn't one of the crates or can't be told."""
        candidates = self.by_name.get(call.path[-1], [])
        if call.receiver:
            return self.method(function, call, types, [it for it in candidates if it.owner])
        if len(call.path) > 1 and call.path[-2][0].isupper():
            owner = function.owner if call.path[-2] == "Self" else call.path[-2]
            return self.nearest(function, [it for it in candidates if it.owner == owner])
        candidates = [it for it in candidates if not it.owner]
        if len(call.path) == 1 and not any(it.file == function.file and it.crate == function.crate for it in candidates):
            root, module = self.imports[function.crate, function.file].get(call.path[0], (None, None))
            candidates = [it for it in candidates if it.crate in (root or it.crate,)]
            candidates = [it for it in candidates if f"/{it.file[:-3]}".endswith(f"/{module}")] or candidates
        if len(call.path) > 1 and call.path[0] != "crate":
            candidates = [it for it in candidates if call.path[-2] in (it.crate, it.file.split("/")[-1][:-3])]
        return self.nearest(function, candidates)

    def method(self, function, call, types, candidates):
        names = call.receiver.split(".")
        kind = function.owner if names[0] == "self" else types.get(names[0])
        for name in names[1:]:
            kind = self.fields.get(kind, {}).get(name)
        kind = self.implementors.get(kind, kind)
        if kind:
            return self.nearest(function, [it for it in candidates if it.owner == kind])
        if call.path[-1] in LIBRARYS:
            return None
        candidates = [it for it in candidates if it.owner in function.used or it.owner == function.owner] or candidates
        return candidates[0] if len(candidates) == 1 else None

    def nearest(self, function, candidates):
        """The candidate of the same file, else of the same crate, else the only one of those that the crate may name."""
        for fits in (
            lambda it: (it.crate, it.file) == (function.crate, function.file),
            lambda it: it.crate == function.crate,
            lambda it: True,
        ):
            found = [it for it in candidates if fits(it)]
            if len(found) == 1:
                return found[0]
            if found and fits(function) and len({(it.crate, it.owner) for it in found}) == 1:
                return found[0]
        return None

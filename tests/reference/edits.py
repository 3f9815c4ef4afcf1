# Independent implementation that computes the tests' expected values; no part of the product.
"""Edits of a source and its pairs, and the rules that they may break."""

from dataclasses import dataclass, replace

from faults import Broken
from source import Entry, Plain, body_words, find_lead, is_name, is_number_word, token_places, with_counts

NEEDS_BODY = (b"replace", b"add")


@dataclass(frozen=True)
class Edit:
    """The words of the command, and its body where it has one."""

    words: tuple
    body: bytes = b""


FORMS = {
    (b"replace", b"glyph"): 3,
    (b"add", b"glyph"): 3,
    (b"remove", b"glyph"): 3,
    (b"replace", b"subr"): 3,
    (b"add", b"subr"): 3,
    (b"remove", b"subr"): 3,
    (b"encode",): 3,
    (b"unencode",): 2,
    (b"kern",): 4,
    (b"unkern",): 3,
    (b"set", b"leniv"): 3,
}


def form_of(words):
    """The first words of the edit that these words spell, or None."""
    for form, count in FORMS.items():
        if tuple(words[: len(form)]) == form and len(words) == count:
            return form
    return None


def takes_body(words):
    return len(words) >= 2 and words[0] in NEEDS_BODY and words[1] in (b"glyph", b"subr")


def in_range(word, low, high):
    """The number, or None."""
    return int(word) if is_number_word(word) and low <= int(word) <= high else None


def judge_words(form, words):
    """E3, then E4: of the words by themselves."""
    names = {
        b"glyph": words[2:3],
        b"encode": words[2:3],
        b"kern": words[1:3],
        b"unkern": words[1:3],
    }.get(form[-1], ())
    ranges = {
        b"subr": (words[-1], 0, 32000),
        b"encode": (words[1], 0, 255),
        b"unencode": (words[1], 0, 255),
        b"kern": (words[-1], -32000, 32000),
        b"leniv": (words[-1], 0, 64),
    }.get(form[-1])
    if not all(is_name(name) for name in names):
        raise Broken("E3")
    if ranges and in_range(*ranges) is None:
        raise Broken("E4")


def edited(source, pairs, edit):
    """The source and pairs after the edit, or the first rule that is broken."""
    words, form = edit.words, form_of(edit.words)
    judge_words(form, words)
    if form[0] in NEEDS_BODY and {b"{", b"}"} & set(body_words(edit.body)):
        raise Broken("E6")
    if form[-1] in (b"glyph", b"subr"):
        return edited_entry(source, form, words[2], edit.body), pairs
    if form in ((b"encode",), (b"unencode",)):
        return edited_encoding(source, form[0], words), pairs
    if form[0] == b"set":
        return with_lead(source, int(words[2])), pairs
    return source, edited_pairs(pairs, form[0], words)


def edited_entry(source, form, word, body):
    verb, kind = form
    key = int(word) if kind == b"subr" else word
    section = source.section("Subrs" if kind == b"subr" else "CharStrings")
    if section is None:
        raise Broken("E9")
    place = next((at for at, it in enumerate(source.items) if isinstance(it, Entry) and it.key == key), None)
    if verb == b"add":
        if place is not None:
            raise Broken("E2")
        return added(source, section, key, body)
    if place is None:
        raise Broken("E1")
    items = list(source.items)
    if verb == b"remove":
        del items[place]
    else:
        items[place] = replace(items[place], words=tuple(body_words(body)))
    return with_counts(replace(source, items=tuple(items)))


def added(source, section, key, body):
    """Directly after the section's last entry, with the closing text of its first one."""
    is_subr = isinstance(key, int)
    here = [at for at, it in enumerate(source.items) if isinstance(it, Entry) and it.is_subr() == is_subr]
    closing = source.items[here[0]].closing if here else b"noaccess put" if is_subr else b"noaccess def"
    place = (here or [section])[-1] + 1
    entry = Entry(key, tuple(body_words(body)), closing)
    return with_counts(replace(source, items=source.items[:place] + (entry,) + source.items[place:]))


def edited_encoding(source, verb, words):
    array = source.encoding()
    if array is None:
        raise Broken("E5")
    code, clear = int(words[1]), list(source.clear)
    here = [at for at, slot in array.slots.items() if slot[0] == code]
    if verb == b"unencode":
        if not here:
            raise Broken("E10")
        return replace(source, clear=tuple(line for at, line in enumerate(clear) if at not in here))
    line = b"dup %d /%s put" % (code, words[2])
    if here:
        clear[here[-1]] = line
    else:
        clear.insert(max(array.slots) + 1 if array.slots else array.end, line)
    return replace(source, clear=tuple(clear))


def edited_pairs(pairs, verb, words):
    pairs, key = dict(pairs), tuple(words[1:3])
    if verb == b"kern":
        pairs[key] = int(words[3])
    elif key in pairs:
        del pairs[key]
    else:
        raise Broken("E10")
    return pairs


def with_lead(source, value):
    """The source with this lenIV."""
    items, found = list(source.items), find_lead(source.items)
    if found is None:
        section = min(at for at in (source.section("Subrs"), source.section("CharStrings")) if at is not None)
        items.insert(section, Plain(b"/lenIV %d def" % value))
    else:
        line = items[found[0]].line
        places = token_places(line)
        after = next(at for at, (start, end) in enumerate(places) if line[start:end] == b"/lenIV") + 1
        start, end = places[after]
        items[found[0]] = Plain(line[:start] + b"%d" % value + line[end:])
    return replace(source, items=tuple(items))

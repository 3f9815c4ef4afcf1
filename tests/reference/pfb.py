# Independent implementation that computes the tests' expected values; no part of the product.
"""The PFB and the PFA of a source."""

import functools

from charstrings import EEXEC_KEY, cipher, code, compiled, encrypted
from faults import Fault
from source import Entry, joined, printed

LARGEST = 2**31 - 1


def assembly_fault(source):
    """The first fault over Subrs in entry order, then glyphs; else a part that is too long; or None."""
    for entry in source.entries():
        try:
            compiled(entry.words)
        except Fault as fault:
            return Fault(fault.code, entry.place())
    # (each byte of the text gives at most a five-byte number, an encrypted charstring at most 64 bytes more)
    is_small = len(source.text()) * 5 + len(source.items) * 100 < LARGEST
    return None if is_small or all(len(part) <= LARGEST for part in parts(source)) else Fault("F23")


@functools.lru_cache(maxsize=20000)
def encrypted_code(lead, words):
    return encrypted(lead, code(compiled(words)))


def parts(source):
    """The clear text, the encrypted private text, and the trailer."""
    lead, operator, private = source.lead(), source.operator(), bytearray(4)
    for item in source.items:
        if isinstance(item, Entry):
            charstring = encrypted_code(lead, item.words)
            private += b"%s %d %s %s" % (item.head(), len(charstring), operator, charstring)
            private += (b" " + item.closing if item.closing else b"") + b"\n"
        else:
            private += joined(printed(item))
    return joined(source.clear), cipher(EEXEC_KEY, bytes(private)), (b"0" * 64 + b"\n") * 8 + joined(source.tail)


def pfb(source, block=LARGEST):
    return b"".join(segments(kind, part, block) for kind, part in zip((1, 2, 1), parts(source))) + b"\x80\x03"


def segments(kind, part, block):
    found = [part[at : at + block] for at in range(0, len(part), block)] or [b""]
    return b"".join(bytes([128, kind]) + len(it).to_bytes(4, "little") + it for it in found)


def pfa(source):
    clear, private, trailer = parts(source)
    digits = private.hex().encode()
    return clear + joined(digits[at : at + 64] for at in range(0, len(digits), 64)) + trailer

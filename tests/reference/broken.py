# Independent implementation that computes the tests' expected values; no part of the product.
"""Files of the small font in which a font's file has a fault, by the example that is shown for the fault's code."""

from charstrings import CHARSTRING_KEY, EEXEC_KEY, cipher
from pfb import pfa, pfb
from source import read_source

CLEAR_END = b"currentfile eexec\n"
CLOSEFILE = b"mark currentfile closefile\n"
TAIL = (b"0" * 64 + b"\n") * 8 + b"cleartomark\n"
LEAD = b"\0\0\0\0"


def raw(clear, private):
    """A font's file without segments, of its clear text and its private text."""
    return clear + cipher(EEXEC_KEY, LEAD + private) + TAIL


def entry(name, plain, lead=4):
    """The line of a glyph whose charstring has these bytes in front of lenIV bytes."""
    charstring = cipher(CHARSTRING_KEY, bytes(lead) + plain)
    return b"%s %d RD %s ND\n" % (name, len(charstring), charstring)


def private(entries, before=b"", close=CLOSEFILE):
    return before + b"/CharStrings 1 dict dup begin\n" + entries + b"end\n" + close


SOUND = entry(b"/space", bytes([139, 247, 142, 13, 14]))


def broken(code, shown, small):
    """The file that has the fault, where `shown` is the line of the code's example, and `small` the small font's source."""
    clear = small[: small.index(CLEAR_END)]
    line = shown + b"\n"
    if code == "D1":
        return raw(clear + line, private(SOUND))
    if code == "D2":
        return bytes.fromhex(shown.decode()) + pfb(read_source(small))
    if code == "D3":
        whole = pfa(read_source(small))
        at = whole.index(CLEAR_END) + len(CLEAR_END)
        return whole[:at] + line + whole[at:]
    if code in ("D12", "D13"):
        return raw(clear + line + CLEAR_END, private(SOUND))
    clear += CLEAR_END
    if code == "D4":
        return raw(clear, private(SOUND, close=line))[: -len(TAIL)]
    if code in ("D5", "D6", "D14"):
        return raw(clear, private(line))
    if code in ("D7", "D8"):
        return raw(clear, private(entry(b"/space", bytes.fromhex(shown.decode()))))
    if code in ("D11", "D17"):
        return raw(clear, private(SOUND + line))
    if code == "D15":
        return raw(clear, private(SOUND, before=line))
    if code == "D16":
        return raw(clear, line + b"end\n" + CLOSEFILE)
    assert code in ("D9", "D10"), code
    return raw(clear, private(SOUND, before=line))

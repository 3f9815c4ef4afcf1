"""A font that is edited, glyph by glyph."""

from __future__ import annotations

import os
from contextlib import AbstractContextManager
from typing import Optional, Union

from .entries import Glyphs, Subrs
from .files import File, save
from .queries import Queries
from .representing import counted, said_of
from .session import Session
from .tables import Encoding, Kerning

# What is printed into a file, by the end of its name.
FORMS = {".t1": "source", ".pfb": "pfb", ".pfa": "pfa", ".afm": "afm"}


class Font:
    """A Type 1 font in a session of the program t1edit. Threads may share it: a command waits until the one before is
    answered, and until another thread's batch has ended.

        with Font("font.t1", kern="font.afm") as font:
            font.kern["A", "V"] = -92
            font.glyphs["A"].body = "10 600 hsbw 300 hlineto 700 vlineto closepath endchar"
            print(font.glyphs["A"].metrics.width)
            with font.batch():
                del font.glyphs["Aacute"]
                del font.glyphs["acute"]
            font.save("font.pfb")

    Each edit is judged at once. One after which the font would have a fault raises Refused, and has changed nothing.
    """

    def __init__(self, source: File, kern: Optional[File] = None, *, program: Optional[str] = None) -> None:
        """Opens a source, with the pairs of a kerning file; both are paths or bytes. Raises Refused where one has a fault.

        program  the program t1edit; else the variable T1EDIT names it, or it is that of the PATH, or that of a checkout
        """
        self.session = Session(source, kern, program=program)
        queries = Queries(self.session)
        self.glyphs = Glyphs(queries)
        self.subrs = Subrs(queries)
        self.kern = Kerning(queries)
        self.encoding = Encoding(queries)

    def __repr__(self) -> str:
        return said_of(self, self.session, self._sizes)

    def __enter__(self) -> Font:
        return self

    def __exit__(self, *_: object) -> None:
        self.close()

    def batch(self) -> AbstractContextManager[None]:
        """Edits that are judged together, at the end of a with statement. Where they are refused, or where an exception
        leaves it, all are dropped. What is read meanwhile is the font before the batch."""
        return self.session.batch()

    def pfb(self, block: Optional[int] = None) -> bytes:
        """The PFB file. With block, the greatest length of a segment in bytes; without, each part is one segment."""
        return self.session.print("pfb" if block is None else f"pfb {block}")

    def pfa(self) -> bytes:
        """The PFA file."""
        return self.session.print("pfa")

    def afm(self) -> bytes:
        """The AFM file. Lengths in it are whole numbers of character space units."""
        return self.session.print("afm")

    def source(self) -> bytes:
        """The source in its printed form, which has no comments of bodies."""
        return self.session.print("source")

    def save(self, path: Union[str, "os.PathLike[str]"], form: Optional[str] = None) -> None:
        """Writes a file of the font whole, or leaves what stands there as it was.

        form  'source', 'pfb', 'pfa', 'afm' or 'kern'; without it the end of the name says it: .t1, .pfb, .pfa, .afm
        """
        form = form or FORMS.get(os.path.splitext(os.fspath(path))[1].lower())
        if form not in (*FORMS.values(), "kern"):
            raise ValueError(f"no form of a font: {form or path!r}")
        save(path, self.session.print(form))

    def close(self) -> None:
        """Ends the session. Nothing is saved."""
        self.session.close()

    def _sizes(self) -> str:
        counts = {"glyph": len(self.glyphs), "Subr": len(self.subrs), "pair": len(self.kern)}
        return ", ".join(counted(count, what) for what, count in counts.items())

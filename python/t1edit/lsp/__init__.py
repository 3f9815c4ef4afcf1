"""A language server for sources of Type 1 fonts: what the program t1edit tells, behind the protocol of editors.

    t1edit-lsp            (or python -m t1edit.lsp; an editor starts it, and speaks with it over standard input and output)

The modules, from the pipes upward: wire has messages and timers, text the lines of a document, places what stands where in them,
engine the faults and the session of a font, part what a typo needs of a font, document both states of a text; each feature of the
protocol has a module of its own, and server hands requests to them. What the program doesn't tell yet stands in three modules, to
be replaced once it does: places, runs and commands.
"""

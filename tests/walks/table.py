"""Which walks there are, where each begins, and what it doesn't enter."""

# Crates of bytes and lists, and the insides of a compiler, a run and a box.
LEFT_OUT = {"t1_frac", "t1_text", "t1_buckets", "compile_onto", "compiled_glyph", "run_of_body", "box_of"}

MAIN = [("t1edit", "main.rt", "main")]
# What a walk from `main` passes over: the other commands, and a font's file in the place of a source.
COMMANDS = {f"t1edit/main.rt: {it}" for it in ("assemble", "disassemble", "measure", "check", "faults", "notes", "session", "explain_code", "shown")}
FONTS = {"disassemble_in_place", "coded_source", "measure_font"}
# What `replace glyph` passes over in a session that is open: its opening, prints, queries, batches, and the other edits.
OTHERS = {
    *("loaded", "Session::put_print", "Session::put_show", "Session::begin", "Session::commit", "Session::abort", "OpenBatch::edit"),
    *("adding_glyph", "removing_glyph", "replacing_subr", "adding_subr", "removing_subr", "encoding_code", "unencoding_code", "putting_lead"),
    *("kerning_pair", "unkerning_pair", "glyph_removed", "subr_put", "subr_removed", "put_fresh_subr", "prepare_anew", "len_of_batch"),
}


def of_command(name, *more):
    return COMMANDS - {f"t1edit/main.rt: {name}"} | FONTS | set(more)


# The types that a walk takes for traits.
IMPLEMENTORS = {"FileForm": "Pfb", "Report": "Faults", "Compiler": "WordsCompiler", "Bodies": "SourceBodies", "KeptRuns": "Runs"}

STARTS = {
    "assemble": MAIN,
    "measure": MAIN,
    "faults": MAIN,
    "replace glyph": MAIN,
    "assemble_source": [("t1_session", "assembling.rt", "assemble_source")],
    "measure_source": [("t1_session", "measuring.rt", "measure_source")],
    "Session::make": [("t1_session", "session.rt", "make")],
}
PASSED_OVER = {
    "assemble": of_command("assemble", "assemble_pfa"),
    "measure": of_command("measure"),
    "faults": of_command("faults"),
    "replace glyph": of_command("session", *OTHERS),
    "assemble_source": set(),
    "measure_source": set(),
    "Session::make": OTHERS,
}
# The tables of docs/ARCHITECTURE.md by their headings.
TABLES = {
    "assemble": ["### `t1edit assemble`: from a source to its PFB file"],
    "measure": ["### `t1edit measure`: from a source and its pairs to the AFM file"],
    "replace glyph": ["## An edit on its way"],
}

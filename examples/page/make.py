#!/usr/bin/env python3
"""Makes a page on which the engine itself runs in a browser: one file, without a server and without the program.

usage: examples/page/make.py [--unproved | --page-only] [FOLDER]

Writes t1edit.html to FOLDER, which is examples/page/out where none is given, and beside it the WebAssembly module that is in it,
t1edit.wasm, and what is known of that, t1edit.json. It takes three steps:

1. The module of the library for C, as the toolchain hands it to its compiler once it has proved crates/t1_c: tools/prove-library
   keeps it. That takes some minutes once the crates below are proved, by rt ci too. With --unproved the module is that of
   tools/quick-build, in a minute or two and without a proof.
2. That module is compiled for wasm64, which takes a minute, and linked with the C of library/ and with the heap in libc/.
   The toolchain lowered it for x86-64, and names that processor in its layout, its features and its stack probes; these are taken
   out. Nothing proves that the module means the same there. The toolchain's own way, a crate for wasm64, refuses all that takes
   memory from the heap.
3. The page: page.html with its style, its scripts, the module, a font to begin with, what docs/FAULTS.md says of each code, and the
   names of the glyphs of characters, by examples/pages.

The first two are left out where t1edit.wasm is newer than all that it is made of. With --page-only they always are, and where
t1edit.wasm isn't so new the status is 3. A proved module stands for an unproved one, but not the other way round.
"""

import argparse
import base64
import gzip
import hashlib
import importlib.machinery
import importlib.util
import json
import os
import re
import shutil
import subprocess
import sys
import tempfile
import time

HERE = os.path.dirname(os.path.realpath(__file__))
sys.path.insert(0, os.path.dirname(HERE))
sys.dont_write_bytecode = True

from pages.characters import TABLE  # noqa: E402

TOP = os.path.dirname(os.path.dirname(HERE))
HEADER = os.path.join(TOP, "include", "t1edit.h")
CRATE = "t1_c"
WASM = "wasm64-unknown-unknown"
# What the toolchain leaves in a module that it has proved.
MARK = "rattle logic="
NOT_CURRENT = 3
LIBC = os.path.join(HERE, "libc")
# The bytes of the stack, as many as a thread of C has by default.
STACK = 8 << 20
# How the toolchain has its own modules for wasm64 compiled.
FLAGS = "-mcpu=lime1 -O3 -ffunction-sections -fdata-sections --no-default-config -no-canonical-prefixes".split()
LLVM_FLAGS = "-expand-div-rem-bits=64 -expand-fp-convert-bits=64 -trap-unreachable -sink-common-insts=false".split()
C_FLAGS = "-std=c11 -Wall -Wextra -Wpedantic -Werror -ffreestanding -nostdinc".split()


def stop(why):
    sys.exit(f"make.py: {why}")


def text(path):
    with open(path, encoding="utf-8") as file:
        return file.read()


def data(path):
    with open(path, "rb") as file:
        return file.read()


def sum_of(path):
    return hashlib.sha256(data(path)).hexdigest()


def write(path, content):
    with open(path, "w", encoding="utf-8") as file:
        file.write(content)


def run(*words, **how):
    """Runs a tool, and stops where it fails."""
    ran = subprocess.run(words, capture_output=True, text=True, **how)
    if ran.returncode:
        stop(f"{os.path.basename(words[0])} failed:\n{ran.stdout}{ran.stderr}")
    return ran.stdout + ran.stderr


def quick_build():
    """tools/quick-build as a module, where it knows the toolchain."""
    loader = importlib.machinery.SourceFileLoader("quick_build", os.path.join(TOP, "tools", "quick-build"))
    module = importlib.util.module_from_spec(importlib.util.spec_from_loader("quick_build", loader))
    given, sys.argv, sys.dont_write_bytecode = sys.argv, ["quick-build", "--kit"], True
    try:
        loader.exec_module(module)
    except SystemExit as ended:
        if ended.code:
            raise
    finally:
        sys.argv = given
    return module


# 1. The module of the library.


def proved_module(quick, room):
    """The module of the proved library as text, the sum of its bytes as they were handed over, and the last line of its proof."""
    kept, module = f"{room}/proved.bc", f"{room}/library.ll"
    proved = subprocess.run([f"{TOP}/tools/prove-library", "--module", kept], stdout=subprocess.PIPE, text=True)
    if proved.returncode:
        stop("the library isn't proved, as it says above")
    run(quick.CLANG, f"--target={quick.TARGET}", "-x", "ir", kept, "-S", "-emit-llvm", "-o", module)
    if MARK not in text(module):
        stop("the module that the compiler was handed hasn't the mark of what is proved")
    return module, sum_of(kept), proved.stdout.splitlines()[-1]


def unproved_module(quick, room):
    """The same of the module that tools/quick-build makes of the same sources, without a proof."""
    module = quick.without_checks(quick.lowered(CRATE, room), room)
    quick.handed_out(module)
    return module, sum_of(module), None


# 2. WebAssembly.


def calls():
    """The names of the library's functions, in the order of the header."""
    return re.findall(r"^\w+ (t1edit_\w+)\(", text(HEADER), flags=re.M)


def without_processor(module):
    """A module without what it says of the processor that it was lowered for."""
    module = re.sub(r"^target (?:datalayout|triple) .*\n", "", module, flags=re.M)
    return re.sub(r'"(?:probe-stack|stack-probe-size|target-cpu|target-features|tune-cpu)"="[^"]*" ?', "", module)


def with_exports(module):
    """A module whose calls the page finds by their names, and malloc and free, for what it hands in."""
    for name in [*calls(), "malloc", "free"]:
        module = re.sub(rf"^(define [^\n]*@{name}\([^\n]*) (#\d+)", rf'\1 "wasm-export-name"="{name}" \2', module, flags=re.M)
    return module


def compiled(quick, module, to):
    """Compiles a module for wasm64."""
    write(module, with_exports(without_processor(text(module))))
    llvm = [it for flag in LLVM_FLAGS for it in ("-mllvm", flag)]
    run(quick.CLANG, f"--target={WASM}", *FLAGS, *llvm, "-Wno-override-module", "-c", "-x", "ir", module, "-o", to)


def c_files():
    """Those of the library, and the heap."""
    folder = os.path.join(TOP, "library")
    found = [os.path.join(folder, it) for it in sorted(os.listdir(folder)) if it.endswith(".c")] if os.path.isdir(folder) else []
    return [*found, os.path.join(LIBC, "heap.c")]


def linked(quick, module, room):
    """Makes the WebAssembly module of the library's module and the C files."""
    objects = [f"{room}/library.o"]
    compiled(quick, module, objects[0])
    for at, source in enumerate(c_files()):
        lowered, made = f"{room}/c{at}.ll", f"{room}/c{at}.o"
        words = [f"-I{LIBC}", f"-I{os.path.dirname(HEADER)}", "-S", "-emit-llvm", source, "-o", lowered]
        run(quick.CLANG, f"--target={WASM}", *FLAGS, *C_FLAGS, *words)
        compiled(quick, lowered, made)
        objects.append(made)
    archive = f"{room}/library.a"
    run(f"{quick.KIT}/toolchain/bin/llvm-ar", "rcsD", archive, *objects)
    made = f"{room}/t1edit.wasm"
    words = ["--target", WASM, "--toolchain", f"{quick.KIT}/toolchain", "--stack", str(STACK), "-o", made, archive]
    run(f"{quick.KIT}/bin/rattle-link", *words)
    lacking = [name for name in calls() if name.encode() not in data(made)]
    if lacking:
        stop(f"the module hands out no {', '.join(lacking)}")
    return made


def sources():
    """All that the WebAssembly module is made of."""
    yield from (os.path.realpath(__file__), HEADER, os.path.join(TOP, "crates.txt"), *c_files())
    yield from (os.path.join(LIBC, it) for it in os.listdir(LIBC))
    for crate in os.scandir(os.path.join(TOP, "crates")):
        for folder, _, names in os.walk(os.path.join(crate.path, "src")):
            yield from (os.path.join(folder, it) for it in names)


def is_current(wasm, known, is_proved):
    """Whether the WebAssembly module is there, as proved as it is asked for, and no source is newer."""
    if not os.path.exists(wasm) or not os.path.exists(known):
        return False
    made = os.path.getmtime(wasm)
    return bool(json.loads(text(known))["proof"]) >= is_proved and all(os.path.getmtime(it) <= made for it in sources())


def commit():
    """The commit of the sources, with a + where they were changed after it, or nothing."""
    ask = lambda *words: subprocess.run(["git", "-C", TOP, *words], capture_output=True, text=True).stdout.strip()
    changed = "+" if ask("status", "--porcelain", "crates", "crates.txt", "library", "include") else ""
    return ask("rev-parse", "--short=12", "HEAD") + changed


def make_wasm(wasm, known, is_proved):
    """Makes the WebAssembly module, and writes what is known of it."""
    quick, begun = quick_build(), time.time()
    with tempfile.TemporaryDirectory(prefix="t1edit-page-") as room:
        module, handed, proof = (proved_module if is_proved else unproved_module)(quick, room)
        facts = {"proof": proof, "commit": commit(), "kit": run("rt", "version").strip(), "module": handed}
        made = linked(quick, module, room)
        # as old as the sources that were read: a file that changed meanwhile is newer
        os.utime(made, (begun, begun))
        write(known, json.dumps(facts, indent=1) + "\n")
        shutil.copy2(made, wasm)


# 3. The page.


def meanings():
    """What docs/FAULTS.md says of each code: what it means, and what to do."""
    found = {}
    for part in re.split(r"^### ", text(os.path.join(TOP, "docs", "FAULTS.md")), flags=re.M)[1:]:
        code, meaning = part.split("\n", 1)[0].split(": ", 1)
        todo = re.search(r"^What to do: (.*?)(?=\n\n|\n#|\Z)", part, flags=re.M | re.S)
        if re.fullmatch(r"[FDE]\d+", code):
            found[code] = [meaning, " ".join(todo[1].split()) if todo else ""]
    return found


def in_script(value):
    """A value as JSON that ends no element of HTML."""
    return json.dumps(value).replace("<", "\\u003c")


def packed(content):
    return base64.b64encode(gzip.compress(content, mtime=0)).decode()


def make_page(wasm, known, to):
    """Writes the page: each mark @NAME@ of page.html is a file beside it, or what stands here."""
    facts = json.loads(text(known))
    font = {name: text(os.path.join(TOP, "fonts", f"sans.{name}")) for name in ("t1", "kern")}
    values = {
        "STYLE": text(os.path.join(HERE, "style.css")),
        "SCRIPTS": "\n".join(text(os.path.join(HERE, it)) for it in ("engine.js", "font.js", "page.js")),
        "MODULE": packed(data(wasm)),
        "FACTS": in_script({**facts, "bytes": os.path.getsize(wasm)}),
        "FONT": in_script(font),
        "MEANINGS": in_script(meanings()),
        "CHARACTERS": in_script(TABLE),
    }
    write(to, re.sub(r"@([A-Z]+)@", lambda it: values[it[1]], text(os.path.join(HERE, "page.html"))))


def main():
    usage = "examples/page/make.py [--unproved | --page-only] [FOLDER]"
    parser = argparse.ArgumentParser(usage=usage, description=__doc__.split("\n")[0])
    kind = parser.add_mutually_exclusive_group()
    kind.add_argument("--unproved", action="store_true", help="take a module that isn't proved")
    kind.add_argument("--page-only", action="store_true", help="take the module that is there")
    parser.add_argument("folder", metavar="FOLDER", nargs="?", default=os.path.join(HERE, "out"))
    given = parser.parse_args()
    os.makedirs(given.folder, exist_ok=True)
    wasm, known, page = (os.path.join(given.folder, f"t1edit.{it}") for it in ("wasm", "json", "html"))
    is_proved = not (given.unproved or given.page_only)
    if not is_current(wasm, known, is_proved):
        if given.page_only:
            return NOT_CURRENT
        make_wasm(wasm, known, is_proved)
    make_page(wasm, known, page)
    print(page)
    return 0


sys.exit(main())

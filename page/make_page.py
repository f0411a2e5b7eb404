#!/usr/bin/env python3
"""Makes the page: the proved library in one file that a browser opens, without any other file or request.

  page/make_page.py MODULE OUT    makes the page of a WebAssembly module that was made before: out/build/page/library.wasm

`./build --page` makes all of it. Rattle's own backend for WebAssembly refuses the library, which takes memory. So the module of LLVM that it
hands to clang for x86-64 is kept (`keeper`), compiled for 64-bit memory by the toolchain's clang, linked with a small heap, and lowered to
32-bit memory (`lower`). The same module and sources give the same page, byte for byte. No proof covers what is done here.
"""
import base64
import gzip
import hashlib
import json
import pathlib
import re
import shlex
import subprocess
import sys

HERE = pathlib.Path(__file__).resolve().parent
sys.path[:0] = [str(HERE), str(HERE / "module")]
import lower
import wording

EXAMPLES = {"example": HERE.parent / "examples" / "veth.pcap", "options": HERE.parent / "examples" / "lessons" / "options.pcap"}
# No scripts but the page's own, no styles but its own, no request, no form; a worker only of the page's own text.
POLICY = ("default-src 'none'; script-src 'sha256-{script}' 'wasm-unsafe-eval'; style-src 'sha256-{style}'; worker-src blob:; "
          "base-uri 'none'; form-action 'none'")

WASM = ["--target=wasm64-unknown-unknown", "-mcpu=lime1", "--no-default-config", "-no-canonical-prefixes", "-ffunction-sections",
        "-fdata-sections"]
LAYOUT = "e-m:e-p:64:64-p10:8:8-p20:8:8-i64:64-i128:128-n32:64-S128-ni:1:10:20"
# What is of x86-64 in a module, and what is of wasm64 in its place. Each of them has to be there.
RETARGETED = [
    (r'^target datalayout = .*', f'target datalayout = "{LAYOUT}"'),
    (r'^target triple = .*', 'target triple = "wasm64-unknown-unknown"'),
    (r'"probe-stack"="inline-asm" "stack-probe-size"="\d+" "target-cpu"="[^"]*"( "target-features"="[^"]*")?',
     '"no-builtin-bcmp" "no-builtin-memcmp" "no-builtin-strlen" "target-cpu"="lime1"'),
]
STACK, MOST_MEMORY = 16 << 20, lower.MOST_PAGES << 16


class Refused(Exception):
    """There is no page of what was given."""


def retargeted(text):
    """A module for x86-64, as text, as one for wasm64."""
    found = sorted(set(re.findall(r"llvm\.x86[\w.]*", text)))
    if found:
        raise Refused(f"the library's module has intrinsics of x86: {', '.join(found)}")
    for pattern, wanted in RETARGETED:
        text, count = re.subn(pattern, wanted, text, flags=re.M)
        if not count:
            raise Refused(f"the library's module has no {pattern}: the toolchain writes another form, which this does not know")
    return text


def exports(text):
    """The functions of the library: what a module defines for C."""
    names = re.findall(r"^define (?!.*\binternal\b)[^@]*@(bpftap_\w+)\(", text, re.M)
    if not names:
        raise Refused("the library's module defines no bpftap_* for C")
    return sorted(set(names))


def run(*words):
    subprocess.run([str(word) for word in words], check=True)


def keeper(toolchain, folder, bitcode):
    """Makes a folder that is the toolchain, but that its clang keeps the module that it compiles. Nothing of the toolchain is touched."""
    tools = folder / "bin"
    tools.mkdir(parents=True, exist_ok=True)
    for path in [*toolchain.iterdir(), *(toolchain / "bin").iterdir()]:
        link = folder / path.relative_to(toolchain)
        if path.name not in ("bin", "clang") and not link.is_symlink():
            link.symlink_to(path)
    clang, kept = shlex.quote(str(toolchain / "bin" / "clang")), shlex.quote(str(bitcode))
    script = f"""#!/bin/sh
# Made by page/make_page.py: keeps the module that is compiled, and runs the toolchain's clang.
for word; do case $word in *.bc) cp -- "$word" {kept} || exit ;; esac; done
exec {clang} "$@"
"""
    (tools / "clang").write_text(script)
    (tools / "clang").chmod(0o755)
    return folder


def module_of(bitcode, kit, work):
    """The module of the page, which is made anew only if something that it is made of has changed."""
    if not bitcode.is_file() or bitcode.read_bytes()[:4] != b"BC\xc0\xde":
        raise Refused(f"{bitcode} is no LLVM module: the toolchain handed its module on in another way, which this does not know")
    sources = [bitcode, kit / "KIT-ID", HERE / "make_page.py", *sorted((HERE / "module").glob("*.[cp]*"))]
    key = hashlib.sha256(b"".join(hashlib.sha256(path.read_bytes()).digest() for path in sources)).hexdigest()
    made, noted = work / "library.wasm", work / "library.key"
    if not made.is_file() or not noted.is_file() or noted.read_text() != key:
        work.mkdir(parents=True, exist_ok=True)
        made.write_bytes(compiled(bitcode, kit, work))
        noted.write_text(key)
    return made.read_bytes()


def compiled(bitcode, kit, work):
    """Compiles the library's module and the heap for 64-bit memory, links them, and lowers the result to 32-bit memory."""
    clang, linker = kit / "toolchain" / "bin" / "clang", work / "wasm-ld"
    texts, objects, linked = work / "library.ll", [work / "library.o", work / "heap.o"], work / "library64.wasm"
    run(clang, "-x", "ir", "-S", "-emit-llvm", "-Xclang", "-disable-llvm-passes", "--target=x86_64-unknown-linux-gnu", bitcode, "-o", texts)
    text = retargeted(texts.read_text())
    texts.write_text(text)
    expand = ["-mllvm", "-expand-div-rem-bits=64", "-mllvm", "-expand-fp-convert-bits=64", "-mllvm", "-trap-unreachable"]
    run(clang, *WASM, *expand, "-O3", "-c", "-x", "ir", texts, "-o", objects[0])
    run(clang, *WASM, "-O2", "-ffreestanding", "-fno-builtin", "-c", HERE / "module" / "heap.c", "-o", objects[1])
    # The linker is the same program under another name.
    linker.unlink(missing_ok=True)
    linker.symlink_to(clang)
    sizes = ["-z", f"stack-size={STACK}", f"--max-memory={MOST_MEMORY}"]
    run(linker, "-mwasm64", "--no-entry", "--gc-sections", "--stack-first", *sizes, "--strip-all",
        *(f"--export={name}" for name in exports(text)), *objects, "-o", linked)
    try:
        return lower.lowered(linked.read_bytes())
    except lower.Unknown as why:
        raise Refused(f"the library's WebAssembly module has {why}") from why


def script():
    """All modules as one script, each after those that it imports. Their names are all different."""
    texts = {path.stem: path.read_text() for path in sorted((HERE / "src").glob("*.js"))}
    order = []

    def take(name, above=()):
        if name in above:
            raise Refused(f"modules import each other: {' '.join([*above, name])}")
        if name not in order:
            for below in re.findall(r'^(?:import|\}) [^;]*?from "\./([\w-]+)\.js";', texts[name], re.M):
                take(below, (*above, name))
            order.append(name)

    take("main")
    if unused := set(texts) - set(order):
        raise Refused(f"nothing imports {' '.join(sorted(unused))}")
    strip = lambda text: re.sub(r"^export ", "", re.sub(r'^import \{[^}]*\} from "[^"]*";\n', "", text, flags=re.M), flags=re.M)
    joined = "\n".join(strip(texts[name]) for name in order)
    names = re.findall(r"^(?:async )?(?:function\*?|class) (\w+)", joined, re.M)
    for line in re.findall(r"^(?:const|let) (.*)", joined, re.M):
        names += re.findall(r"(?:^|, )(\w+) = ", line)
    if twice := {name for name in names if names.count(name) > 1}:
        raise Refused(f"two modules have the name {' '.join(sorted(twice))}")
    return f'// SPDX-License-Identifier: MIT OR Apache-2.0\n"use strict";\n(() => {{\n{joined}}})();\n'


def packed(content):
    return base64.b64encode(gzip.compress(content, 9, mtime=0)).decode()


def digest(text):
    return base64.b64encode(hashlib.sha256(text.encode()).digest()).decode()


def program_texts():
    try:
        return wording.all_texts()
    except wording.Unknown as why:
        raise Refused(str(why)) from why


def page_of(module, scripts=None):
    """The page of a module, with its own scripts if no others are named."""
    parts = {"script": scripts or script(), "style": (HERE / "style.css").read_text(), "module": packed(module)}
    parts["wording"] = json.dumps(program_texts(), separators=(",", ":")).replace("<", "\\u003c")
    parts.update({name: packed(path.read_bytes()) for name, path in EXAMPLES.items()})
    parts["policy"] = POLICY.format(script=digest(parts["script"]), style=digest(parts["style"]))
    if "</script" in parts["script"] or "</style" in parts["style"]:
        raise Refused("a script or the style ends the element that it is in")
    return re.sub(r"@(policy|style|module|wording|example|options|script)@", lambda found: parts[found[1]], (HERE / "page.html").read_text())


def make(bitcode, kit, work, out):
    """Makes the page of what rattle handed to clang."""
    out.parent.mkdir(parents=True, exist_ok=True)
    out.write_text(page_of(module_of(bitcode, kit, work)))


def main(words):
    if len(words) != 2:
        print(__doc__, file=sys.stderr)
        return 2
    module, out = map(pathlib.Path, words)
    out.write_text(page_of(module.read_bytes()))
    return 0


if __name__ == "__main__":
    try:
        sys.exit(main(sys.argv[1:]))
    except Refused as why:
        sys.exit(f"bpftap: no page was made: {why}")

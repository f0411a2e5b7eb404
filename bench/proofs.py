#!/usr/bin/env python3
"""Prints how long the proof of each function of a crate takes, and each part of it.

A check from nothing by one job writes a file for each module when it ends with it, so the time between two of these files is what
the later one took. `Lts` is the borrow checker's part of a function, which grows with its exits, its locals and their types;
`Proof` is the search for its goals, `Answers` what proofs/ says of them. A machine that does something else takes up to five
times as long, so compare the figures of one run.

  bench/proofs.py NAME..    the slowest functions of these crates, which are checked once more, over what ./build keeps of their libraries
"""
import collections
import importlib.machinery
import importlib.util
import pathlib
import re
import subprocess
import sys
import tempfile

ROOT = pathlib.Path(__file__).resolve().parent.parent
# How many functions are printed of a crate, and how many parts of each.
MOST, PARTS = 25, 4
# A module: its crate's library, its function, and which part of that function's proof it is.
MODULE = re.compile(r"Rattle-\w+-(?:proofs|specs)\.(.+)\.([A-Z][\w-]*)")


def load_build():
    """`./build` as a module."""
    loader = importlib.machinery.SourceFileLoader("build", str(ROOT / "build"))
    module = importlib.util.module_from_spec(importlib.util.spec_from_loader("build", loader))
    loader.exec_module(module)
    return module


def checked(build, name, folder):
    """Checks a crate from nothing, and keeps in this folder what is checked."""
    with build.locked() as lock:
        crate, kit, below = build.above_built(name, lock)
    words = [*crate.words(kit, below), *(["--test"] if name.startswith("test_") else [])]
    done = subprocess.run(kit.rattle("check", *words, "--incremental", folder, "--jobs", "1"),
                          cwd=crate.folder, stdout=subprocess.PIPE, stderr=subprocess.STDOUT, text=True)
    if done.returncode:
        sys.exit(f"{name} is not proved:\n{done.stdout[-2000:]}")


def seconds(folder):
    """The seconds of each function, by the parts of its proof, from the times of the files that were kept."""
    files = sorted((path.stat().st_mtime_ns / 1e9, path.name) for path in folder.rglob("*.oantt"))
    took = collections.defaultdict(collections.Counter)
    for (before, _), (ended, name) in zip(files, files[1:]):
        module = name.removesuffix(".oantt").removesuffix(".decls")
        found = MODULE.fullmatch(module)
        function, part = (found[1], found[2]) if found else (module, "all")
        took[function][part] += ended - before
    return took


def show(name, took):
    whole = sum(parts.total() for parts in took.values())
    print(f"{name}: {whole:.0f} s, of which")
    for function, parts in sorted(took.items(), key=lambda it: -it[1].total())[:MOST]:
        dear = ", ".join(f"{part} {time:.1f}" for part, time in parts.most_common(PARTS) if time >= 0.1)
        print(f"{parts.total():7.1f}  {function}  {dear}")


def main(names):
    if not names or any(name.startswith("-") for name in names):
        print(__doc__, end="", file=sys.stdout if names in (["-h"], ["--help"]) else sys.stderr)
        return 0 if names in (["-h"], ["--help"]) else 2
    build = load_build()
    for name in names:
        with tempfile.TemporaryDirectory(prefix="proofs-") as folder:
            checked(build, name, folder)
            show(name, seconds(pathlib.Path(folder)))
    return 0


if __name__ == "__main__":
    sys.exit(main(sys.argv[1:]))

#!/usr/bin/env python3
"""Runs the built program as a shell would: what it prints, its exit status, and what becomes of its files.

  tests/program.py            all groups of cases; the program is unpacked or built first if it has to be
  tests/program.py cut run    only these groups
  tests/program.py --list     the groups and their cases, with what each one shows

  tests/program.py --released [GROUP..]    over each program of release/ in turn, the groups that are of the program alone;
                                           one for another processor by qemu, if that is there, and fewer groups

  BPFTAP=bpftap tests/program.py    tests another program in place of the repository's own: a path, or a word of the PATH

The last line is `N passed, M failed`; the status is 1 if something failed. A check that needs a missing tool is not tried, and a
line says so. Each case runs in a folder of its own, and as many side by side as there are processors, 4 at most.
"""
import argparse
import concurrent.futures
import os
import pathlib
import platform
import re
import shutil
import subprocess
import sys
import tempfile
import traceback

from cases import GROUPS, OF_PROGRAM
from cases.common import CASES, ROOT, Scene


def words():
    """What the command line asks for."""
    parser = argparse.ArgumentParser(description=__doc__, formatter_class=argparse.RawDescriptionHelpFormatter)
    parser.add_argument("groups", nargs="*", metavar="GROUP", help=" ".join(GROUPS))
    parser.add_argument("--list", action="store_true", help="list the groups and their cases, and run none")
    parser.add_argument("--released", action="store_true", help="run them over each released program in turn")
    asked = parser.parse_args()
    for name in asked.groups:
        if name not in GROUPS:
            parser.error(f"no group {name}: there are {' '.join(GROUPS)}")
    return asked


def list_cases(groups):
    """Prints the first line of each group's page, and of each of its cases."""
    for name in groups:
        print(f"{name}: {GROUPS[name].__doc__.splitlines()[0]}")
        for one in CASES[name]:
            print(f"  {one.__name__}: {one.__doc__.splitlines()[0]}")


# How many cases run side by side.
LANES = min(4, len(os.sched_getaffinity(0)))


def run_case(name, number, folder):
    """Runs a case of a group in a folder of its own. Returns how many checks passed, a line for each failure (a case that breaks off is
    one), and why something was not tried."""
    folder.mkdir(parents=True)
    scene = Scene(folder)
    try:
        CASES[name][number](scene)
    except Exception:
        scene.failures.append(traceback.format_exc().rstrip())
    return scene.passed, scene.failures, scene.untried


def run_groups(groups):
    """Runs groups, each case in a temporary folder, and prints what failed or was not tried. Returns how many checks passed and failed."""
    passed = failed = 0
    with tempfile.TemporaryDirectory() as top, concurrent.futures.ProcessPoolExecutor(LANES) as pool:
        started = [
            (name, one.__name__, pool.submit(run_case, name, number, pathlib.Path(top) / name / one.__name__))
            for name in groups for number, one in enumerate(CASES[name])]
        for name, case, done in started:
            good, failures, untried = done.result()
            for line in [*failures, *(f"not tried: {why}" for why in dict.fromkeys(untried))]:
                print(f"{name}, {case}: {line}")
            passed += good
            failed += len(failures)
    return passed, failed


def run_with_own_program():
    """Runs this again with the repository's own program, called without the launcher, which looks at all sources."""
    done = subprocess.run(["sh", ROOT / "release" / "lib.sh", "program_path"], stdout=subprocess.PIPE, text=True)
    if done.returncode == 0:
        os.execve(sys.executable, [sys.executable, *sys.argv], {**os.environ, "BPFTAP": done.stdout.strip()})


def released_programs(top):
    """The name of each released program, and its path: one for another processor is called by a script that emulates that, or is `None`."""
    for archive in sorted((ROOT / "release").glob("*-linux*.tar.xz")):
        name = archive.name.removesuffix(".tar.xz")
        machine = re.search(r"-(\w+)-linux", name)[1]
        subprocess.run(["tar", "-xJf", archive, "--one-top-level=" + str(top / name)], check=True)
        program, emulator = top / name / "bin" / "bpftap", shutil.which(f"qemu-{machine}")
        if machine == platform.machine():
            yield name, program
        elif emulator is None:
            yield f"{name}: not tried: qemu-{machine} can't be found", None
        else:
            script = top / f"{name}.sh"
            script.write_text(f'#!/bin/sh\nexec {emulator} {program} "$@"\n')
            script.chmod(0o755)
            yield f"{name} by {emulator}", script


# What is tried under an emulator, where a call takes fifty times as long: no calls of the system that are limited or refused.
EMULATED = ["words", "check", "explain", "compare", "cut", "captures", "info", "split", "steps", "assembly"]


def run_over_released(asked):
    """Runs the groups that are asked for, or all that are of the program, over each released program. Returns how many checks passed and failed."""
    passed = failed = 0
    with tempfile.TemporaryDirectory() as top:
        for name, program in released_programs(pathlib.Path(top)):
            print(name, flush=True)
            if program is not None:
                groups = asked or (EMULATED if program.suffix == ".sh" else OF_PROGRAM)
                done = subprocess.run([sys.executable, __file__, *groups], stdout=subprocess.PIPE, text=True, env={**os.environ, "BPFTAP": str(program)})
                print(done.stdout, end="")
                counts = re.search(r"(\d+) passed, (\d+) failed\n\Z", done.stdout)
                good, bad = map(int, counts.groups()) if counts else (0, 1)
                passed, failed = passed + good, failed + bad
    return passed, failed


def main():
    sys.stdout.reconfigure(errors="backslashreplace")
    # What cases make is their own, whatever the caller lets others write to.
    os.umask(0o022)
    asked = words()
    groups = [name for name in GROUPS if not asked.groups or name in asked.groups]
    if asked.list:
        list_cases(groups)
        return
    if asked.released:
        passed, failed = run_over_released(asked.groups)
        print(f"{passed} passed, {failed} failed")
        sys.exit(1 if failed else 0)
    if {*groups} <= {"build", "release"}:
        # Their cases call stand-ins.
        os.environ.setdefault("BPFTAP", "true")
    if "BPFTAP" not in os.environ:
        run_with_own_program()
    passed, failed = run_groups(groups) if "BPFTAP" in os.environ else (0, 1)
    print(f"{passed} passed, {failed} failed")
    sys.exit(1 if failed else 0)


if __name__ == "__main__":
    main()

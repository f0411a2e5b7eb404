#!/usr/bin/env python3
"""Runs the tests of threads again and again under load: beside a busy loop on each processor, all of it under `nice`.

  tests/loaded.py [ROUNDS]          20 rounds of each test of test_listener, test_replay and test_thread
  tests/loaded.py --built [ROUNDS]  20 rounds of the tests that `./test` has built

Without --built they are proved and built first, over what `./build` keeps. The last line is `N passed, M failed`.
"""
import argparse
import concurrent.futures
import os
import pathlib
import signal
import subprocess
import sys

ROOT = pathlib.Path(__file__).resolve().parent.parent
CRATES = ["test_listener", "test_replay", "test_thread"]
LIMIT = 120


def program_of(name, is_built):
    """The tests of a crate, built."""
    if is_built:
        return ROOT / "crates" / name / "out" / f"{name}_tests"
    subprocess.run([ROOT / "build", "--test", name], stdout=subprocess.DEVNULL, check=True)
    return ROOT / "out" / "build" / f"{name}_tests"


def passes(words):
    """Whether one test ended well, and in time."""
    try:
        return subprocess.run(words, stdout=subprocess.DEVNULL, stderr=subprocess.DEVNULL, timeout=LIMIT).returncode == 0
    except subprocess.TimeoutExpired:
        return False


def main():
    parser = argparse.ArgumentParser(description=__doc__, formatter_class=argparse.RawDescriptionHelpFormatter)
    parser.add_argument("--built", action="store_true")
    parser.add_argument("rounds", nargs="?", type=int, default=20)
    given, tests = parser.parse_args(), []
    for program in [program_of(name, given.built) for name in CRATES]:
        listed = subprocess.run([program, "--list"], stdout=subprocess.PIPE, text=True, check=True).stdout.split("\n")
        tests += [(str(program), line.removesuffix(": test")) for line in listed if line.endswith(": test")]
    # Tests and busy loops alike: a test that yields to all loops would take a hundred times as long, and show no more.
    os.nice(10)
    # The busy loops end with this script, even if a signal ends it.
    signal.signal(signal.SIGTERM, lambda *_: sys.exit(1))
    busy = [subprocess.Popen([sys.executable, "-c", "while True: pass"]) for _ in range(len(os.sched_getaffinity(0)))]
    try:
        with concurrent.futures.ThreadPoolExecutor(len(os.sched_getaffinity(0))) as threads:
            ended = list(threads.map(passes, tests * given.rounds))
    finally:
        for process in busy:
            process.kill()
    for test in sorted({test for test, is_passed in zip(tests * given.rounds, ended) if not is_passed}):
        print("failed:", *test[1:])
    print(f"{sum(ended)} passed, {len(ended) - sum(ended)} failed")
    return not all(ended)


if __name__ == "__main__":
    sys.exit(main())

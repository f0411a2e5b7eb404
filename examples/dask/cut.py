#!/usr/bin/env python3
"""Cuts one large capture on a Dask cluster, or each capture of a list. OUT is, byte for byte, what `bpftap cut OPTION.. IN OUT` writes.

  cut.py [--scheduler ADDRESS] [--program PATH] [--parts N] IN OUT [OPTION..]
  cut.py [--scheduler ADDRESS] [--program PATH] --trove CAPTURES FOLDER [OPTION..]

Without --scheduler it starts a worker for each processor of this machine. All workers see IN, and the folder of OUT. A task is a part of IN:
if its worker dies, another one cuts the part again, into a file of its own. The options are those of `bpftap cut`, as -s 0 -e arp.

With --trove a task is a capture: CAPTURES has their paths, a line each, and FOLDER gets a file of the same name for each.
"""
import argparse
import os
import pathlib
import shutil
import subprocess
import sys
import uuid

from distributed import Client, as_completed

PARTS_OF_A_WORKER = 4


def cut_part(program, options, path, folder, part):
    """Cuts a part, and returns the line that says what it came to."""
    to = f"{folder}/{part}.{uuid.uuid4().hex}.pcap"
    done = subprocess.run([program, "cut", "--bytes", part, *options, path, to], capture_output=True, text=True)
    if not done.stdout:
        raise RuntimeError(f"{part}: {done.stderr.strip()} (status {done.returncode})")
    return done.stdout


def order_of(line):
    """Lines are in the order of where their parts begin, the longest first."""
    first, end = map(int, line.split(" ", 1)[0].split("-"))
    return first, -end


def results_of(client, futures, what):
    """What each task returned. It shows how many are done. If one failed, the others are given up."""
    results = []
    try:
        for future in as_completed(futures):
            results.append(future.result())
            print(f"\r{len(results)} of {len(futures)} {what}", end="", file=sys.stderr, flush=True)
    finally:
        print(file=sys.stderr)
        client.cancel(futures)
    return results


def cut_all(client, ranges, words):
    """Cuts parts on the cluster, and returns their lines."""
    return results_of(client, [client.submit(cut_part, *words, part, retries=3, pure=False) for part in ranges], "parts")


def cut_and_join(client, words, ranges, to):
    """Cuts these parts, and again what was parted at a wrong place, and joins them. Returns the status of the program."""
    program, folder = words[0], pathlib.Path(words[3])
    lines, again = [], ranges
    while again:
        lines += cut_all(client, again, words)
        listed = folder / "lines.txt"
        listed.write_text("".join(sorted(lines, key=order_of)))
        joined = subprocess.run([program, "join", str(listed), to], stdout=subprocess.PIPE, text=True)
        again = joined.stdout.split() if joined.returncode == 4 else []
    return joined.returncode


def cut_capture(client, program, path, to, count, options):
    """Cuts a capture in parts, and joins them. Returns the status of the program. The cuts are in a folder beside OUT, which is removed in the end."""
    path, to = os.path.abspath(path), os.path.abspath(to)
    parted = subprocess.run([program, "parts", str(count), path], stdout=subprocess.PIPE, text=True)
    if parted.returncode:
        return parted.returncode
    folder = pathlib.Path(f"{to}.parts.{uuid.uuid4().hex}")
    folder.mkdir()
    try:
        return cut_and_join(client, (program, options, path, str(folder)), parted.stdout.split(), to)
    except RuntimeError as error:
        print(error, file=sys.stderr)
        return 3
    finally:
        shutil.rmtree(folder, ignore_errors=True)


def cut_whole(program, options, path, to):
    """Cuts a capture, and returns the status and what was reported. The file gets its name if all of the capture was cut."""
    part = f"{to}.{uuid.uuid4().hex}.part"
    done = subprocess.run([program, "cut", *options, path, part], capture_output=True, text=True)
    if done.returncode == 0:
        os.replace(part, to)
    else:
        pathlib.Path(part).unlink(missing_ok=True)
    return done.returncode, f"{path}: {done.stderr.strip()}"


def cut_trove(client, program, listed, folder, options):
    """Cuts each capture of a list on the cluster. Returns the greatest status, and prints what was reported of those that failed."""
    captures = [os.path.realpath(line) for line in pathlib.Path(listed).read_text().splitlines()]
    to = [f"{os.path.realpath(folder)}/{os.path.basename(path)}" for path in captures]
    if len({*captures, *to}) < 2 * len(captures):
        print(f"{listed}: two captures have one name, or {folder} has one of them", file=sys.stderr)
        return 1
    os.makedirs(folder, exist_ok=True)
    futures = [client.submit(cut_whole, program, options, *pair, retries=3, pure=False) for pair in zip(captures, to)]
    ended = results_of(client, futures, "captures")
    for status, report in sorted(ended):
        if status:
            print(report, file=sys.stderr)
    return max((status for status, _ in ended), default=0)


def main(words):
    parser = argparse.ArgumentParser(description=__doc__, formatter_class=argparse.RawDescriptionHelpFormatter)
    parser.add_argument("--scheduler", help="as tcp://host:8786")
    parser.add_argument("--parts", type=int, help="how many parts; by default four for each worker")
    parser.add_argument("--program", default="bpftap")
    parser.add_argument("--trove", action="store_true", help="IN is a list of captures, and OUT a folder")
    parser.add_argument("IN")
    parser.add_argument("OUT")
    asked, options = parser.parse_known_args(words)
    with Client(asked.scheduler) if asked.scheduler else Client(threads_per_worker=1) as client:
        options = options or ["-s", "0"]
        if asked.trove:
            return cut_trove(client, asked.program, asked.IN, asked.OUT, options)
        count = asked.parts or PARTS_OF_A_WORKER * len(client.scheduler_info()["workers"])
        return cut_capture(client, asked.program, asked.IN, asked.OUT, count, options)


if __name__ == "__main__":
    sys.exit(main(sys.argv[1:]))

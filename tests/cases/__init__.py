"""The cases of `tests/program.py`. Each of these modules is a group, and they run in this order."""
from . import (
    memory, hints, words, check, language, readings, compiled, machine, image, graph, assembly, explain, counted, compare, sameness, cut, jsonlines, countlines, captures, info, watched,
    frames, split, parts, live, steps, steplines, stepping, replays, picture, run, running, streams, tcpdump, examples, manual, completions, release, install, build, targets,
    debian, scale, faults, pages, sources, library, linking, bindings, machines, page)

# Those that take longest begin first.
MODULES = [
    memory, hints, replays, words, check, language, readings, compiled, machine, image, graph, assembly, explain, counted, compare, sameness, cut, jsonlines, countlines, captures, info, watched,
    frames, split, parts, live, steps, steplines, stepping, picture, run, running, streams, tcpdump, examples, manual, completions, release, install, build, targets, debian, scale,
    faults, pages, sources, library, linking, bindings, machines, page]
# These are of other things than the program that is tested: they call no other program than their own, or the library.
OTHERS = [release, install, build, targets, debian, scale, pages, sources, library, linking, bindings, machines, page]
GROUPS = {module.__name__.rpartition(".")[2]: module for module in MODULES}
OF_PROGRAM = [name for name in GROUPS if GROUPS[name] not in OTHERS]

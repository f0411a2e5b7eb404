"""`./build`: what is proved in which order, what is kept, and what is printed. A stand-in takes the toolchain's place."""
import os
import pathlib
import shutil
import signal
import subprocess
import time

from .common import LIMIT, ROOT, Seen, as_bytes, case

# Which crate uses which. `side` is no part of the program.
CRATES = "# A comment.\nlow: thiserror\nmiddle: low\nother: low\nbpftap: middle other\nside: low\n"

# A toolchain: `rt` prints its version and where it is; `rattle` notes each call, and fails or waits if a file says so.
RT = """#!/bin/sh
case $1 in version) cat "$KIT/version" ;; doc) printf '%s\\n' "$KIT/START-HERE.md" ;; esac
"""
RATTLE = """#!/bin/sh
for last; do :; done
echo "$1 $3" >>"$KIT/calls"
echo "$*" >>"$KIT/words"
does() { [ -e "$KIT/$1" ] && [ "$(cat "$KIT/$1")" = "$2" ]; }
does fails "$3" && { echo 'src/lib.rt:1:1: error: not proved: too little'; exit 1; }
does dies "$3" && kill -9 $$
does takes "$3" && sleep 1
while does holds "$3"; do sleep 0.05; done
does waits "$3" && { sleep 60 & echo $! >"$KIT/waiting"; wait; }
does edited "$3" && echo '// edited' >>src/lib.rt
[ "$1" = check ] && { echo "checked with $*"; exit 0; }
does untested "$3" && { : >"$last"; exit 0; }
case $last in *.rlib) mkdir "$last" ;; *) echo made >"$last" ;; esac
"""
# The tests of a crate that is built with tests: how they end is its last word.
TEST = """#!/bin/sh
echo "tests of ${3##*/}"
[ "${3##*/}" = middle_tests ]
"""
LINK = """#!/bin/sh
cat "$KIT/program" >"$6"
chmod +x "$6"
"""
# Memory for more crates than a machine has processors.
MUCH = "MemAvailable:   4000000000 kB\n"
# What is printed if the release is missing, or was made from other sources.
STALE = "the release is not of these sources: make it by ./build --release, and commit it"
# The program that they make.
MADE = """#!/bin/sh
case $* in --version | -V) echo 'bpftap 1.2.3, a stand-in'; exit ;; esac
echo "here: $PWD, words: $*"
exit 7
"""


class Source:
    """A source folder of its own with the launcher, and a kit beside it."""

    def __init__(self, scene):
        self.scene, self.folder, self.kit = scene, scene.folder / "source", scene.folder / "kit"
        for line in CRATES.splitlines()[1:]:
            name = line.partition(":")[0]
            self.src(name).mkdir(parents=True)
            (self.src(name) / ("main.rt" if name == "bpftap" else "lib.rt")).write_text(f"// {name}\n")
        (self.folder / "crates.txt").write_text(CRATES)
        (self.folder / "release").mkdir()
        for name in ["build", "bpftap", "release/lib.sh"]:
            shutil.copy(ROOT / name, self.folder / name)
        (self.folder / "release" / "files").write_text("755 crates/bpftap/out/bpftap bin/bpftap\n")
        (self.kit / "bin").mkdir(parents=True)
        (self.kit / "version").write_text("kit 1\n")
        (self.kit / "program").write_text(MADE)
        for name, text in [("rt", RT), ("rattle", RATTLE), ("rattle-link", LINK), ("rattle-test", TEST)]:
            (self.kit / "bin" / name).write_text(text)
            (self.kit / "bin" / name).chmod(0o755)

    def environment(self):
        return {**os.environ, "PATH": f"{self.kit / 'bin'}:{os.environ['PATH']}", "KIT": str(self.kit)}

    def run(self, *words, program="build", **how):
        how = {"cwd": self.scene.folder, "env": self.environment(), "stdin": subprocess.DEVNULL, "timeout": LIMIT, **how}
        done = subprocess.run([self.folder / program, *words], capture_output=True, **how)
        return Seen(done.stdout, done.stderr, done.returncode)

    def lib(self, *words):
        """What a function of release/lib.sh prints, and its status."""
        done = subprocess.run(["sh", self.folder / "release" / "lib.sh", *words], env=self.environment(), capture_output=True, timeout=LIMIT)
        return Seen(done.stdout, done.stderr, done.returncode)

    def release(self, program=MADE):
        """Makes a release of a program, as if it was built of these sources, and leaves nothing else."""
        shutil.rmtree(self.folder / "out", ignore_errors=True)
        built = self.folder / "out" / "built" / self.lib("sources_key").out.decode().strip() / "bin" / "bpftap"
        built.parent.mkdir(parents=True)
        built.write_bytes(as_bytes(program))
        built.chmod(0o755)
        seen = self.lib("pack")
        shutil.rmtree(self.folder / "out")
        return seen

    def noted(self, name="calls"):
        """What was noted since the last call: the crate of each call, or all its words."""
        file = self.kit / name
        lines = file.read_text().split("\n")[:-1] if file.exists() else []
        file.unlink(missing_ok=True)
        return lines

    def calls(self):
        """The crates that were built or checked since the last call."""
        return [call.removeprefix("build ") for call in self.noted()]

    def src(self, crate):
        return self.folder / "crates" / crate / "src"

    def machine(self, **files):
        """Has `build` read these files in place of those that the system has on its memory and on a container's group. What the system has
        free changes from one call to the next."""
        group = self.scene.folder / "group"
        group.mkdir(exist_ok=True)
        for path in group.iterdir():
            path.unlink()
        for name, text in files.items():
            (group / name.replace("_", ".")).write_text(text)
        script = (ROOT / "build").read_text().replace("/sys/fs/cgroup", str(group)).replace("/proc/meminfo", str(group / "meminfo"))
        (self.folder / "build").write_text(script)

    def edit(self, crate):
        """Changes a crate's source."""
        with open(next(self.src(crate).iterdir()), "a") as source:
            source.write("// more\n")


def on_one_processor():
    os.sched_setaffinity(0, {min(os.sched_getaffinity(0))})


@case
def crates_are_proved_once_and_the_lowest_first(scene):
    """Each crate is built after those that it uses, each is reported with its number, and no other one is built."""
    source = Source(scene)
    seen = source.run()
    calls = source.calls()
    scene.check("calls", sorted(calls), ["bpftap", "low", "middle", "other"])
    scene.check("first and last", (calls[0], calls[-1]), ("low", "bpftap"))
    lines = seen.err.decode().splitlines()
    scene.check("printed, and the status", (seen.out, seen.status), (b"", 0))
    scene.check("first", lines[0].startswith("bpftap: building: 4 to be proved, "), True)
    scene.check("last", lines[4], "bpftap: building: bpftap is proved, 4 of 4 (0 min so far)")
    scene.check("then", lines[5:], [STALE])


@case
def a_container_has_what_its_group_allows(scene):
    """One crate is proved at a time for each processor with 4 GB of memory, in a container by its control group's files."""
    source, machine = Source(scene), len(os.sched_getaffinity(0))
    whole = {"meminfo": MUCH, "memory_stat": "file 8000000000\nanon 900000000\n", "memory_max": "max\n", "cpu_max": "max 100000\n"}
    rows = [
        ({}, machine), ({"meminfo": "MemTotal: 64000000 kB\nMemAvailable:   1000000 kB\n"}, 1), ({"cpu_max": "max 100000\n"}, machine),
        ({"cpu_max": "100000 100000\n"}, 1), ({"cpu_max": "290000 100000\n"}, 2), ({"cpu_max": "1000 100000\n"}, 1),
        ({"memory_max": "8899999999\n"}, 1), ({"memory_max": "8900000000\n"}, 2),
    ]
    for files, lanes in rows:
        source.machine(**{**whole, **files})
        scene.check(f"lanes of {files}", source.run("--lanes"), Seen(f"{min(lanes, machine)}\n".encode(), b"", 0))
    scene.check("printed", f", {min(lanes, machine)} at a time" in source.run().err.decode(), True)
    source.machine(meminfo=MUCH)
    scene.check("without a group", source.run("--lanes").out.decode(), f"{machine}\n")


@case
def what_is_proved_is_kept(scene):
    """A second call proves nothing; after an edit a crate is proved again, only with those above it."""
    source = Source(scene)
    source.run()
    source.calls()
    scene.check("a second call", (source.run(), source.calls()), (Seen(b"", f"{STALE}\n".encode(), 0), []))
    (source.src("other") / "lib.rt").write_text("// another\n")
    source.run()
    scene.check("after an edit", source.calls(), ["other", "bpftap"])
    (source.folder / "crates" / "low" / "proofs").mkdir()
    (source.folder / "crates" / "low" / "proofs" / "Lib.antt").write_text("-- a proof\n")
    source.run("middle")
    scene.check("after a new proof, only what is named", source.calls(), ["low", "middle"])
    source.run()
    scene.check("and then the rest", sorted(source.calls()), ["bpftap", "other"])
    shutil.rmtree(source.folder / "out" / "build" / "other.rlib")
    source.run()
    scene.check("where a library is gone", source.calls(), ["other", "bpftap"])
    (source.kit / "version").write_text("kit 2\n")
    source.run()
    scene.check("by another toolchain", sorted(source.calls()), ["bpftap", "low", "middle", "other"])


@case
def a_crate_that_is_not_proved_is_reported(scene):
    """The build ends at it with its errors and the path of the log, and goes on there once it is fixed. The launcher's status is 125."""
    source = Source(scene)
    (source.kit / "fails").write_text("middle")
    error = b"bpftap: building: src/lib.rt:1:1: error: not proved: too little\n"
    place = b"bpftap: building: the build failed at middle: it is not proved; out/build/middle.log has all that was said\n"
    seen = source.run()
    scene.check("printed", (error + place in seen.err, seen.status), (True, 1))
    scene.check("calls", "bpftap" in source.calls(), False)
    seen = source.run(program="bpftap")
    scene.check("printed by the launcher, and its status", (place in seen.err, seen.out, seen.status), (True, b"", 125))
    scene.check("low is kept", "low" in source.calls(), False)
    (source.kit / "fails").unlink()
    scene.check("fixed", source.run().status, 0)
    scene.check("what was left", ("middle" in (calls := source.calls()), calls[-1], "low" in calls), (True, "bpftap", False))


@case
def a_program_that_is_not_linked_is_reported(scene):
    """The build ends with what the linker said."""
    source = Source(scene)
    (source.kit / "bin" / "rattle-link").write_text("#!/bin/sh\necho no space left >&2\nexit 1\n")
    seen = source.run()
    wanted = b"bpftap: building: no space left\nbpftap: building: the build failed at bpftap: it is not linked; out/build/bpftap.log has all that was said\n"
    scene.check("standard error, and the status", (seen.err.endswith(wanted), seen.status), (True, 1))


@case
def what_runs_beside_a_failure_is_kept(scene):
    """After a crate that is not proved no other is started, and one that runs beside it is proved to its end and kept. On one processor
    none runs beside it."""
    source = Source(scene)
    source.machine(meminfo=MUCH)
    beside = ["other"] if len(os.sched_getaffinity(0)) > 1 else []
    source.run("low")
    source.calls()
    (source.kit / "fails").write_text("middle")
    (source.kit / "takes").write_text("other")
    seen = source.run()
    scene.check("calls, and the status", (sorted(source.calls()), seen.status), (["middle", *beside], 1))
    scene.check("counted", b"other is proved, 1 of 3 (" in seen.err, bool(beside))
    (source.kit / "fails").unlink()
    source.run()
    scene.check("what was left", sorted(source.calls()), sorted({"bpftap", "middle", "other"} - {*beside}))


@case
def a_killed_check_is_named(scene):
    """If a check is killed, as when memory runs out, the build says what to do."""
    source = Source(scene)
    (source.kit / "dies").write_text("other")
    seen = source.run()
    scene.check("printed, and the status", (b"at other: it was killed, most likely since memory ran out: `taskset" in seen.err, seen.status), (True, 1))


@case
def an_edit_meanwhile_is_not_kept(scene):
    """A crate whose source changes while it is proved is named and not kept: the next call proves it."""
    source = Source(scene)
    (source.kit / "edited").write_text("middle")
    seen = source.run()
    scene.check("printed, and the status", (b"at middle: it was edited meanwhile" in seen.err, seen.status), (True, 1))
    (source.kit / "edited").unlink()
    source.calls()
    source.run()
    scene.check("the next call", ("middle" in (calls := source.calls()), calls[-1]), (True, "bpftap"))


@case
def the_longest_chain_goes_first(scene):
    """On one processor the longer of two crates is proved first. The last crate, with nothing beside it, gets all processors, four at most."""
    source = Source(scene)
    source.machine(meminfo=MUCH)
    (source.src("other") / "lib.rt").write_text("// other\n" * 50)
    source.run(preexec_fn=on_one_processor)
    scene.check("the longer one first", source.calls(), ["low", "other", "middle", "bpftap"])
    (source.src("bpftap") / "main.rt").write_text("// another\n")
    source.noted("words")
    lanes = min(4, len(os.sched_getaffinity(0)))
    source.run()
    scene.check("jobs", [words.partition(" --jobs ")[2].split()[0] for words in source.noted("words")], [str(lanes)])


@case
def a_change_of_what_a_crate_uses_is_seen(scene):
    """After an edit of crates.txt a crate that uses one more library is proved again, by the launcher too."""
    source = Source(scene)
    source.run()
    source.calls()
    (source.folder / "crates.txt").write_text(CRATES.replace("other: low", "other: low thiserror"))
    scene.check("status", source.run(program="bpftap").status, 7)
    scene.check("calls", source.calls(), ["other", "bpftap"])


@case
def a_long_proof_is_reported_each_minute(scene):
    """Here each third of a second, by a script that differs in that number."""
    source = Source(scene)
    script = (ROOT / "build").read_text()
    (source.folder / "build").write_text(script.replace("reported >= 60", "reported >= 0.3"))
    (source.kit / "takes").write_text("low")
    scene.check("printed", b"bpftap: building: still at low (0 min so far)\n" in source.run().err, True)


def ends(process):
    """Whether a process is gone, or goes before long."""
    for _ in range(100):
        if not pathlib.Path("/proc", process).exists():
            return True
        time.sleep(0.05)
    return False


def waits(source, program, ignored=None, crate="bpftap"):
    """A build on one processor that waits at a crate, in a session of its own, with a signal that is ignored as under nohup, and no
    other one, whatever these tests themselves run under."""
    def handle():
        on_one_processor()
        for number in (signal.SIGINT, signal.SIGTERM, signal.SIGHUP):
            signal.signal(number, signal.SIG_IGN if number == ignored else signal.SIG_DFL)

    (source.kit / "waits").write_text(crate)
    process = subprocess.Popen(
        [source.folder / program], env=source.environment(), stdin=subprocess.DEVNULL, stderr=subprocess.PIPE, start_new_session=True,
        preexec_fn=handle)
    waiting = source.kit / "waiting"
    for _ in range(1000):
        if waiting.exists() and waiting.read_text().endswith("\n"):
            break
        time.sleep(0.02)
    return process, waiting.read_text().strip()


def interrupted(scene, number, program, times):
    """A source whose build was interrupted by signals at its last crate, and what it printed. No check is left running."""
    source = Source(scene)
    process, check = waits(source, program)
    for _ in range(times):
        os.killpg(process.pid, number)
    lines = process.communicate(timeout=LIMIT)[1].splitlines()
    # A shell that is sent the signal too ends by it, once the build has ended.
    status = 128 - process.returncode if process.returncode < 0 else process.returncode
    scene.check(f"status of {program} after {number.name}", status, 128 + number)
    scene.check(f"printed after {number.name}", lines[-1].startswith(b"bpftap: building: interrupted; what is proved is kept"), True)
    scene.check(f"ended after {number.name}", ends(check), True)
    (source.kit / "waits").unlink()
    return source


@case
def an_interrupted_build_goes_on(scene):
    """After one or more signals the build says how to go on, and the next call begins with what was not proved."""
    for number, program, times in [(signal.SIGINT, "build", 1), (signal.SIGINT, "build", 5), (signal.SIGINT, "bpftap", 1), (signal.SIGTERM, "build", 1),
                                   (signal.SIGHUP, "build", 1)]:
        source = interrupted(scene, number, program, times)
        source.calls()
        scene.check(f"the next call after {number.name}", (source.run().status, source.calls()), (0, ["bpftap"]))
        shutil.rmtree(source.folder)
        shutil.rmtree(source.kit)


@case
def a_build_broken_off_keeps_nothing_above(scene):
    """If a library was gone and the build was interrupted after proving it, all that uses it is proved again."""
    source = Source(scene)
    source.run()
    shutil.rmtree(source.folder / "out" / "build" / "low.rlib")
    process, check = waits(source, "build", crate="middle")
    os.killpg(process.pid, signal.SIGTERM)
    process.communicate(timeout=LIMIT)
    (source.kit / "waits").unlink()
    source.calls()
    source.run()
    scene.check("the next call", sorted(source.calls()), ["bpftap", "middle", "other"])


@case
def a_check_that_outlives_its_build_keeps_others_out(scene):
    """If a build is killed, its check goes on, and the next build begins when that has ended."""
    source = Source(scene)
    process, check = waits(source, "build")
    process.kill()
    process.communicate(timeout=LIMIT)
    (source.kit / "waits").unlink()
    source.calls()
    second = subprocess.Popen([source.folder / "build"], env=source.environment(), stdin=subprocess.DEVNULL, stderr=subprocess.PIPE)
    scene.check("printed", second.stderr.readline(), b"bpftap: building: waiting for another build in this folder\n")
    scene.check("waits", (second.poll(), source.calls()), (None, []))
    os.kill(int(check), signal.SIGTERM)
    second.communicate(timeout=LIMIT)
    scene.check("and then", (second.returncode, source.calls()), (0, ["bpftap"]))


@case
def a_build_under_nohup_outlives_its_terminal(scene):
    """A signal that is ignored when the build begins does not end it."""
    source = Source(scene)
    process, check = waits(source, "build", ignored=signal.SIGHUP)
    os.killpg(process.pid, signal.SIGHUP)
    time.sleep(0.3)
    scene.check("goes on", process.poll(), None)
    os.kill(int(check), signal.SIGTERM)
    lines = process.communicate(timeout=LIMIT)[1].splitlines()
    last = b"bpftap: building: bpftap is proved, 4 of 4 (0 min so far)"
    scene.check("printed last, and the status", (lines[-2:], process.returncode), ([last, STALE.encode()], 0))


@case
def a_folder_that_keeps_nothing_is_reported(scene):
    """If no folder can be made for what is kept, a line says so."""
    source = Source(scene)
    (source.folder / "out").write_text("a file\n")
    scene.check("printed", source.run(), Seen(b"", f"bpftap: {source.folder}/out/build: Not a directory\n".encode(), 1))


@case
def two_builds_wait_for_each_other(scene):
    """A second build begins when the first one has ended, and then finds everything kept."""
    source = Source(scene)
    (source.kit / "holds").write_text("low")
    how = {"env": source.environment(), "stdin": subprocess.DEVNULL}
    first = subprocess.Popen([source.folder / "build"], stderr=subprocess.DEVNULL, **how)
    while not (source.kit / "calls").exists():
        time.sleep(0.02)
    second = subprocess.Popen([source.folder / "build"], stderr=subprocess.PIPE, text=True, **how)
    scene.check("printed first", second.stderr.readline(), "bpftap: building: waiting for another build in this folder\n")
    (source.kit / "holds").unlink()
    scene.check("printed then, and the status", (second.communicate(timeout=LIMIT)[1], second.returncode), (f"{STALE}\n", 0))
    scene.check("the first one", (first.wait(timeout=LIMIT), len(source.calls())), (0, 4))


@case
def one_crate_is_checked(scene):
    """`--check` builds the libraries that a crate uses, and checks it with the flags that are given."""
    source = Source(scene)
    seen = source.run("--check", "middle", "--only", "middle::f")
    scene.check("printed, and the status", (b"--progress --only middle::f --jobs" in seen.out, seen.status), (True, 0))
    scene.check("calls", source.calls(), ["low", "check middle"])
    scene.check("jobs that are given", source.run("--check", "middle", "--jobs", "3").out.count(b"--jobs"), 1)


@case
def tests_of_one_crate_are_run(scene):
    """`--test` builds the libraries that a crate uses, and then its tests, and ends as these do."""
    source = Source(scene)
    seen = source.run("--test", "middle")
    scene.check("passed", (seen.out, seen.status), (b"tests of middle_tests\n", 0))
    scene.check("calls", source.calls(), ["low", "middle"])
    seen = source.run("--test", "other")
    scene.check("failed", (seen.out, seen.status), (b"tests of other_tests\n", 1))
    (source.kit / "untested").write_text("side")
    seen = source.run("--test", "side")
    scene.check("none", (seen.out, seen.status), (b"side has no tests of its own\n", 0))


@case
def bad_usage_is_refused(scene):
    """A crate or an option that does not exist, and a PATH with no toolchain."""
    source = Source(scene)
    scene.check("no such crate", source.run("none"), Seen(b"", b"bpftap: crates.txt has no crate none\n", 1))
    for words in [("-x",), ("--check",), ("--test",), ("--test", "low", "middle"), ("low", "--check", "low"), ("--lanes", "low"), ("--release", "low")]:
        seen = source.run(*words)
        scene.check(f"words {words}", (seen.out, b"./build NAME.." in seen.err, seen.status), (b"", True, 2))
    seen = source.run("--help")
    scene.check("help", (b"./build NAME.." in seen.out, seen.err, seen.status), (True, b"", 0))
    seen = source.run(env={"PATH": "/usr/bin:/bin"})
    scene.check("no toolchain", seen, Seen(b"", b"bpftap: the toolchain's command 'rt' is not on the PATH\n", 1))
    (source.kit / "bin" / "rt").write_text("#!/bin/sh\nexit 3\n")
    scene.check("a broken toolchain", source.run(), Seen(b"", b"bpftap: the toolchain's command 'rt version' failed\n", 1))
    scene.check("calls", source.calls(), [])

"""`docs/SCALE.md`: its commands after a `$`, in order, if the programs that they call are there; `examples/slurm`; and `examples/dask`."""
import contextlib
import os
import pathlib
import socket
import subprocess
import tempfile
import time

from .common import LIMIT, PROGRAM, ROOT, VETH, case
from .pages import run_page

PAGE = ROOT / "docs" / "SCALE.md"


@case
def commands_print_what_they_say(scene):
    """A trove is made, cut by xargs and by parallel, and merged, as the page says, if its tools are there."""
    if scene.has("editcap", "mergecap", "parallel"):
        run_page(scene, PAGE)


# Cuts a capture on three workers, of which one is killed once a part is done. It prints the status.
KILLED = """
import os, sys, threading, time, pathlib
sys.path.insert(0, sys.argv[1])
import cut
from distributed import Client, LocalCluster
def kill_one(client, to):
    while not list(to.parent.glob(f"{to.name}.parts.*/*.pcap")):
        time.sleep(0.01)
    os.kill(next(iter(client.run(os.getpid).values())), 9)
if __name__ == "__main__":
    program, path, to = sys.argv[2:5]
    with LocalCluster(n_workers=3, threads_per_worker=1, dashboard_address=None) as cluster, Client(cluster) as client:
        threading.Thread(target=kill_one, args=(client, pathlib.Path(to).resolve()), daemon=True).start()
        print(cut.cut_capture(client, program, path, to, 40, sys.argv[5:]))
"""

# The Python that has Debian's packages.
PYTHON = "/usr/bin/python3"


@case
def dask_cuts_what_one_process_cuts(scene):
    """On three workers, one of which is killed in mid-run; a torn capture has its fault and its packets."""
    if subprocess.run([PYTHON, "-c", "import distributed"], capture_output=True).returncode:
        scene.leave("python3-distributed is not installed")
        return
    text = VETH.read_bytes()
    many = text[:24] + text[24:] * 60
    scene.put({"killed.py": KILLED, "whole.pcap": many, "torn.pcap": many[:-7]})
    for name, status in (("whole", 0), ("torn", 2)):
        words = [PYTHON, "killed.py", str(ROOT / "examples" / "dask"), PROGRAM, f"{name}.pcap", f"{name}-joined.pcap", "-s", "0", "-e", "udp"]
        done = subprocess.run(words, cwd=scene.folder, capture_output=True, text=True, timeout=LIMIT)
        scene.check(f"status of {name} on Dask", done.stdout.split()[-1:], [str(status)])
        scene.run(f"cut -s 0 -e udp {name}.pcap {name}-cut.pcap")
        scene.check(f"{name} on Dask", scene.read(f"{name}-joined.pcap"), scene.read(f"{name}-cut.pcap"))


# Cuts a capture on one worker. It prints the status.
SINGLE = """
import sys
sys.path.insert(0, sys.argv[1])
import cut
from distributed import Client, LocalCluster
if __name__ == "__main__":
    program, path, to = sys.argv[2:5]
    with LocalCluster(n_workers=1, threads_per_worker=1, dashboard_address=None) as cluster, Client(cluster) as client:
        print(cut.cut_capture(client, program, path, to, 2, sys.argv[5:]))
"""


# Runs a script on the workers of a cluster, which it is given the address of.
TROVE = """
import subprocess, sys
from distributed import LocalCluster
if __name__ == "__main__":
    with LocalCluster(n_workers=2, threads_per_worker=1, dashboard_address=None) as cluster:
        sys.exit(subprocess.run([sys.executable, sys.argv[1], "--scheduler", cluster.scheduler_address, *sys.argv[2:]]).returncode)
"""


@case
def dask_leaves_nothing_after_a_fault(scene):
    """If no part can be cut there is one line, and no folder of parts; so the next run, with a better filter, does it."""
    if subprocess.run([PYTHON, "-c", "import distributed"], capture_output=True).returncode:
        scene.leave("python3-distributed is not installed")
        return
    scene.put({"single.py": SINGLE, "in.pcap": VETH.read_bytes()})
    words = [PYTHON, "single.py", str(ROOT / "examples" / "dask"), PROGRAM, "in.pcap", "out.pcap", "-s", "0", "-e"]
    for expression, status in (("no filter", 3), ("udp", 0)):
        done = subprocess.run([*words, expression], cwd=scene.folder, capture_output=True, text=True, timeout=LIMIT)
        scene.check(f"status of {expression} on Dask", done.stdout.split()[-1:], [str(status)])
        scene.check(f"no traceback of {expression}", "Traceback" in done.stderr, False)
        scene.check(f"what is left of {expression}", [it.name for it in scene.folder.glob("out.pcap.parts*")], [])
    scene.run("cut -s 0 -e udp in.pcap whole.pcap")
    scene.check("Dask after a fault", scene.read("out.pcap"), scene.read("whole.pcap"))


@case
def dask_cuts_a_trove(scene):
    """Each capture of a list on workers by their address, as one process does; a torn one gets no file, and is named. No capture is overwritten."""
    if subprocess.run([PYTHON, "-c", "import distributed"], capture_output=True).returncode:
        scene.leave("python3-distributed is not installed")
        return
    text = VETH.read_bytes()
    scene.put({"one.pcap": text, "two.pcap": text[:24] + text[24:] * 3, "torn.pcap": text[:-7], "captures.txt": b"one.pcap\ntorn.pcap\ntwo.pcap\n", "trove.py": TROVE})
    for folder, status, report in (("out", 2, "torn.pcap: bpftap: TornRecord 252\n"), (".", 1, "captures.txt: two captures have one name, or . has one of them\n")):
        words = [PYTHON, "trove.py", str(ROOT / "examples" / "dask" / "cut.py"), "--program", PROGRAM, "--trove", "captures.txt", folder, "-s", "0", "-e", "udp"]
        done = subprocess.run(words, cwd=scene.folder, capture_output=True, text=True, timeout=LIMIT)
        scene.check(f"a trove on Dask into {folder}", (done.returncode, done.stderr.endswith(report)), (status, True))
    scene.check("a capture is kept", scene.read("one.pcap"), text)
    scene.check("files of a trove on Dask", sorted(it.name for it in (scene.folder / "out").iterdir()), ["one.pcap", "two.pcap"])
    for name in ("one", "two"):
        scene.run(f"cut -s 0 -e udp {name}.pcap {name}-cut.pcap")
        scene.check(f"{name} on Dask", scene.read(f"out/{name}.pcap"), scene.read(f"{name}-cut.pcap"))


# One node, whose daemons keep all that is theirs in a folder.
SLURM_CONF = """\
ClusterName=one
SlurmctldHost={host}
SlurmUser=root
AuthType=auth/munge
AuthInfo=socket={folder}/munge.socket
CredType=cred/munge
StateSaveLocation={folder}
SlurmdSpoolDir={folder}/spool
SlurmctldPidFile={folder}/slurmctld.pid
SlurmdPidFile={folder}/slurmd.pid
SlurmctldLogFile={folder}/slurmctld.log
SlurmdLogFile={folder}/slurmd.log
ProctrackType=proctrack/pgid
TaskPlugin=task/none
SelectType=select/cons_tres
SelectTypeParameters=CR_Core
SlurmctldPort={first}
SlurmdPort={second}
MpiDefault=none
NodeName={host} CPUs=2 RealMemory=512 State=UNKNOWN
PartitionName=all Nodes={host} Default=YES MaxTime=INFINITE State=UP
"""
SLURM = "munged", "slurmctld", "slurmd", "sbatch", "sinfo"


def free_ports(count):
    """Ports that nothing listens on."""
    with contextlib.ExitStack() as held:
        taken = [held.enter_context(socket.create_server(("127.0.0.1", 0))) for _ in range(count)]
        return [it.getsockname()[1] for it in taken]


@contextlib.contextmanager
def daemons_of(folder, conf):
    """Slurm's daemons, which are ended and waited for."""
    key = folder / "munge.key"
    begun = [
        ["munged", "--foreground", "--force", f"--key-file={key}", f"--socket={folder}/munge.socket", f"--pid-file={folder}/munged.pid",
         f"--log-file={folder}/munged.log", f"--seed-file={folder}/munge.seed"],
        ["slurmctld", "-D", "-f", conf], ["slurmd", "-D", "-f", conf]]
    with contextlib.ExitStack() as running:
        for words in begun:
            daemon = subprocess.Popen(words, stdout=subprocess.DEVNULL, stderr=subprocess.DEVNULL)
            running.callback(daemon.wait)
            running.callback(daemon.terminate)
            time.sleep(1)
        yield


def is_idle(environment):
    """Whether the node takes jobs within half a minute."""
    for _ in range(30):
        seen = subprocess.run(["sinfo", "--noheader", "--format=%T"], env=environment, capture_output=True, text=True)
        if seen.stdout.strip() == "idle":
            return True
        time.sleep(1)
    return False


@contextlib.contextmanager
def slurm():
    """A node with Slurm: gives the environment that its commands take, or None if no node comes up, with other ports each time."""
    for _ in range(3):
        with tempfile.TemporaryDirectory(prefix="slurm-") as name:
            folder, (first, second) = pathlib.Path(name), free_ports(2)
            conf, key = folder / "slurm.conf", folder / "munge.key"
            conf.write_text(SLURM_CONF.format(folder=folder, host=socket.gethostname(), first=first, second=second))
            key.write_bytes(os.urandom(1024))
            key.chmod(0o600)
            (folder / "spool").mkdir()
            environment = {**os.environ, "SLURM_CONF": str(conf), "PATH": f"{pathlib.Path(PROGRAM).parent}:{os.environ['PATH']}"}
            with daemons_of(folder, conf):
                if is_idle(environment):
                    yield environment
                    return
    yield None


@case
def slurm_cuts_what_one_process_cuts(scene):
    """The scripts of `examples/slurm` on one node: a trove, and one large capture in parts, are what one process cuts."""
    if not scene.has(*SLURM):
        return
    if os.getuid():
        scene.leave("Slurm's daemons are root's")
        return
    text = VETH.read_bytes()
    trove, parts = ((ROOT / "examples" / "slurm" / name).read_text() for name in ("cut.sbatch", "part.sbatch"))
    for folder in ("captures", "out"):
        (scene.folder / folder).mkdir()
    scene.put({"cut.sbatch": trove, "part.sbatch": parts, "captures/one.pcap": text, "captures/two.pcap": text[:24] + text[24:] * 3, "big.pcap": text[:24] + text[24:] * 60})
    scene.put({"captures.txt": b"captures/one.pcap\ncaptures/two.pcap\n", "ranges.txt": scene.run("parts 4 big.pcap").out})
    with slurm() as environment:
        if environment is None:
            scene.leave("no node of Slurm comes up here")
            return
        for script in ("--array=1-2 cut.sbatch", "--array=1-4 part.sbatch"):
            done = subprocess.run(["sbatch", "--wait", *script.split()], cwd=scene.folder, env=environment, capture_output=True, text=True, timeout=LIMIT)
            scene.check(f"{script} ends", (done.returncode, done.stderr), (0, ""))
    for name in ("one", "two"):
        scene.run(f"cut -s 0 -e 'udp port 5353' captures/{name}.pcap {name}-cut.pcap")
        scene.check(f"{name} by Slurm", scene.read(f"out/{name}.pcap"), scene.read(f"{name}-cut.pcap"))
    subprocess.run("sort -t- -k1,1n -k2,2nr line-*.txt > lines.txt", shell=True, cwd=scene.folder, check=True)
    scene.check("join", scene.run("join lines.txt joined.pcap").status, 0)
    scene.run("cut -s 0 -e 'udp port 5353' big.pcap whole.pcap")
    scene.check("parts by Slurm", scene.read("joined.pcap"), scene.read("whole.pcap"))

"""power_cut [TIMES]: kills `bed mesh` at random moments, 1,000 times or TIMES, runs that were done before not counted, while it writes
one of two meshes over the other, of grids in memory, and as often of grids that are taken layer by layer, and looks each time that the
file is one of the two, whole. What a killed run left beside it is a beginning of one, and `bed info` refuses it with 21 unless it is
the whole. BED names the command.

A kill is not a power cut: what the system was told to write it still writes. That the bytes are synced before the file gets
its name, and the folder after it, is read from the calls that the run makes, where strace is there."""
import glob
import os
import random
import shutil
import signal
import subprocess
import sys
import time

from common import *

TIMES = int(sys.argv[1]) if len(sys.argv) > 1 else 1000
SIDE = 24
enter_folder()
random.seed(5)


def grid(name):
    """random signs, so that the mesh is large beside the grid"""
    return put(name, npy(random.randbytes(SIDE ** 3), (SIDE,) * 3, "|i1"))


def run(name, more):
    return subprocess.Popen([BED, "mesh", name, "-o", "bed.mesh", *more], stdout=subprocess.DEVNULL, stderr=subprocess.DEVNULL)


def meshed(name, more):
    start = time.monotonic()
    expect("meshed", run(name, more).wait() == 0)
    return got("bed.mesh"), time.monotonic() - start


def beginnings(wholes, asked):
    """what killed runs left; some are shown to the command"""
    left = glob.glob("*.part")
    for part in left:
        content = got(part)
        expect("a beginning", any(whole.startswith(content) for whole in wholes))
        if asked < 100 and content not in wholes:
            status, _, errors = bed("info", part)
            expect("it is refused", status == 1 and "refused 21" in errors)
            asked += 1
        os.remove(part)
    return len(left), asked


def kills(grids, *more):
    wholes, times = zip(*[meshed(name, more) for name in grids for _ in range(5)])
    wholes, longest = set(wholes), sorted(times)[len(times) // 2] * 1.2
    expect("two meshes", len(wholes) == 2)
    runs = killed = writing = changed = asked = 0
    before = got("bed.mesh")
    while killed < TIMES:
        started = run(grids[runs % 2], more)
        runs += 1
        time.sleep(random.uniform(0, longest))
        started.send_signal(signal.SIGKILL)
        killed += started.wait() == -signal.SIGKILL
        now = got("bed.mesh")
        expect("the old one or the whole new one", now in wholes)
        changed += now != before
        before = now
        left, asked = beginnings(wholes, asked)
        writing += left
    print(f"{' '.join(more) or 'in memory'}: {runs} runs, {killed} of them killed, {writing} while writing; {changed} times the new mesh was there; files of "
          f"{len(before)} bytes; {asked} beginnings refused")
    expect("some were killed while writing", writing > 0 or TIMES < 100)
    return wholes


def synced(*more):
    if not shutil.which("strace"):
        print("strace is not there: the order of the calls is not looked at")
        return
    subprocess.run(["strace", "-f", "-y", "-o", "calls", "-e", "trace=write,fsync,rename,renameat,renameat2", BED, "mesh", "one.npy", "-o", "bed.mesh", *more],
                   stdout=subprocess.DEVNULL, check=True)
    calls = [line.split(None, 1)[1] for line in open("calls") if ".part" in line or "fsync" in line]
    kinds = [call.split("(")[0].rstrip("at2") for call in calls]
    order = [kind for place, kind in enumerate(kinds) if place == 0 or kinds[place - 1] != kind]
    expect(f"written, synced, renamed, the folder synced: {order}", order == ["write", "fsync", "rename", "fsync"])
    print("the calls: written, synced, renamed, the folder synced")


GRIDS = grid("one.npy"), grid("two.npy")
LAYERS = "--memory", "1"
expect("the same meshes", kills(GRIDS) == kills(GRIDS, *LAYERS))
synced()
synced(*LAYERS)
finish("power cut: the old mesh or the whole new one, every time")

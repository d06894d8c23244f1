"""hostile [RUNS]: runs of the command with random words, over files of which many are damaged. Whatever the words are, a run ends by itself with one of the command's own
statuses; a failure says why on one line and changes no file; nothing is left half written. BED names the command."""
import os
import random
import struct
import subprocess
import sys

from common import *

RUNS = int(sys.argv[1]) if len(sys.argv) > 1 else 3000
enter_folder()
random.seed(29)
SIDE = 7
BALL = ball_grid(SIDE, 3.0, 2)


def made():
    """the files, as they are put back before each run that changed one"""
    grid = npy(floats(BALL), (SIDE,) * 3)
    return {
        "ball.npy": grid, "i8.npy": npy(bytes(one & 255 for one in BALL), (SIDE,) * 3, "|i1"), "raw": floats(BALL), "empty": b"", "cut.npy": grid[:-5],
        "huge.npy": npy(b"", (2 ** 40, 2 ** 40, 2)), "wide.npy": npy(b"", (16777217, 8, 8)), "shape.npy": npy(b"", (1, 1, 1), shape="(7, 7, 7, 7, -7)"),
        "nan.npy": npy(floats([float("nan")] * SIDE ** 3), (SIDE,) * 3), "flat.npy": npy(floats([-1.0] * 49), (7, 7, 1)),
        "all.npy": npy(floats([-1.0] * SIDE ** 3), (SIDE,) * 3), "a.plan": b"0 0 0 6 6 6 -\n0 0 0 4 6 6 -\n3 0 0 6 6 6 -\n",
        "no.plan": b"0 0 0 6 6 6 -\n0 0 0 4 6 6 -\n", "bad.plan": b"0 0 0 6 6\n", "box.fixtures": struct.pack("<I6fI", 1, 1, 1, 1, 3, 3, 3, 0),
        "box.text": b"box 1 1 1 3 3 3", "bad.text": b"union { box 1 2", "deep.text": b"union { " * 5000, "noise": random.randbytes(200),
        "mesh": struct.pack("<8I", 3, 0, 0, 0, 0, 0, 0, 3),
    }


FILES = made()
NAMES = [*FILES, "none", "none/x", ".", "/dev/null", "/proc/self/mem", "", "-", "--", "out.mesh", "out.001.mesh", "out.manifest", "./ball.npy", "\udcff.npy", "a\nb"]
NUMBERS = ["0", "1", "2", "6", "7", "-1", "3.5", "1e9", "nan", "inf", "1e400", "4294967295", "4294967296", "99999999999999999999", "0x10", "", " ", "1K", "4G", "0.05", "1e-320",
           "18446744073709551616K", "9" * 400]
OPTIONS = ["-o", "--output", "--plan", "--fixtures", "--step", "--origin", "--levels", "--json", "--memory", "--dims", "--type", "--box", "--max-plane", "--make", "--ply",
           "--closed", "--open", "--help", "--version", "--deep", "-x", "--memory=", "--step=0.1"]
COMMANDS = ["survey", "mesh", "info", "volume", "ply", "plan", "cut", "fixtures", "", "dig", "help"]
USUAL = {
    "survey": ["ball.npy", "-o", "out.mesh"], "mesh": ["ball.npy", "-o", "out.mesh"], "info": ["mesh"], "volume": ["mesh"], "ply": ["mesh", "out.ply"],
    "plan": ["a.plan", "ball.npy"], "cut": ["box.fixtures", "ball.npy", "-o", "out.npy"], "fixtures": ["box.text", "-o", "out.fixtures"],
}


def word():
    kind = random.random()
    if kind < 0.35:
        return random.choice(NAMES)
    if kind < 0.6:
        return random.choice(OPTIONS)
    if kind < 0.75:
        return random.choice(NUMBERS)
    if kind < 0.9:
        return ",".join(random.choice(NUMBERS) for _ in range(random.choice((1, 2, 3, 6))))
    return random.choice(("float32", "int8", "int16", "xyz", "xx", "-", "7,7,7", "0,0,0,6,6,6"))


def words():
    command = random.choice(COMMANDS)
    usual = list(USUAL.get(command, []))
    for _ in range(random.choice((0, 1, 1, 2, 3, 4))):
        if usual and random.random() < 0.4:
            usual[random.randrange(len(usual))] = word()
        elif random.random() < 0.5:
            usual[random.randrange(len(usual) + 1):0] = [word()]
        else:
            usual += [random.choice(OPTIONS), word()]
    return [one for one in (command, *usual) if "\0" not in one]


def standing():
    return {name: got(name) for name in sorted(os.listdir(b".")) if os.path.isfile(name)}


def clean(before):
    for name in os.listdir(b"."):
        if name not in before:
            os.remove(name)
    for name, content in FILES.items():
        put(name, content)


clean({})
before = standing()
statuses = {}
for _ in range(RUNS):
    asked = words()
    done = subprocess.run([os.fsencode(BED), *(one.encode(errors="surrogateescape") for one in asked)], capture_output=True, stdin=subprocess.DEVNULL, timeout=60)
    status, errors = done.returncode, done.stderr.decode(errors="replace")
    statuses[status] = statuses.get(status, 0) + 1
    after = standing()
    expect(f"{asked} ends with {status}: {errors[-300:]}", status in (0, 1, 2, 3, 4))
    expect(f"{asked}: no part is left", not any(name.endswith(b".part") for name in after))
    if status in (1, 2) and asked[0] not in ("info",):
        expect(f"{asked}: {errors[:300]!r}", errors.startswith("bed: ") and errors.endswith("\n") and done.stdout == b"")
        expect(f"{asked} fails and changes a file", after == before)
    else:
        expect(f"{asked}: says {errors[:200]!r} and ends with {status}", errors == "" or asked[0] == "info")
    named = {os.path.normpath(one) for one in asked}
    for name, content in before.items():
        expect(f"{asked} changes {name}, which is there", after.get(name) == content or status in (0, 3, 4) and name.decode(errors="replace") in named)
    if after != before:
        clean(before)
expect(f"every status but 4: {statuses}", {0, 1, 2, 3} <= set(statuses))
finish(f"hostile words: {RUNS} runs, by their status {dict(sorted(statuses.items()))}")

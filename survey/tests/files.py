"""files FOLDER: that no file is lost, stale or mixed: names that are read and written, however they are spelled; the manifest of a survey in
blocks and what it does to files of an older one; signals; how much memory a run has. FOLDER is that of scripts/make-tank; BED names
the command."""
import glob
import hashlib
import os
import random
import re
import shutil
import signal
import subprocess
import sys
import time

from common import *

TANK = os.path.abspath(sys.argv[1])
enter_folder()
random.seed(17)
SIDE = 12
BALL = npy(floats(ball_grid(SIDE, 5.5, 4)), (SIDE,) * 3)
HALVES = b"0 0 0 11 11 11 -\n0 0 0 6 11 11 -\n5 0 0 11 11 11 -\n"
THIRDS = b"0 0 0 11 11 11 -\n0 0 0 4 11 11 -\n3 0 0 8 11 11 -\n7 0 0 11 11 11 -\n"


def all_files():
    return {name: got(name) for name in sorted(glob.glob("**", recursive=True)) if os.path.isfile(name)}


def wrong(*words, says):
    """wrong use: every file stays as it is"""
    before = all_files()
    status, output, errors = bed(*words)
    expect(f"{words} is wrong: {status} {errors}", (status, output) == (2, "") and says in errors and errors.count("\n") == 1)
    expect(f"{words} changes no file", all_files() == before)


def clear():
    for name in os.listdir("."):
        shutil.rmtree(name) if os.path.isdir(name) and not os.path.islink(name) else os.remove(name)


def names():
    """one file under two names"""
    put("ball.npy", BALL)
    put("tank.001.npy", BALL)
    put("a.plan", HALVES)
    put("box.fixtures", struct.pack("<I6fI", 1, 3, 3, 3, 8, 8, 8, 0))
    os.mkdir("folder")
    os.symlink("folder", "link")
    os.symlink("../ball.npy", "folder/ball")
    os.link("ball.npy", "hard.npy")
    # the grid, the plan and the fixtures are among the names that would be written
    wrong("survey", "tank.001.npy", "--plan", "a.plan", "-o", "tank.npy", says="tank.001.npy would be written over")
    os.link("a.plan", "b.002.mesh")
    wrong("survey", "ball.npy", "--plan", "a.plan", "-o", "b.mesh", says="a.plan would be written over")
    os.remove("b.002.mesh")
    os.symlink("box.fixtures", "b.001.mesh")
    wrong("survey", "ball.npy", "--plan", "a.plan", "--fixtures", "box.fixtures", "-o", "b.mesh", says="box.fixtures would be written over")
    os.remove("b.001.mesh")
    os.link("a.plan", "b.manifest")
    wrong("survey", "ball.npy", "--plan", "b.manifest", "-o", "b.mesh", says="written over")
    os.remove("b.manifest")
    for output in ("ball.npy", "./ball.npy", "folder/../ball.npy", "hard.npy", "folder/ball", os.path.abspath("ball.npy"), "link/ball"):
        wrong("mesh", "ball.npy", "-o", output, says="written over")
        wrong("mesh", "ball.npy", "-o", "new.mesh", "--ply", output, says="written over")
        wrong("survey", "ball.npy", "-o", output, says="written over")
        wrong("cut", "box.fixtures", "ball.npy", "-o", output, says="written over")
    wrong("cut", "box.fixtures", "ball.npy", "-o", "./box.fixtures", says="written over")
    wrong("plan", "--make", "2,1,1", "ball.npy", "-o", "hard.npy", says="written over")
    put("a.text", b"box 1 2 3 4 5 6")
    wrong("fixtures", "a.text", "-o", "folder/../a.text", says="written over")
    # neither is there yet
    for one, other in (("o.mesh", "./o.mesh"), ("o.mesh", "folder/../o.mesh"), ("folder/o", "link/o"), ("o.mesh", os.path.abspath("o.mesh"))):
        wrong("mesh", "ball.npy", "-o", one, "--ply", other, says="one file")
    put("o.mesh", b"")
    os.link("o.mesh", "o.ply")
    wrong("mesh", "ball.npy", "-o", "o.mesh", "--ply", "o.ply", says="one file")
    bed("mesh", "ball.npy", "-o", "good.mesh")
    wrong("ply", "good.mesh", "./good.mesh", says="written over")
    clear()


def digest(content):
    return hashlib.sha256(content).hexdigest()


def listed(name):
    """the lines of a manifest by their first word, and the files that it names, read as its words say"""
    content = got(name)
    lines = content.decode().split("\n")
    expect("the manifest's own sum", lines[-2] == "sum " + digest(content[:content.rindex(b"sum ")]) and lines[-1] == "")
    files = {}
    for line in lines:
        if line.startswith("file "):
            _, its_own, vertices, triangles, weight, *corners, last = line.split(" ", 12)
            files[last] = its_own, int(vertices), int(triangles), weight, corners
    return {line.split(" ")[0]: line for line in lines}, files


def manifests():
    put("ball.npy", BALL)
    put("thirds.plan", THIRDS)
    put("halves.plan", HALVES)
    put("box.fixtures", struct.pack("<I6fI", 1, 3, 3, 3, 8, 8, 8, 0))
    for more in ((), ("--memory", "1"), ("--fixtures", "box.fixtures")):
        status, output, errors = bed("survey", "ball.npy", "--plan", "thirds.plan", "-o", "bed.mesh", *more)
        expect(f"three blocks: {errors}", status == 0 and "\nmanifest: bed.manifest\n" in output)
        lines, files = listed("bed.manifest")
        expect("its files", sorted(files) == sorted(glob.glob("bed.*.mesh")) == [f"bed.00{number}.mesh" for number in (1, 2, 3)])
        total = 0
        for (name, (its_own, vertices, triangles, weight, corners)), block in zip(sorted(files.items()), THIRDS.decode().split("\n")[1:]):
            positions, _, faces = mesh_file(got(name))
            expect(f"{name} is what it says", (its_own, vertices, triangles, weight) ==
                   (digest(got(name)), len(positions), len(faces), str(weighed(positions, faces))) and " ".join(corners) == block)
            total += weighed(positions, faces)
        expect("the sums", lines["all"].split(" ")[1:] == ["3", *(str(sum(f[at] for f in files.values())) for at in (1, 2)), str(total)])
        expect("the volume on the page", f", {lines['volume'].split(' ')[1]}\n" in output and lines["mesh"] == "mesh open 0 0 0" and "metres" not in lines)
        expect("what it was made of", (lines["grid"], lines["plan"], lines["whole"], lines["version"]) ==
               (f"grid {digest(BALL)} ball.npy", f"plan {digest(THIRDS)} thirds.plan", "whole 0 0 0 11 11 11 -", f"version {bed('--version')[1].split()[1]}"))
        expect("its fixtures", ("fixtures" in lines) == (len(more) == 2 and more[0] == "--fixtures") and
               lines.get("fixtures", digest(got("box.fixtures"))).count(digest(got("box.fixtures"))) == 1)
    # fewer blocks: the third file goes, and a sum over all is the whole's
    status, output, _ = bed("survey", "ball.npy", "--plan", "halves.plan", "-o", "bed.mesh")
    expect("two blocks", status == 0 and sorted(glob.glob("bed.*")) == ["bed.001.mesh", "bed.002.mesh", "bed.manifest"] and "\nremoved: 1 files" in output)
    whole = sum(weighed(p, t) for p, _, t in (mesh_file(got(name)) for name in glob.glob("bed.*.mesh")))
    # without a plan: the blocks and the manifest go
    status, output, _ = bed("survey", "ball.npy", "-o", "bed.mesh")
    expect("the whole", status == 0 and glob.glob("bed*") == ["bed.mesh"] and "\nremoved: 3 files" in output)
    positions, _, faces = mesh_file(got("bed.mesh"))
    expect("the sums of the blocks", sixfold(positions, faces) == whole)
    # a file that no manifest names, or that is not what it says, is not removed and not left among the new ones
    wrong("survey", "ball.npy", "--plan", "halves.plan", "-o", "bed.mesh", says="bed.mesh: would stand among the files of this survey")
    os.remove("bed.mesh")
    put("bed.003.mesh", b"someone's own")
    wrong("survey", "ball.npy", "--plan", "halves.plan", "-o", "bed.mesh", says="bed.003.mesh: would stand among")
    wrong("survey", "ball.npy", "-o", "bed.mesh", says="bed.003.mesh: would stand among")
    expect("one that is written is replaced", bed("survey", "ball.npy", "--plan", "thirds.plan", "-o", "bed.mesh")[0] == 0)
    good = got("bed.003.mesh")
    put("bed.003.mesh", good + b"\0")
    wrong("survey", "ball.npy", "--plan", "halves.plan", "-o", "bed.mesh", says="bed.003.mesh: would stand among")
    put("bed.003.mesh", good)
    manifest = got("bed.manifest")
    put("bed.manifest", manifest[:-1])
    wrong("survey", "ball.npy", "--plan", "halves.plan", "-o", "bed.mesh", says="bed.manifest: is there and is no manifest")
    put("bed.manifest", manifest)
    # a survey that is refused leaves the old one whole
    put("bad.npy", npy(floats([float("nan")] * SIDE ** 3), (SIDE,) * 3))
    before = all_files()
    expect("refused", bed("survey", "bad.npy", "--plan", "halves.plan", "-o", "bed.mesh")[0] == 1 and all_files() == before)
    # other names in the folder are nobody's
    others = "bed.01.mesh", "bed.0000.ply", "bed.abc.mesh", "other.001.mesh", "bed.001.mesh.txt", "bed.2024.mesh", "bed.000.mesh", "bed.201.mesh", "bed.+01.mesh"
    for name in others:
        put(name, b"other")
    expect("others stay", bed("survey", "ball.npy", "--plan", "halves.plan", "-o", "bed.mesh")[0] == 0 and
           sum(content == b"other" for content in all_files().values()) == len(others) and not os.path.exists("bed.003.mesh"))
    clear()


def order():
    """the manifest gets its name last, after the folder was synced"""
    if not shutil.which("strace"):
        print("strace is not there: the order of the calls is not looked at")
        return
    put("ball.npy", BALL)
    put("thirds.plan", THIRDS)
    put("halves.plan", HALVES)
    bed("survey", "ball.npy", "--plan", "thirds.plan", "-o", "bed.mesh")
    subprocess.run(["strace", "-f", "-y", "-o", "calls", "-e", "trace=fsync,rename,renameat,renameat2,unlink,unlinkat", BED, "survey", "ball.npy", "--plan",
                    "halves.plan", "-o", "bed.mesh"], stdout=subprocess.DEVNULL, check=True)
    calls = [line.split(None, 1)[1] for line in open("calls") if re.search(r"rename|unlink|fsync", line) and "resumed" not in line]
    shown = [("manifest" if "bed.manifest" in call else "mesh" if ".mesh" in call else "folder") + " " + call.split("(")[0].rstrip("at2") for call in calls]
    shown = [call for place, call in enumerate(shown) if place == 0 or call != "folder fsync" or shown[place - 1] != call]
    last = shown[-6:]
    expect(f"renamed, removed, the folder, then the manifest: {shown}", last ==
           ["mesh rename", "mesh rename", "mesh unlink", "folder fsync", "manifest rename", "folder fsync"] and
           shown.index("manifest fsync") < shown.index("mesh rename"))
    clear()


def signals():
    """INT and TERM while files are begun: nothing of them stays, and the old ones do"""
    tank = "survey", f"{TANK}/tank.npy", "--plan", f"{TANK}/tank.plan", "-o", "bed.mesh"
    noise = "mesh", put("noise.npy", npy(random.randbytes(60 ** 3), (60,) * 3, "|i1")), "-o", "bed.mesh", "--memory", "1", "--ply", "bed.ply"
    put("bed.ply", b"old")
    ended = 0
    for words in (tank, noise):
        for number in (signal.SIGTERM, signal.SIGINT):
            if words == tank:
                for name in glob.glob("bed.*"):
                    os.remove(name)
                put("bed.001.mesh", b"old")
            else:
                put("bed.mesh", b"old")
                put("bed.ply", b"old")
            for turn in range(12):
                before = all_files()
                run = subprocess.Popen([BED, *words], stdout=subprocess.DEVNULL, stderr=subprocess.PIPE, text=True)
                while run.poll() is None and not glob.glob("*.part"):
                    time.sleep(0.0005)
                time.sleep(random.uniform(0, 0.02))
                run.send_signal(number)
                run.communicate()
                expect("no part is left", glob.glob("*.part") == [])
                if run.returncode == -number:
                    ended += 1
                    expect("the old files stay", all_files() == before)
                else:
                    expect(f"or it was done: {run.returncode}", run.returncode == 0)
                    break
    expect("some were ended amid their work", ended > 8)
    # whoever ignores INT, as a shell does for what runs behind it, still does
    for name in glob.glob("bed.*"):
        os.remove(name)
    run = subprocess.Popen([BED, *tank], stdout=subprocess.DEVNULL, preexec_fn=lambda: signal.signal(signal.SIGINT, signal.SIG_IGN))
    while run.poll() is None and not glob.glob("*.part"):
        time.sleep(0.0005)
    run.send_signal(signal.SIGINT)
    expect("an ignored signal", run.wait() == 0)
    print(f"files: {ended} runs ended by a signal, nothing of them is left")
    clear()


def memory():
    """the most memory of a run is no more than --memory, every worker's map and mesh included"""
    if not shutil.which("time"):
        print("time is not there: the most memory of a run is not looked at")
        return
    side, layers = 256, 48
    middle = (side - 1) / 2
    inside = floats([((x - middle) ** 2 + (y - middle) ** 2) ** 0.5 - 70 for y in range(side) for x in range(side)])
    border = floats([30.0] * side ** 2)
    put("tube.npy", npy(b"".join(inside if 0 < z < layers - 2 else border for z in range(layers)), (side, side, layers)))
    with open("tube.plan", "w") as file:
        subprocess.run([BED, "plan", "--make", "2,2,2", "tube.npy"], stdout=file, check=True)
    grid = 4 * side * side * layers
    seen, meshes = set(), set()
    for size in (3 * grid // 2, 2 * grid + (20 << 20), 3 * grid + (40 << 20), 8 * grid):
        for words in (("survey", "--plan", "tube.plan"), ("survey",), ("survey", "--closed"), ("survey", "--closed", "--plan", "tube.plan"), ("mesh", "--ply", "tube.ply")):
            done = subprocess.run(["time", "-f", "%M", "-o", "peak", BED, words[0], "tube.npy", "-o", "out.mesh", *words[1:], f"--memory={size}"],
                                  capture_output=True, text=True)
            peak = int(got("peak").split()[-1]) * 1024
            expect(f"{words} in {size}: {peak} {done.stderr}", done.returncode == 0 and peak <= size)
            seen.add((words[0], "\nlayers: " in done.stdout))
            meshes.add((words, digest(b"".join(got(name) for name in sorted(glob.glob("out*mesh"))))))
            for name in glob.glob("out*"):
                os.remove(name)
    expect(f"both ways: {seen}", {("survey", True), ("survey", False)} <= seen)
    expect("the same meshes", len(meshes) == 5)
    clear()


names()
manifests()
order()
signals()
memory()
finish("files: none lost, none stale, none mixed")

"""library_once: looks that scripts/linked-library proves and compiles once and then only where something changed, with a kit of stubs that
counts its proofs; and that without `rt` there is one line. Nothing is proved here."""
import os
import platform
import shutil
import subprocess
import sys
import tempfile

HERE = os.path.dirname(os.path.realpath(__file__))
TOP = os.path.realpath(f"{HERE}/../..")
failures = []


def expect(what, holds):
    if not holds:
        failures.append(what)
        print(f"NOT SO: {what}")


def put(path, text, mode=0o644):
    os.makedirs(os.path.dirname(path), exist_ok=True)
    with open(path, "w") as file:
        file.write(text)
    os.chmod(path, mode)


with tempfile.TemporaryDirectory() as folder:
    repository, kit, proofs = f"{folder}/repository", f"{folder}/kit", f"{folder}/proofs"
    for script in ("native-lib", "linked-library"):
        os.makedirs(f"{repository}/scripts", exist_ok=True)
        shutil.copy(f"{TOP}/scripts/{script}", f"{repository}/scripts/{script}")
    put(f"{repository}/crates.txt", "# crates\nlow:\nhigh: low\nbed: high\nbed_c staticlib: bed high\nother: low\n")
    for crate in ("low", "high", "bed", "bed_c", "other"):
        put(f"{repository}/crates/{crate}/src/lib.rt", f"fn {crate}() {{}}\n")
    put(f"{kit}/version", "one")
    put(f"{folder}/bin/rt", f"""#!/bin/sh
case $1 in
version) cat {kit}/version ;;
lib) echo proof >>{proofs}
    mkdir -p out/incremental; date +%N >out/incremental/module; echo archive >out/lib$(basename "$PWD").a ;;
esac
""", 0o755)
    usual = {name: value for name, value in os.environ.items() if name != "BED_LIB"}

    def linked(path=f"{folder}/bin:", **more):
        return subprocess.run([f"{repository}/scripts/linked-library"], capture_output=True, text=True,
                              env={**usual, "PATH": f"{path}/usr/bin:/bin", **more})

    def proved():
        return len(open(proofs).readlines()) if os.path.exists(proofs) else 0

    def turn(what, wanted, **more):
        done = linked(**more)
        expect(f"{what}: {proved()} proofs, {done.stderr}", (done.returncode, proved()) == (0, wanted))
        expect(f"{what}: the folder", done.stdout == f"{repository}/target/linked\n" and os.path.getsize(f"{repository}/target/linked/libbed.a"))

    if platform.machine() != "x86_64":
        done = linked()
        expect(f"on another machine one line: {done.stderr}", done.returncode == 1 and done.stderr.count("\n") == 1 and "x86-64 alone" in done.stderr)
        print("FAILED" if failures else "library: not made here, and it is said")
        sys.exit(1 if failures else 0)
    turn("the first time", 1)
    turn("nothing changed", 1)
    put(f"{repository}/crates/other/src/lib.rt", "fn another() {}\n")
    turn("a crate that it does not stand on", 1)
    put(f"{repository}/crates/low/src/lib.rt", "fn another() {}\n")
    turn("a crate that it stands on", 2)
    turn("nothing changed again", 2)
    put(f"{repository}/crates/high/proofs/new/Answers.antt", "")
    turn("a new file", 3)
    put(f"{repository}/crates/low/out/incremental/module", "another")
    turn("what rt keeps", 3)
    put(f"{kit}/version", "two")
    turn("another kit", 4)
    put(f"{repository}/target/linked/libbed.a", "spoiled")
    turn("another archive", 5)
    given = f"{folder}/given.a"
    put(given, "given")
    done = linked(BED_LIB=given)
    expect("a named archive has a folder of its own", done.stdout == f"{repository}/target/tried\n" and proved() == 5)
    turn("and the proved one stays", 5)
    done = linked(path="")
    expect(f"without rt one line: {done.stderr}", done.returncode == 1 and done.stderr.count("\n") == 1 and "rt is not on PATH" in done.stderr)

print("FAILED" if failures else "library: proved once, and again where something changed")
sys.exit(1 if failures else 0)

#!/usr/bin/env python3
"""respell [--check] ROOT: names of definitions and lemmas in camel case become snake case, in the .antt and .rt files of ROOT/crates.

A name is split at its dashes; a part that begins in lower case and has a capital within is respelled, as vertexPosition to vertex_position and
upTo-each to up_to-each. A part that begins with a capital is a type or a fact and keeps it. Strings stay. A name whose new spelling the file has
already is told as 'falls together': a path of the same name and a field do no harm, and a lemma or a local definition that would meet a definition
there is listed in AWAY with the name that it takes first. It was run once, after the kit's own script, when this repository came to today's Rattle.
Exit status: 0; with --check 1 if anything would change.
"""
import os
import re
import sys

# lemmas and local definitions whose name a definition takes: the files, by a pattern, the name and its new one
AWAY = [
    (r"crates/.*\.antt$", "same_point", "same_point_lem"),
    (r"crates/(layers|layered_mesh|weighed_bed|tallied_bed|applied)/proofs/.*\.antt$", "runs_on", "runs_on_lem"),
    (r"crates/bounded_mesh/proofs/Around\.antt$", "both_ends", "both_ends_lem"),
    (r"crates/bounded_mesh/proofs/.*\.antt$", "whole_cells", "whole_cells_lem"),
    (r"crates/layer_faces/proofs/face_layer/Proof\.antt$", "kept_of", "kept_at"),
    (r"crates/levels/proofs/answers/layer_answer/Proof\.antt$", "box_of", "asked_box"),
    (r"crates/layered_mesh/proofs/Taken\.antt$", "room-for", "room_for_lem"),
]
NAME = re.compile(r"[A-Za-z_\u0370-\u03ff][\w'\u2080-\u2089\u0370-\u03ff-]*")
CAMEL = re.compile(r"^[a-z][a-z0-9]*[A-Z]")
HEX = re.compile(r"^x[0-9A-F]+$")
STRING = re.compile(r'b?"(?:[^"\\\n]|\\.)*"')


def snake(part):
    if not CAMEL.match(part) or HEX.match(part):
        return part
    return re.sub(r"(?<=[a-z0-9])([A-Z])|(?<=[A-Z])([A-Z])(?=[a-z])", lambda m: "_" + m[0], part).lower()


def respelled(name):
    return "-".join(snake(part) for part in name.split("-"))


def put_away(path, text):
    for pattern, name, other in AWAY:
        if re.search(pattern, path):
            text = re.sub(r"(?<![\w'.-])" + re.escape(name) + r"(?![\w'-])", other, text)
    return text


def turned(text, rust):
    def plain(piece):
        return NAME.sub(lambda m: respelled(m[0]), piece)
    if not rust:
        return plain(text)
    out, at = [], 0
    for m in STRING.finditer(text):
        out += [plain(text[at:m.start()]), m[0]]
        at = m.end()
    return "".join(out) + plain(text[at:])


def files(root):
    for folder, dirs, names in os.walk(os.path.join(root, "crates")):
        dirs[:] = sorted(d for d in dirs if d != "out")
        for name in sorted(names):
            if name.endswith((".antt", ".rt")):
                yield os.path.join(folder, name)


def main(argv):
    check = "--check" in argv
    root = [a for a in argv if not a.startswith("--")][0]
    changed = 0
    # run once: where no name in camel case is left, the table has done its work
    fresh = any(respelled(name) != name for path in files(root) for name in NAME.findall(open(path, encoding="utf-8").read()))
    for path in files(root):
        with open(path, encoding="utf-8") as file:
            text = file.read()
        away = put_away(path, text) if fresh else text
        new = turned(away, path.endswith(".rt"))
        had = set(NAME.findall(away))
        for name in sorted(had):
            other = respelled(name)
            if other != name and other in had:
                print(f"falls together: {path}: {name} and {other}")
        if new != text:
            changed += 1
            if not check:
                with open(path, "w", encoding="utf-8") as file:
                    file.write(new)
    print(f"{changed} files")
    return 1 if check and changed else 0


sys.exit(main(sys.argv[1:]))

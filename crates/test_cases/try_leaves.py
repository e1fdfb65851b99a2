#!/usr/bin/env python3
"""Tries --leaves, alone and with --json, on small documents, worked out by hand: try_leaves.py PROGRAM, or try_leaves.py --documents FOLDER

PROGRAM is the built program, crates/checker/out/checker. With --documents the documents and their answers are written into
the folder instead, for `rt try --cases FOLDER -- --leaves` in crates/checker. Each document that is answered otherwise is
told, and then the status is 1.
"""
import json
import subprocess
import sys
from pathlib import Path

F, V4, M3 = [None, ["Scalar", "f32"]], [None, ["Vector", 4, "f32"]], [None, ["Matrix", 3, 3, "f32"]]
U = [None, ["Scalar", "u32"]]


def struct(members, span):
    return [None, ["Struct", [[name, ty, None, offset] for name, ty, offset in members], span]]


def storage(ty, binding=0):
    return [None, ["Storage", ["LOAD"]], [0, binding], ty, None, []]


def uniform(ty, binding=0):
    return [None, "Uniform", [0, binding], ty, None, []]


def document(types, variables, capabilities=()):
    return [1, ["EXPRESSIONS", "BLOCKS", "CONTROL_FLOW_UNIFORMITY", "STRUCT_LAYOUTS", "CONSTANTS", "BINDINGS"],
            list(capabilities), [[], []], False, types, [None, None, None, []], [[], None], [], [], [], variables, [], []]


CASES = {
    "number-and-vector": (document([F, V4, struct([("a", 0, 0), ("b", 1, 16)], 32)], [storage(2)]), """accepted
buffer 0 size 32 alignment 16
leaf a 0 4 4
leaf b 16 16 16
"""),
    "array-without-a-length": (document([U, [None, ["Array", 0, ["Dynamic"], 4]]], [storage(1)]), """accepted
buffer 0 size 4 alignment 4
leaf [0] 0 4 4
"""),
    "matrix-with-gaps": (document([M3, struct([("m", 0, 0)], 48)], [uniform(1)]), """accepted
buffer 0 size 48 alignment 16
leaf m 0 48 16
"""),
    "value-itself": (document([F, M3], [storage(0), storage(1, 1)]), """accepted
buffer 0 size 4 alignment 4
leaf . 0 4 4
buffer 1 size 48 alignment 16
leaf . 0 48 16
"""),
    "no-buffer": (document([F], [[None, "Private", None, 0, None, []]]), "accepted\n"),
    "names": (document([U, struct([(None, 0, 0), ("", 0, 4), ("2d", 0, 8), ("two words", 0, 12), ("a.b", 0, 16), ("line\nfeed", 0, 20),
                                   ("_x9", 0, 24), ("größe", 0, 28), ("a", 0, 32), ("a", 0, 36)], 40)], [storage(1)]), """accepted
buffer 0 size 40 alignment 4
leaf 0 0 4 4
leaf 1 4 4 4
leaf 2 8 4 4
leaf 3 12 4 4
leaf 4 16 4 4
leaf 5 20 4 4
leaf _x9 24 4 4
leaf größe 28 4 4
leaf a 32 4 4
leaf a 36 4 4
"""),
    "nested": (document([U, struct([("x", 0, 0), (None, 0, 4)], 8), [None, ["Array", 1, ["Constant", 2], 8]], [None, ["Array", 2, ["Constant", 2], 16]],
                         struct([("rows", 3, 0), ("last", 1, 32)], 40)], [storage(4)]), """accepted
buffer 0 size 40 alignment 4
leaf rows[0..2][0..2].x 0 4 4 stride 16 stride 8
leaf rows[0..2][0..2].1 4 4 4 stride 16 stride 8
leaf last.x 32 4 4
leaf last.1 36 4 4
"""),
    "arrays-of-one-and-of-many": (document([F, [None, ["Array", 0, ["Constant", 1], 16]], [None, ["Array", 1, ["Constant", 1000], 16]],
                                            struct([("few", 1, 0), ("many", 2, 16)], 16016)], [storage(3)]), """accepted
buffer 0 size 16016 alignment 4
leaf few[0] 0 4 4
leaf many[0..1000][0] 16 4 4 stride 16
"""),
    "array-of-all-that-there-is": (document([U, [None, ["Array", 0, ["Constant", 536870911], 4]]], [storage(1)]), """accepted
buffer 0 size 2147483644 alignment 4
leaf [0..536870911] 0 4 4 stride 4
"""),
    "member-off-its-alignment": (document([V4, struct([("a", 0, 4)], 32)], [storage(1)]), "refused global 0\n"),
    "later-type": (document([[None, ["Array", 1, ["Constant", 2], 4]], U], [storage(0)]), "refused handles\n"),
}


def write(folder):
    Path(folder).mkdir(parents=True, exist_ok=True)
    for name, (value, answer) in CASES.items():
        (Path(folder) / f"{name}.json").write_text(json.dumps(value))


def lines_of(answer):
    """The lines that say what an object says of buffers and leaves."""
    for buffer in answer.get("buffers", []):
        yield f"buffer {buffer['global']} size {buffer['size']} alignment {buffer['alignment']}"
        for leaf in buffer["leaves"]:
            strides = "".join(f" stride {repeat['stride']}" for repeat in leaf["repeats"])
            yield f"leaf {leaf['path'] or '.'} {leaf['offset']} {leaf['length']} {leaf['alignment']}{strides}"


def main():
    if sys.argv[1] == "--documents":
        write(sys.argv[2])
        return 0
    wrong = 0
    for name, (value, answer) in CASES.items():
        run = subprocess.run([sys.argv[1], "--leaves"], input=json.dumps(value).encode(), capture_output=True)
        status = 0 if answer.startswith("accepted") else 1
        as_object = subprocess.run([sys.argv[1], "--json", "--leaves"], input=json.dumps(value).encode(), capture_output=True)
        lines = list(lines_of(json.loads(as_object.stdout)))
        if (run.stdout.decode(), run.returncode) != (answer, status) or as_object.returncode != status or status == 0 and lines != answer.splitlines()[1:]:
            wrong += 1
            print(f"{name}: status {run.returncode}\n{run.stdout.decode()}{lines}")
    print(f"{len(CASES)} documents, {wrong} answered otherwise")
    return 1 if wrong else 0


if __name__ == "__main__":
    sys.exit(main())

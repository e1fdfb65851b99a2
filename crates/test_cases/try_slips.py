#!/usr/bin/env python3
"""Compares what --explain writes for typical slips of a front end's author with data/slips.json: try_slips.py PROGRAM

PROGRAM is the built program, crates/checker/out/checker. Each slip is made at one place of a shader of examples/. The status is 1
where a line differs. With --write it writes the file in place of comparing.
"""
import json
import subprocess
import sys
from pathlib import Path

HERE = Path(__file__).resolve().parent
TOP = HERE.parent.parent
KNOWN = HERE / "data/slips.json"
LIT, SUM, OVER = "shader-vertex-and-fragment-lit-texture", "shader-compute-weighted-sum", "shader-compute-overrides"
WIDE = 2147483648

# the example, the slip in words, the way to the part, and what is put there (nothing: the part is left out)
SLIPS = [
    (LIT, "a flag in another spelling", [1, 3], "LAYOUTS"),
    (LIT, "a scalar of another language", [5, 0, 1, 1], "float"),
    (LIT, "a float as a number, and not as its bits", [13, 1, 6, 4, 5, 2], 0.5),
    (LIT, "a type that stands in the list already", [5, 1, 1, 1], 3),
    (LIT, "a field of a global left out", [11, 0, 5]),
    (LIT, "a swizzle of three letters", [13, 1, 6, 4, 19, 3], "xyz"),
    (LIT, "an operand past the end of the list", [13, 1, 6, 4, 20, 2], 99),
    (SUM, "a local variable that is not there", [13, 0, 6, 4, 7, 1], 5),
    (SUM, "a struct of a type that comes later", [5, 4, 1, 1, 0, 1], 5),
    (SUM, "a call of a function that is not there", [13, 0, 6, 5, 2, 1, 3, 1], 1),
    (SUM, "a range past the last expression", [12, 0, 5, 1, 2], 40),
    (SUM, "an array of too many elements", [5, 7, 1, 2, 1], WIDE),
    (SUM, "a stride that makes an array too large", [5, 7, 1, 3], WIDE - 1),
    (SUM, "a member that is an array too large", [5, 7, 1, 2, 1], WIDE // 4),
    (LIT, "a scalar without its capability", [5, 0, 1, 1], "f16"),
    (SUM, "a member inside the one before it", [5, 4, 1, 1, 1, 3], 8),
    (LIT, "a span without the last member", [5, 6, 1, 2], 112),
    (LIT, "a matrix of integers", [5, 5, 1, 3], "u32"),
    (OVER, "operands of two types in a global expression", [10, 7, 3], 0),
    (OVER, "a load of what is no pointer", [10, 7], ["Load", 5]),
    (OVER, "a swizzle of a scalar in a global expression", [10, 7], ["Swizzle", 2, 5, "xxxx"]),
    (OVER, "an index past the end of a global value", [10, 7], ["AccessIndex", 5, 4]),
    (OVER, "a value that is known only when it runs", [10, 7], ["SubgroupBallotResult"]),
    (OVER, "a literal that is abstract", [10, 0, 1], "aint"),
    (OVER, "a composition of what is not composed", [10, 7], ["Compose", 0, [5]]),
    (OVER, "a constant that an override stands in", [8], [["area", 1, 2]]),
    (OVER, "a constant of another type than its value", [8], [["area", 0, 0]]),
    (OVER, "a constant of an array that a buffer sizes", [8], [["area", 6, 0]]),
    (OVER, "an override without name and number", [9, 1, 0], None),
    (OVER, "two overrides of one number", [9, 3, 1], 1),
    (OVER, "an override of another type than its value", [9, 2, 2], 1),
    (LIT, "a buffer without its binding", [11, 0, 2], None),
    (SUM, "a member off its alignment in a uniform buffer", [5, 8, 1, 1, 2, 3], 18),
    (SUM, "a storage buffer that is only written", [11, 2, 1, 1], ["STORE"]),
    (SUM, "an array without a length in WorkGroup", [11, 3, 3], 6),
    (SUM, "a call with an argument too few", [13, 0, 6, 5, 2, 1, 3, 2], [26]),
    (SUM, "a vector where a scalar is returned", [12, 0, 5, 2, 1], 0),
    (SUM, "a product of an integer and a float", [13, 0, 6, 4, 16, 3], 10),
    (SUM, "a use after the block that emits it", [12, 0, 5, 1], ["Block", [["Emit", 11, 13]]]),
    (SUM, "a math function with an argument too few", [12, 0, 4, 11, 3], None),
    (SUM, "a store to a buffer that is only read", [11, 2, 1, 1], ["LOAD"]),
    (SUM, "a return in a continuing part", [13, 0, 6, 5, 2, 2, 1], ["Return", None]),
    (SUM, "a condition that is a number", [13, 0, 6, 5, 8, 1], 0),
    (SUM, "a break outside of the loop", [13, 0, 6, 5, 7], ["Break"]),
    (SUM, "a store of another type", [13, 0, 6, 5, 1, 2], 10),
    (LIT, "a sample of the sampler", [13, 1, 6, 4, 7, 1], 3),
    (LIT, "an integer where a float goes between stages", [5, 7, 1, 1, 2, 2, 2], None),
    (LIT, "two members at one location", [5, 7, 1, 1, 2, 2, 1], 0),
    (LIT, "a vertex without a position", [5, 7, 1, 1, 0, 2], ["Location", 2, "Perspective", "Center", None, False]),
    (LIT, "a built-in value of another stage", [13, 0, 6, 1, 1, 2], ["BuiltIn", "FrontFacing"]),
    (SUM, "a size of the workgroup that is left to the host", [13, 0, 3, 0], 0),
    (LIT, "two variables at one binding", [11, 2, 2, 1], 0),
    (SUM, "a fragment's discard in a compute shader", [13, 0, 6, 5, 4], ["Kill"]),
    (SUM, "a value before it is emitted", [13, 0, 6, 5, 1, 2], 33),
    (LIT, "a component of a vector that is not there", [13, 1, 6, 4, 8, 2], 4),
    (SUM, "an index that is a float", [13, 0, 6, 4, 34, 2], 10),
    (LIT, "coordinates of three numbers for an image of two dimensions", [13, 1, 6, 4, 7, 4], 10),
    (LIT, "a result that is not returned", [13, 1, 6, 5, 3, 1], None),
    (LIT, "a varying without a location", [5, 7, 1, 1, 2, 2], None),
    (SUM, "an argument of a compute shader that is no built-in value", [13, 0, 6, 1, 0, 2], None),
]


def made(example, way, put):
    document = json.loads((TOP / f"examples/{example}.json").read_text())
    holder = document
    for step in way[:-1]:
        holder = holder[step]
    if put:
        holder[way[-1]] = put[0]
    else:
        del holder[way[-1]]
    return json.dumps(document)


def answer(program, text, *words):
    return subprocess.run([program, *words], input=text.encode(), capture_output=True).stdout.decode().rstrip("\n")


def answers(program):
    """Each slip in words with the line that the program writes, by the step that refuses it."""
    rows = {}
    for example, words, way, *put in SLIPS:
        text = made(example, way, put)
        found = json.loads(answer(program, text, "--json"))
        rows.setdefault(found.get("step", "accepted"), []).append([words, answer(program, text, "--explain")])
    order = ["document", "handles", "layout", "type", "typing", "expression", "constant", "override", "global", "function", "entry", "accepted"]
    return [row for step in order for row in rows.get(step, [])]


def main():
    words = [word for word in sys.argv[1:] if word != "--write"]
    rows = answers(words[0])
    if "--write" in sys.argv:
        KNOWN.write_text("[\n" + ",\n".join(" " + json.dumps(row) for row in rows) + "\n]\n")
        return 0
    known = dict(json.loads(KNOWN.read_text()))
    differing = [(words, line) for words, line in rows if known.get(words) != line]
    for words, line in differing:
        print(f"{words}: {line}")
    print(f"{len(rows)} slips, {len(differing)} lines differ")
    return 1 if differing or len(rows) != len(known) else 0


if __name__ == "__main__":
    sys.exit(main())

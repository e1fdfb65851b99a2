#!/usr/bin/env python3
"""Tries explain on the documents of data/ that are not of the form because of one slip: try_explain.py PROGRAM [FILE..]

PROGRAM is the built program, crates/checker/out/checker. The files are those that data/files.json names, where none is
named here. The place that is told holds the slip where two things are so: what stands there is not what is wanted
there, and with something else at that place alone the whole is a document. What is put there are the examples and the
words of docs/FORMAT.md and a few simple values, and the names of parts on that page lead to the place. Bytes that are
no JSON have no place. Each document of which the two things are not so is told, and then the status is 1.
"""
import json
import re
import subprocess
import sys
from pathlib import Path

import format_cases

DATA = Path(__file__).resolve().parent / "data"
LINE = re.compile(r"no document: (?:(?P<place>[^:]*): )?(?P<wanted>.*?) is wanted(?:;.*)?\n")
SIMPLE = [None, True, 0, 1, 2, 8, "x", "xyzw", [], ["another name", ["Scalar", "u32"]]]


def page():
    """The names of parts, and the values that are put in the place of others."""
    names, values = {}, list(SIMPLE)
    for heads, rows in format_cases.tables():
        for cells in rows:
            if heads[0] == "of":
                for of in re.findall("`([^`]*)`", cells[0]) or [""]:
                    names[of] = re.findall("`([^`]*)`", cells[1])
            elif heads[-1] == "example":
                values.append(json.loads(cells[-1].strip("`")))
            elif heads == ["set", "words"]:
                values.extend(re.findall("`([^`]*)`", cells[1]))
    return names, values


NAMES, VALUES = page()


def path_of(place):
    """The indexes that a place stands for as it is told."""
    path, key = [], ""
    for name, index in re.findall(r"([^.\[\]]+)|\[(\d+)\]", place):
        path.append(NAMES[key].index(name) if name else int(index))
        key = name or key + "[]"
    return path


def explained(program, text):
    return subprocess.run([program, "--explain"], input=text.encode(), capture_output=True).stdout.decode()


def is_wanted(wanted, value):
    """Whether the value is what is wanted, as far as a look at it alone tells."""
    bounds = re.fullmatch(r".*whole number (?:from (-?\d+) to|up to) (\d+)", wanted)
    if bounds:
        return type(value) is int and int(bounds[1] or 0) <= value <= int(bounds[2])
    if wanted in ["a list", "an array", "a set of words"]:
        return isinstance(value, list)
    if wanted == "an array with a word in front":
        return isinstance(value, list) and value != [] and isinstance(value[0], str)
    return {
        "a text": lambda: isinstance(value, str),
        "true or false": lambda: isinstance(value, bool),
        "2, 3 or 4": lambda: value in [2, 3, 4],
        "8 or 16": lambda: value in [8, 16],
        "the version 1": lambda: type(value) is int and value == 1,
    }.get(wanted, lambda: False)()


def is_slip(array, index, wanted):
    """Whether what stands at the index is not what is wanted there."""
    if wanted == "a further part":
        return len(array) == index
    return index < len(array) and not is_wanted(wanted, array[index])


def mended(text, path, wanted):
    """The documents that differ at the path alone."""
    words = [value for value in VALUES if isinstance(value, str)]
    for value in {"no further part": [None], "a word of its set": words, "a built-in": words}.get(wanted, VALUES):
        whole = array = json.loads(text)
        for index in path[:-1]:
            array = array[index]
        if wanted == "no further part":
            del array[path[-1]:]
        else:
            array[path[-1]:path[-1] + 1] = [value]
        yield json.dumps(whole)


def answer(program, text):
    """What comes of one document: `place told`, `no JSON`, or what is wrong."""
    line = explained(program, text)
    if line.startswith("no document: no JSON") or line.startswith("no document: more than"):
        return "no JSON"
    found = LINE.fullmatch(line)
    if not found:
        return f"it says {line!r}"
    place, wanted, array = found["place"], found["wanted"], json.loads(text)
    if place is None:
        return "it says that of the whole" if is_wanted(wanted, array) else "place told"
    path = path_of(place)
    for index in path[:-1]:
        array = array[index]
    if not is_slip(array, path[-1], wanted):
        return f"at {place} stands {wanted}"
    for other in mended(text, path, wanted):
        if not explained(program, other).startswith("no document"):
            return "place told"
    return f"nothing at {place} mends it, where {wanted} is wanted"


def main(program, names):
    counts = {"place told": 0, "no JSON": 0, "wrong": 0}
    for name in names or json.loads((DATA / "files.json").read_text()):
        for case in json.loads((DATA / name).read_text()):
            if case.get("form") is False and "input" in case and "spaces" not in case:
                told = answer(program, case["input"])
                counts[told if told in counts else "wrong"] += 1
                if told not in counts:
                    print(f"{name}: {case['name']}: {told}")
    print(", ".join(f"{count} {kind}" for kind, count in counts.items()))
    return 1 if counts["wrong"] else 0


if __name__ == "__main__":
    sys.exit(main(sys.argv[1], sys.argv[2:]))

#!/usr/bin/env python3
"""Measures how long whole documents take: entry points with their reports, and small things that are read and little more.

Prints a table in Markdown: for each document the median of five runs of the checker and of a program that reads the same
bytes as JSON and no more; they take turns. Both have to be built, as for run.py. The status is 1 where a target is
missed, or where a program answers something else than it should.
"""
import json
import statistics
import sys
import tempfile
from pathlib import Path

from run import ALONE, CHECK, MEASURES, RUNS, SIZES, TOP, fill, run

MOST_RATIO = 2.2
MOST_GROWTH = 24
SHADER = TOP / "examples/shader-compute-weighted-sum.json"
FUNCTIONS, ENTRIES = 12, 13


def written(value):
    return json.dumps(value, separators=(",", ":"))


# what the checker writes of a document with so many items, and its status
def accepted(_items):
    return b"accepted\n", 0


def refused(_items):
    return b"refused handles\n", 1


def reported(items):
    """The shader's own answer, with what is told of its entry point for each of these."""
    head, told = SHADER.with_suffix(".txt").read_text().split("entry 0\n")
    return (head + "".join(f"entry {it}\n{told}" for it in range(items))).encode(), 0


def shaders():
    """The entry point of a compute shader, again and again, beside its types, variables and functions."""
    document = json.loads(SHADER.read_text())
    entry = document[ENTRIES][0]
    document[ENTRIES] = []
    front = written(document)[:-2]

    def item(index):
        return written([entry[0], f"main_{index}", *entry[2:]])

    return front, "]]", item


def framed(expressions, body):
    """A document with one function."""
    function = f'[null,[],null,[],[{expressions}],[{body}],null]'
    return ('[1,[],[],[[],[]],false,[],[null,null,null,[]],[[],null],[],[],[],[],[' + function + "],[]]").split("@")


def small_lists():
    """Compositions of nothing, of a type that is not there."""
    front, back = framed("@", "")
    return front, back, lambda _: '["Compose",0,[]]'


def small_blocks():
    """Blocks of nothing."""
    front, back = framed("", "@")
    return front, back, lambda _: '["Block",[]]'


KINDS = {
    "a compute shader's entry point": (shaders, reported),
    "many small lists of handles": (small_lists, refused),
    "many small blocks": (small_blocks, accepted),
}


def main():
    for program in (CHECK, MEASURES):
        if not program.is_file():
            sys.exit(f"reading: {program.relative_to(TOP)} is not built yet")
    missed = []
    print("| document | items | the whole program | memory | reading as JSON alone | ratio of times |")
    print("|---|---|---|---|---|---|")
    for what, (kind, due) in KINDS.items():
        times, (front, back, item) = [], kind()
        for size in SIZES:
            with tempfile.TemporaryDirectory() as room:
                file = f"{room}/document.json"
                with open(file, "w") as it:
                    items = fill(it, front, item, back, size)
                runs = [(run(CHECK, file, *due(items)), run(ALONE, file, b"read\n", 0)) for _ in range(RUNS)]
            check, memory, alone = (statistics.median(it[who][of] for it in runs) for who, of in ((0, 0), (0, 1), (1, 0)))
            ratio, name = check / alone, f"{size >> 20} MiB, {what}"
            times.append(check)
            print(f"| {name} | {items} | {check * 1000:.1f} ms | {memory / 1e6:.1f} MB | {alone * 1000:.1f} ms | {ratio:.2f} |", flush=True)
            if ratio > MOST_RATIO:
                missed.append(f"{name}: it takes {ratio:.2f} times the reading as JSON, and {MOST_RATIO} are allowed")
        growth = times[-1] / times[0]
        if growth > MOST_GROWTH:
            missed.append(f"{what}: sixteen times the bytes take {growth:.1f} times as long, and {MOST_GROWTH} are allowed")
    print(*missed, sep="\n", end="\n" * bool(missed), file=sys.stderr)
    return 1 if missed else 0


if __name__ == "__main__":
    sys.exit(main())

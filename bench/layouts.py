#!/usr/bin/env python3
"""Measures how long layouts of all types, and kinds and types of all expressions of large documents take, beside reading
the same bytes as JSON and no more: layouts.py [--instructions]

`test_typing` is run twice on each document: once it reads the document and no more, and once it lays out the types
besides, or finds the kinds or the types of the expressions. What these take is the difference, of the least times of five runs, which
take turns. It is a small part of the whole, so that where other programs run beside it can't be told from theirs: with
--instructions the instructions of one run each are counted instead (valgrind's callgrind), on documents of 256 KiB and
1 MiB, since that takes fifty times as long. Prints a table in Markdown. Both programs have to be built: `rt ci` leaves
them, and so does `rt run` in crates/test_typing and crates/test_calls. The status is 1 where a target is missed.
"""
import json
import os
import re
import statistics
import subprocess
import sys
import tempfile

from run import ALONE, MEASURES, RUNS, SIZES, TOP, run

CASES = TOP / "crates/test_typing/out/test_typing"
DATA = TOP / "crates/test_typing/data"
MOST_SHARE = 0.25
TYPES = ('[1,[],[],[[],[]],false,[[null,["Scalar","u32"]],[null,["Vector",3,"f32"]]', '],[null,null,null,[]],[[],null],'
         '[],[],[],[],[],[]]')
EXPRESSIONS = ('[1,[],[],[[],[]],false,[[null,["Scalar","u32"]]],[null,null,null,[]],[[],null],[],[],[],[],'
               '[[null,[],null,[],[["Literal","u32",1]', '],[],null]],[]]')


def arrays(index):
    """An array of the type before, whose stride no other has."""
    return f',[null,["Array",{index + 1},["Constant",1],{index + 4}]]'


def structs(index):
    """A struct of three of the types before, whose span no other has."""
    return (f',[null,["Struct",[["a",{index},null,0],["b",{index // 2},null,16],["c",1,null,32]],{index + 64}]]')


def chains(index):
    """An access of the expression before."""
    return f',["AccessIndex",{index},0]'


def calls(index):
    """A math function of two expressions before."""
    return f',["Math","Min",{index},{index // 2},null,null]'


VECTOR = ('[1,[],[],[[],[]],false,[[null,["Scalar","u32"]],[null,["Vector",3,"u32"]]],[null,null,null,[]],[[],null],[],[],'
          '[],[],[[null,[],null,[],[["ZeroValue",1]', '],[],null]],[]]')


def sums(index):
    """A sum of two expressions before."""
    return f',["Binary","Add",{index},{index // 2}]'


def parts(index):
    """A component of the vector."""
    return f',["AccessIndex",0,{index % 3}]'


# each kind of document: what stands before its items and behind them, an item, and what is asked
KINDS = {
    "arrays of arrays": (*TYPES, arrays, "laid"),
    "structs": (*TYPES, structs, "laid"),
    "chains of accesses": (*EXPRESSIONS, chains, "tracked"),
    "math functions": (*EXPRESSIONS, calls, "tracked"),
    "types of sums": (*EXPRESSIONS, sums, "typed"),
    "types of math functions": (*EXPRESSIONS, calls, "typed"),
    "types of components": (*VECTOR, parts, "typed"),
}


def written(size, front, back, item):
    """The text of a document of `size` bytes, and how many items it has."""
    parts, left, index = [], size - len(front) - len(back), 0
    while True:
        text = item(index)
        if len(text) > left:
            return front + "".join(parts) + " " * left + back, index
        parts.append(text)
        left -= len(text)
        index += 1


def ask(room, asked, document):
    """Writes the question into the room, beside files without questions."""
    for file in DATA.glob("*.jsonl"):
        open(f"{room}/{file.name}", "w").close()
    with open(f"{room}/layouts.jsonl", "w") as it:
        it.write(json.dumps(["bench", asked, document, asked]) + "\n")


def taken(room, asked, document):
    """The processor time in seconds of one run of `test_typing` that is asked this of a document."""
    ask(room, asked, document)
    with open(f"{room}/answer", "w+") as told:
        child = subprocess.Popen([CASES], cwd=room, stdout=told)
        _, status, used = os.wait4(child.pid, 0)
        told.seek(0)
        answer = told.read()
    if status != 0 or "1 cases, 0 differ" not in answer:
        sys.exit(f"{asked}: {answer[-300:]}")
    return used.ru_utime + used.ru_stime


def counted(command, room, given):
    """The instructions of one run of a command in the room, with this file as its input."""
    with open(given) as it:
        ended = subprocess.run(["valgrind", "--tool=callgrind", "--callgrind-out-file=/dev/null", *command], cwd=room,
                               stdin=it, capture_output=True, text=True)
    found = re.search(r"Collected : (\d+)", ended.stderr)
    if ended.returncode != 0 or not found:
        sys.exit(f"{command[0].name}: {ended.stderr[-300:]}")
    return int(found.group(1))


def times(room, asked, document, path, less="read"):
    """Milliseconds of what is asked, less those of something else, and of the reader."""
    runs = [(taken(room, asked, document), taken(room, less, document), run(ALONE, path, b"read\n")[0])
            for _ in range(RUNS)]
    required_for, read = (min(it[who] for it in runs) for who in (0, 1))
    return max(required_for - read, 0) * 1000, statistics.median(it[2] for it in runs) * 1000


def instructions(room, asked, document, path, less="read"):
    """Millions of instructions of what is asked, less those of something else, and of the reader."""
    both = []
    for question in (asked, less):
        ask(room, question, document)
        both.append(counted((CASES,), room, path))
    return (both[0] - both[1]) / 1e6, counted(ALONE, room, path) / 1e6


def main():
    counting = "--instructions" in sys.argv[1:]
    for program in (CASES, MEASURES):
        if not program.is_file():
            sys.exit(f"layouts: {program.relative_to(TOP)} is not built yet")
    missed = False
    unit = "million instructions" if counting else "ms"
    print(f"| document | items | layouts, kinds or types, {unit} | reading alone, {unit} | share |")
    print("|---|---|---|---|---|")
    for name, (front, back, item, asked) in KINDS.items():
        for size in [1 << 18, 1 << 20] if counting else SIZES:
            document, count = written(size, front, back, item)
            with tempfile.TemporaryDirectory() as room:
                path = f"{room}/document.json"
                with open(path, "w") as it:
                    it.write(document)
                took, alone = (instructions if counting else times)(room, asked, document, path)
            print(f"| {size >> 10} KiB, {name} | {count} | {took:.2f} | {alone:.1f} | {took / alone:.3f} |", flush=True)
            missed = missed or took > MOST_SHARE * alone
    return 1 if missed else 0


if __name__ == "__main__":
    sys.exit(main())

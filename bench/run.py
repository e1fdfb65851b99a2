#!/usr/bin/env python3
"""Measures the check of a large document beside reading the same bytes as JSON and no more.

Prints a table in Markdown: for each document the median of five runs of each program, which take turns. Time is the
processor time of the program, and memory the most that it held at once. Both programs have to be built: `rt ci` leaves
them, and so does `rt run` in crates/checker and crates/test_calls. The status is 1 where a target is missed, or where a
program answers something else than it should.
"""
import os
import statistics
import sys
import tempfile
from pathlib import Path

TOP = Path(__file__).resolve().parent.parent
CHECK = TOP / "crates/checker/out/checker"
MEASURES = TOP / "crates/test_calls/out/test_calls"
ALONE = (MEASURES, "json")
SIZES = [1 << 20, 1 << 24]
RUNS = 5
MOST_RATIO = 2.2
MOST_MEMORY = 32

FRONT = ('[1,["EXPRESSIONS","BLOCKS","CONTROL_FLOW_UNIFORMITY","STRUCT_LAYOUTS","CONSTANTS","BINDINGS"],[],[[],[]],false,'
         '[["Index",["Scalar","u32"]],[null,["Scalar","f32"]]],[null,null,null,[]],[[],null],[],[],[],[],[')
BACK = "],[]]"


def function(*statements, expressions=""):
    return f'[null,[],null,[],[{expressions}],[{",".join(statements)}],null]'


def call(index):
    """A call of a function below the one of this index, where there is one."""
    return f'["Call",{index - 1},[],null]' if index else '["Return",null]'


def flat(index):
    """A function of forty statements, each a return or a call."""
    return function(*[call(index), '["Return",null]'] * 20)


def nested(index):
    """A function of some sixty statements, a third of them blocks, which are nested up to three deep."""
    inner = f'["Block",[{call(index // 2)},["Block",[["Block",[{call(index)},["Return",null]]],["Return",null]]]]]'
    return function(*[call(index), inner, '["Return",null]', call(index // 2)] * 6)


VALUES = '["Literal","bool",true],["Literal","u32",0]'


def choice(accept, reject=""):
    return f'["If",0,[{accept}],[{reject}]]'


def turns(body, continuing="", condition="null"):
    return f'["Loop",[{body}],[{continuing}],{condition}]'


def switch(*bodies):
    """A switch with a case for each body, of which the last is the default."""
    values = [f'["U32",{at}]' for at in range(len(bodies) - 1)] + ['["Default"]']
    return '["Switch",1,[' + ",".join(f"[{value},[{body}],false]" for value, body in zip(values, bodies)) + "]]"


def steps(_index):
    """Statements of each kind side by side, none of them in more than three others."""
    return ",".join([
        choice('["Kill"]', '["Return",null]'), turns(choice('["Break"]', '["Continue"]'), '["Block",[]]', "0"),
        switch('["Break"]', '["Block",[["Break"]]]', ""), '["Block",[["Kill"]]]'])


def deep(_index):
    """Sixty choices, blocks and loops in one another, and then thirty switches."""
    inner, switches = '["Return",null]', '["Return",null]'
    for at in range(60):
        inner = [choice(inner), f'["Block",[{inner}]]', turns(inner, "", "0"), choice("", inner)][at % 4]
    for at in range(30):
        switches = [switch(switches, ""), switch("", switches)][at % 2]
    return inner + "," + switches


def branching(_index):
    """Choices that hold two choices each, nine deep: a thousand bodies."""
    inner = '["Return",null]'
    for _ in range(9):
        inner = choice(inner, inner)
    return inner


def short(_index):
    """The two shortest statements."""
    return '["Kill"],["Return",null]'


def case(index):
    """A case of a switch."""
    return f'[["U32",{index}],[["Break"]],false]'


# each kind of document: what stands before its items, what stands behind them, an item, and whether returns are put in
ONE = (f'[null,[],null,[],[{VALUES}],[', "],null]")
SWITCH = (ONE[0] + '["Switch",1,[', ',[["Default"],[],false]]]' + ONE[1])
KINDS = {
    "returns and calls": ("", "", flat, False),
    "nested blocks": ("", "", nested, False),
    "one function, short statements": (*ONE, short, False),
    "one function, wide": (*ONE, steps, False),
    "one function, deep": (*ONE, deep, False),
    "one function, branching": (*ONE, branching, False),
    "one function, wide, returns put in": (*ONE, steps, True),
    "one function, deep, returns put in": (*ONE, deep, True),
    "one function, branching, returns put in": (*ONE, branching, True),
    "one switch": (*SWITCH, case, False),
}


def fill(file, front, item, back, size):
    """Writes exactly `size` bytes: items as long as there is room, and then blanks. Answers how many items there are."""
    left, index = size - len(front) - len(back), 0
    file.write(front)
    while True:
        text = ("," if index else "") + item(index)
        if len(text) > left:
            break
        file.write(text)
        left -= len(text)
        index += 1
    file.write(" " * left + back)
    return index


def write_document(file, kind, size):
    """Writes a document of exactly `size` bytes, and answers how many items it has."""
    before, behind, item, returns = kind
    front = FRONT.replace(",false,", ",true,") if returns else FRONT
    return fill(file, front + before, item, behind + BACK, size)


def run(program, file, due, wanted=0):
    """Seconds of processor time and peak memory, in bytes, of one run, which has to write `due` and end with `wanted`.

    The program is a path, or a path and the word that it is run with.
    """
    program, *words = program if isinstance(program, tuple) else (program,)
    read, write = os.pipe()
    with open(file, "rb") as given:
        child = os.posix_spawn(program, [str(program), *words], {}, file_actions=[
            (os.POSIX_SPAWN_DUP2, given.fileno(), 0), (os.POSIX_SPAWN_DUP2, write, 1)])
    os.close(write)
    with os.fdopen(read, "rb") as it:
        wrote = it.read()
    _, status, used = os.wait4(child, 0)
    if os.waitstatus_to_exitcode(status) != wanted or wrote != due:
        sys.exit(f"{program.name} ended with status {os.waitstatus_to_exitcode(status)} and wrote {wrote[:200]!r}")
    return used.ru_utime + used.ru_stime, used.ru_maxrss * 1024


def main():
    for program in (CHECK, MEASURES):
        if not program.is_file():
            sys.exit(f"run: {program.relative_to(TOP)} is not built yet")
    missed = []
    print("| document | items | check | memory | reading alone | memory | ratio of times | memory for a byte |")
    print("|---|---|---|---|---|---|---|---|")
    for what, kind in KINDS.items():
        for size in SIZES:
            with tempfile.TemporaryDirectory() as room:
                file = f"{room}/document.json"
                with open(file, "w") as it:
                    items = write_document(it, kind, size)
                runs = [(run(CHECK, file, b"accepted\n"), run(ALONE, file, b"read\n")) for _ in range(RUNS)]
            check, check_memory, alone, alone_memory = (
                statistics.median(it[who][of] for it in runs) for who in (0, 1) for of in (0, 1))
            ratio, memory, name = check / alone, check_memory / size, f"{size >> 20} MiB, {what}"
            print(f"| {name} | {items} | {check * 1000:.1f} ms | {check_memory / 1e6:.1f} MB "
                  f"| {alone * 1000:.1f} ms | {alone_memory / 1e6:.1f} MB | {ratio:.2f} | {memory:.1f} |", flush=True)
            if ratio > MOST_RATIO:
                missed.append(f"{name}: the check takes {ratio:.2f} times the reading, and {MOST_RATIO} are allowed")
            if memory > MOST_MEMORY:
                missed.append(f"{name}: {memory:.1f} bytes of memory for a byte, and {MOST_MEMORY} are allowed")
    print(*missed, sep="\n", end="\n" * bool(missed), file=sys.stderr)
    return 1 if missed else 0


if __name__ == "__main__":
    sys.exit(main())

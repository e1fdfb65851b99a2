#!/usr/bin/env python3
"""Counts what the steps up to overrides take of a run of the program, beside reading the document as JSON: modules.py

The program is run once on each document under valgrind's callgrind. Of that run the instructions are told of all steps up to
overrides (`ModuleValidator::validate`, or all steps where the compiler has joined them), with all that they call; beside them
those of the JSON reader alone, with letting its value go, in a run of `test_calls json` on the same bytes. Prints a table in
Markdown. Both programs have to be built: `rt ci` leaves them, and so does `rt run` in crates/checker and crates/test_calls. The
status is 1 where a target is missed.
"""
import json
import pathlib
import re
import subprocess
import sys
import tempfile

TOP = pathlib.Path(__file__).resolve().parent.parent
CHECKER = TOP / "crates/checker/out/checker"
MEASURES = TOP / "crates/test_calls/out/test_calls"
MOST_SHARE = 0.25
# The steps up to overrides; and where the compiler has put them into the function that asks all steps, that one: the documents
# have no function, no global variable and no entry point.
STEPS = ("module_steps::validator::ModuleValidator::judge", "shader_check::whole::judge")
FLAGS = ["EXPRESSIONS", "BLOCKS", "CONTROL_FLOW_UNIFORMITY", "STRUCT_LAYOUTS", "CONSTANTS", "BINDINGS"]
ONE = ["Literal", "f32", 1065353216]
BASE = [[None, ["Scalar", "u32"]], [None, ["Scalar", "f32"]], [None, ["Vector", 4, "f32"]]]


def document(types=(), constants=(), overrides=(), expressions=()):
    parts = [1, FLAGS, [], [[], []], False, BASE + list(types), [None, None, None, []], [[], None], list(constants),
             list(overrides), list(expressions), [], [], []]
    return json.dumps(parts, separators=(",", ":"))


def literals(count):
    return [["Literal", "u32", i] for i in range(count)]


def many_types(count):
    """Structs of two members, of which no two have one name."""
    return document([[f"t{i}", ["Struct", [["a", 2, None, 0], ["b", 0, None, 16]], 32]] for i in range(count)])


def deep_types(count):
    """Structs, each of the one before."""
    first = ["s0", ["Struct", [["a", 0, None, 0]], 4]]
    return document([first, *([f"s{i + 1}", ["Struct", [["a", 3 + i, None, 0]], 4]] for i in range(count))])


def many_constants(count):
    """Constants, each of a literal of its own."""
    return document(constants=[[f"c{i}", 0, i] for i in range(count)], expressions=literals(count))


def many_overrides(count):
    """Overrides with names and numbers, each of a literal of its own."""
    return document(overrides=[[f"o{i}", i, 0, i] for i in range(count)], expressions=literals(count))


def compositions(count):
    """Vectors of four components."""
    return document(expressions=[ONE, *(["Compose", 2, [0, 0, 0, 0]] for _ in range(count))])


def arrays(count):
    """Arrays of four elements."""
    return document([[None, ["Array", 1, ["Constant", 4], 4]]],
                    expressions=[ONE, *(["Compose", 3, [0, 0, 0, 0]] for _ in range(count))])


def matrices(count):
    """Matrices of four columns."""
    return document([[None, ["Matrix", 4, 4, "f32"]]],
                    expressions=[ONE, ["Compose", 2, [0, 0, 0, 0]], *(["Compose", 3, [1, 1, 1, 1]] for _ in range(count))])


def structs(count):
    """Structs of four members."""
    members = [[name, 1, None, 4 * at] for at, name in enumerate("abcd")]
    return document([["s", ["Struct", members, 16]]],
                    expressions=[ONE, *(["Compose", 3, [0, 0, 0, 0]] for _ in range(count))])


def one_array(count):
    """One array of so many elements."""
    return document([[None, ["Array", 1, ["Constant", count], 4]]], expressions=[ONE, ["Compose", 3, [0] * count]])


KINDS = {"many types": many_types, "types of types": deep_types, "constants": many_constants,
         "overrides with numbers": many_overrides, "vectors that are composed": compositions, "arrays": arrays,
         "matrices": matrices, "structs": structs, "one array": one_array}


def of_call(said, name):
    """The instructions of a function with all that it calls."""
    found = re.search(rf"^ *([\d,]+) .*:{re.escape(name)}(?:::<[^>]*>)? \[", said, re.M)
    return int(found.group(1).replace(",", "")) if found else 0


def counted_run(room, path, program, printed):
    """What callgrind says of a run of a program on the document, which has to print this."""
    with open(path) as it:
        ended = subprocess.run(["valgrind", "--tool=callgrind", f"--callgrind-out-file={room}/calls", *program], stdin=it,
                               capture_output=True, text=True)
    if ended.stdout != printed:
        sys.exit(f"modules: {ended.stdout}{ended.stderr[-300:]}")
    return subprocess.run(["callgrind_annotate", "--inclusive=yes", "--threshold=100", f"{room}/calls"],
                          capture_output=True, text=True).stdout


def called(room, path):
    """What callgrind says of a run of the check on the document, which has to be accepted."""
    return counted_run(room, path, [CHECKER], "accepted\n")


def json_alone(room, path):
    """The instructions of reading the bytes as JSON and letting the value go, without taking the bytes in."""
    said = counted_run(room, path, [MEASURES, "json"], "read\n")
    whole, taken = of_call(said, "test_calls::json_alone::run"), of_call(said, "check_ports::source::Source::take_all")
    if not whole or not taken:
        sys.exit("modules: the JSON reader was not counted")
    return whole - taken


def counted(room, path):
    """The instructions of the steps, and of the JSON reader alone."""
    said = called(room, path)
    steps = next((found for found in (of_call(said, it) for it in STEPS) if found), 0)
    if not steps:
        sys.exit("modules: no call of the steps was counted")
    return steps, json_alone(room, path)


def are_built():
    """Stops where one of the two programs is not built."""
    for program in (CHECKER, MEASURES):
        if not program.is_file():
            sys.exit(f"{program.relative_to(TOP)} is not built yet")


def main():
    are_built()
    missed = False
    print("| document | items | steps up to overrides, million instructions | the JSON reader, million instructions | share |")
    print("|---|---|---|---|---|")
    for name, made in KINDS.items():
        for count in (2000, 16000):
            with tempfile.TemporaryDirectory() as room:
                path = f"{room}/document.json"
                with open(path, "w") as it:
                    it.write(made(count))
                steps, reader = counted(room, path)
            print(f"| {name} | {count} | {steps / 1e6:.2f} | {reader / 1e6:.1f} | {steps / reader:.2f} |", flush=True)
            missed = missed or steps > MOST_SHARE * reader
    return 1 if missed else 0


if __name__ == "__main__":
    sys.exit(main())

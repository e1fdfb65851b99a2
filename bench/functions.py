#!/usr/bin/env python3
"""Counts what the step over functions takes of a run of the program, beside reading the document as JSON: functions.py

The program is run once on each document under valgrind's callgrind. Of that run the instructions are told of the step over
functions (`validate_function`, of each), with all that it calls; beside them those of the JSON reader alone, with letting its
value go, in a run of `test_calls json` on the same bytes. Prints a table in Markdown. Both programs have to be built: `rt ci`
leaves them, and so does `rt run` in crates/checker and crates/test_calls. The status is 1 where a target is missed.
"""
import json
import pathlib
import sys
import tempfile

sys.dont_write_bytecode = True
import modules
import run

MOST_SHARE = 0.5
STEP = "function_whole::validate::validate_function"


def of_run(kind):
    """A document of so many bytes of a kind of run.py."""
    def made(path, size):
        with open(path, "w") as it:
            run.write_document(it, kind, size)
    return made


def function(expressions, body, arguments=(), result=None):
    return [None, list(arguments), result, [], expressions, body, None]


def document(functions, types=()):
    base = [["u", ["Scalar", "u32"]], ["b", ["Scalar", "bool"]], ["f", ["Scalar", "f32"]], ["v", ["Vector", 4, "f32"]]]
    parts = [1, modules.FLAGS, [], [[], []], False, base + list(types), [None, None, None, []], [[], None], [], [], [], [],
             functions, []]
    return json.dumps(parts, separators=(",", ":"))


def sums(count):
    """One function of sums, each emitted by a statement of its own and made of the one before."""
    expressions = [["Literal", "u32", 1], *(["Binary", "Add", i, 0] for i in range(count))]
    return document([function(expressions, [["Emit", i + 1, i + 2] for i in range(count)])])


def one_range(count):
    """One function of sums, all emitted at once."""
    expressions = [["Literal", "u32", 1], *(["Binary", "Add", i, 0] for i in range(count))]
    return document([function(expressions, [["Emit", 1, count + 1]])])


def small_functions(count):
    """Functions of eight expressions with an argument and a result, each of which calls the one before."""
    def one(index):
        called = [["CallResult", index - 1]] if index else [["Literal", "f32", 0]]
        expressions = [["FunctionArgument", 0], ["Literal", "f32", 1065353216], *called, ["Binary", "Add", 0, 1],
                       ["Binary", "Multiply", 3, 2], ["Math", "Abs", 4, None, None, None], ["Binary", "Less", 5, 1],
                       ["Select", 6, 5, 1]]
        body = [["Emit", 3, 4]] + ([["Call", index - 1, [3], 2]] if index else []) + [
            ["Emit", 4, 8], ["If", 6, [["Return", 7]], []], ["Return", 1]]
        return function(expressions, body, [["x", 2, None]], [2, None])
    return document([one(i) for i in range(count)])


def blocks_of_their_own(count):
    """One function of blocks, each of which emits an expression of its own."""
    expressions = [["Literal", "bool", True], *(["Unary", "LogicalNot", 0] for _ in range(count))]
    body = [["Block", [["Emit", i + 1, i + 2], ["If", i + 1, [], []]]] for i in range(count)]
    return document([function(expressions, body)])


def of_items(made, item):
    def write(path, size):
        with open(path, "w") as it:
            it.write(made(max(1, size // len(item))))
    return write


KINDS = {
    **{name: of_run(kind) for name, kind in run.KINDS.items()},
    "sums, emitted one by one": of_items(sums, '["Binary","Add",100000,0],["Emit",100000,100001],'),
    "sums, emitted at once": of_items(one_range, '["Binary","Add",100000,0],'),
    "small functions that call": of_items(small_functions, json.dumps(json.loads(small_functions(2))[12][1], separators=(",", ":"))),
    "blocks with scopes of their own": of_items(blocks_of_their_own, '["Unary","LogicalNot",0],["Block",[["Emit",100000,100001],["If",100000,[],[]]]],'),
}


def counted(room, path):
    """The instructions of the step over functions and of the JSON reader alone."""
    said = modules.called(room, path)
    step = modules.of_call(said, STEP)
    if not step:
        sys.exit(f"functions: no call of {STEP} was counted")
    return step, modules.json_alone(room, path)


def main():
    modules.are_built()
    missed = False
    print("| document | bytes | the step over functions, million instructions | the JSON reader, million instructions | share |")
    print("|---|---|---|---|---|")
    for name, write in KINDS.items():
        for size in (1 << 17, 1 << 20):
            with tempfile.TemporaryDirectory() as room:
                path = f"{room}/document.json"
                write(path, size)
                step, reader = counted(room, path)
            print(f"| {name} | {size} | {step / 1e6:.2f} | {reader / 1e6:.1f} | {step / reader:.2f} |", flush=True)
            missed = missed or step > MOST_SHARE * reader
    return 1 if missed else 0


if __name__ == "__main__":
    sys.exit(main())

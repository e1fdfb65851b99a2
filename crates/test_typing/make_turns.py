#!/usr/bin/env python3
"""Writes the cases of several documents for one validator, and of what calls leave that are refused memory: make_turns.py [OUT].

`turns` is asked of a list of documents: what one validator answers to their modules in turn, each answer as that of a validator
made anew. The others are asked of a document: `Done`, where nothing is refused. `bench/rows.py` refuses each request for memory
of each of these cases in turn. The answers were worked out by hand. OUT is where the files of cases go: where none is given,
turns.jsonl to data/ of test_cases, and left.jsonl, of calls beneath the whole judgement, to data/ beside this script.
"""
import json
import sys
from pathlib import Path

SIX = ["EXPRESSIONS", "BLOCKS", "CONTROL_FLOW_UNIFORMITY", "STRUCT_LAYOUTS", "CONSTANTS", "BINDINGS"]
U32, F32, VEC3, VEC2 = ([None, it] for it in (["Scalar", "u32"], ["Scalar", "f32"], ["Vector", 3, "f32"], ["Vector", 2, "f32"]))
ACCEPTED = "Accepted"


def refused(step, index):
    return f"Refused(Refused({step}, {index}))"


def document(types=(), globals=(), functions=(), entries=(), capabilities=(), special=None, returns=False):
    parts = [1, SIX, capabilities, [[], []], returns, types, [special, None, None, []], [[], None], [], [], [], globals, functions, entries]
    return json.dumps(parts, separators=(",", ":"))


def function(expressions=(), body=(), arguments=(), result=None):
    return [None, arguments, result, [], expressions, body, None]


def entry(expressions=(), body=()):
    return ["Compute", "main", None, [1, 1, 1], None, None, function(expressions, body)]


def call(callee, arguments=(), result=None):
    return ["Call", callee, arguments, result]


BUFFER = [None, ["Storage", ["LOAD", "STORE"]], [0, 0], 0, None, []]
LOADS = function([["GlobalVariable", 0], ["Load", 0]], [["Emit", 1, 2]])
LOADS_TWO = function([["GlobalVariable", 0], ["Load", 0], ["GlobalVariable", 1], ["Load", 2]], [["Emit", 1, 2], ["Emit", 3, 4]])
CALLS = [entry(body=[call(0)])]

# an entry point whose callee loads a buffer; the same, where it loads another buffer of the same binding; a result in two blocks
ONE_BUFFER = document([U32], [BUFFER], [LOADS], CALLS)
TWO_BUFFERS = document([U32], [BUFFER, BUFFER], [LOADS_TWO], CALLS)
TWO_RESULTS = document([U32], functions=[
    function([["Literal", "u32", 0]], [["Return", 0]], result=[0, None]),
    function([["CallResult", 0]], [["Block", [call(0, result=0)]], ["Block", [call(0, result=0)]]])])

# functions that trace rays with a payload of the type f32 or u32
RAY = [None, ["Struct", [[None, 0, None, 0], [None, 0, None, 12], [None, 1, None, 16], [None, 1, None, 20], [None, 2, None, 32],
                         [None, 2, None, 48]], 64]]
PAYLOADS = [[None, "RayPayload", None, 1, None, []], [None, "RayPayload", None, 0, None, []], [None, "Handle", [0, 0], 4, None, []]]


def traces(payload):
    return function([["GlobalVariable", 2], ["ZeroValue", 3], ["GlobalVariable", payload]],
                    [["RayPipelineFunction", ["TraceRay", 0, 1, 2]]])


def rays(*functions):
    types = [U32, F32, VEC3, RAY, [None, ["AccelerationStructure", False]]]
    return document(types, PAYLOADS, functions, capabilities=["RAY_TRACING_PIPELINE"], special=3)


BREAKS = function(body=[["Break"]])
F32_THEN_REFUSED, U32_TRACED, BOTH = rays(traces(0), BREAKS), rays(traces(1)), rays(traces(0), traces(1))

# types of each kind that is laid out, and a function whose result no return gives
TYPES = document([U32, F32, VEC2, VEC3, RAY, [None, ["Matrix", 4, 3, "f32"]], [None, ["Array", 3, ["Constant", 4], 16]],
                  [None, ["Array", 4, ["Dynamic"], 64]]])
SIDES = document([U32], functions=[function([["Literal", "bool", True]], [["If", 0, [], []]]), function(body=[["Block", []]])],
                 entries=[entry(body=[["Loop", [["Break"]], [], None]])])


def turns(name, *pairs):
    return [name, "turns", json.dumps([text for text, _ in pairs]), f"[{', '.join(answer for _, answer in pairs)}]"]


CASES = [
    turns("two buffers, one, two results, one", (TWO_BUFFERS, refused("Entry", 0)), (ONE_BUFFER, ACCEPTED),
          (TWO_RESULTS, refused("Function", 1)), (ONE_BUFFER, ACCEPTED)),
    turns("payloads of f32, then of u32", (F32_THEN_REFUSED, refused("Function", 1)), (U32_TRACED, ACCEPTED),
          (BOTH, refused("Function", 1)), (U32_TRACED, ACCEPTED), (F32_THEN_REFUSED, refused("Function", 1)), (U32_TRACED, ACCEPTED)),
    turns("one buffer twice", (ONE_BUFFER, ACCEPTED), (ONE_BUFFER, ACCEPTED)),
    ["a report", "left of a report", ONE_BUFFER, "Done"],
]


LOW_CASES = [
    ["layouts", "left of layouts", TYPES, "Done"],
    ["functions and entry points that are kept", "left of functions", document(), "Done"],
    ["a copy of a module", "left of a copy", TWO_RESULTS, "Done"],
    ["returns", "left of returns", SIDES, "Done"],
]


def write(out, name, cases):
    lines = "".join(json.dumps(it, separators=(",", ":")) + "\n" for it in cases)
    (out / name).write_text(lines, encoding="utf-8")
    print(f"{name}: {len(cases)} cases, {len(lines.encode())} bytes")


def run():
    own = Path(__file__).resolve().parent
    write(Path(sys.argv[1]) if len(sys.argv) > 1 else own.parent / "test_cases/data", "turns.jsonl", CASES)
    write(Path(sys.argv[1]) if len(sys.argv) > 1 else own / "data", "left.jsonl", LOW_CASES)


if __name__ == "__main__":
    run()

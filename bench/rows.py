#!/usr/bin/env python3
"""Refuses each request for memory of a run in turn, on a few documents and on library calls: rows.py [--program FILE] [--calls FILE] [--typing FILE]

First the program (crates/checker/out/checker) on nine documents, from an empty module to images that are passed on: the Nth
request is refused, N from 1 until a run makes fewer. A run that is refused one ends with status 2, writes nothing, and says
`fault: memory`, or it can do without and gives the document's own answer, as does the first that is refused none.

Then `test_cases` on each line of its data/turns.jsonl alone, and `test_typing` on each of its data/left.jsonl, where `rt ci` leaves
these programs (crates/NAME/out/NAME) or where the arguments say. `Done` becomes `AsBefore`
where the call is refused, and of several modules in turn one answer becomes `Memory`, the others staying as they are; or the call
can do without and answers the same. Where the refused request is another one, such as one to print, the program ends with an error.

Prints for each how many requests were refused in turn, and of the calls how often the call itself was refused. Needs a C compiler
and glibc, and both programs built (`rt ci` leaves them). The status is 1 where anything else comes.
"""
import argparse
import json
import os
import re
import subprocess
import sys
import tempfile
from pathlib import Path

TOP = Path(__file__).resolve().parent.parent
CRATES = TOP / "crates"
SIX = ["EXPRESSIONS", "BLOCKS", "CONTROL_FLOW_UNIFORMITY", "STRUCT_LAYOUTS", "CONSTANTS", "BINDINGS"]
FAULT = 2, "", "fault: memory\n"
# the descriptor that refuse.c writes the number of requests to
COUNT = 9
U32, VEC2, VEC3 = ["Scalar", "u32"], ["Vector", 2, "f32"], ["Vector", 3, "u32"]


def document(types=(), globals=(), functions=(), entries=(), returns=False, capabilities=()):
    # a type is a name and its kind; without a name it is its kind alone
    types = [it if isinstance(it[1], list) else [None, it] for it in types]
    parts = [1, SIX, capabilities, [[], []], returns, types, [None, None, None, []], [[], None], [], [], [], globals, functions, entries]
    return json.dumps(parts, separators=(",", ":"))


def function(expressions=(), body=(), arguments=(), result=None):
    return [None, arguments, result, [], expressions, body, None]


def compute(expressions=(), body=()):
    return ["Compute", "main", None, [1, 1, 1], None, None, function(expressions, body)]


def call(callee, arguments=(), result=None):
    return ["Call", callee, arguments, result]


def image_and_sampler():
    image = [None, ["Image", "D2", False, ["Sampled", "Float", False]]]
    globals = [[None, "Handle", [0, 0], 1, None, []], [None, "Handle", [0, 1], 2, None, []]]
    arguments = [[None, 1, None], [None, 2, None]]
    taken = [["FunctionArgument", 0], ["FunctionArgument", 1]]
    sample = [["ZeroValue", 0], ["ImageSample", 0, 1, None, 2, None, None, ["Zero"], None, False]]
    functions = [function([*taken, *sample], [["Emit", 3, 4]], arguments), function(taken, [call(0, [0, 1])], arguments)]
    entry = compute([["GlobalVariable", 0], ["GlobalVariable", 1]], [call(1, [0, 1])])
    return document([VEC2, image, [None, ["Sampler", False]]], globals, functions, [entry])


def payload(capabilities):
    size = [None, [], [1, ["BuiltIn", "MeshTaskSize"]], [], [["ZeroValue", 1]], [["Return", 0]], None]
    return document([U32, VEC3], [[None, "TaskPayload", None, 0, None, []]], entries=[["Task", "t", None, [1, 1, 1], None, 0, size]],
                    capabilities=capabilities)


BUFFER = [None, ["Storage", ["LOAD", "STORE"]], [0, 0], 0, None, []]
DOCUMENTS = {
    "an empty module": (document(), "accepted\n"),
    "two equal types": (document([["a", U32], ["a", U32]]), "refused document\n"),
    "two types of two names": (document([["a", U32], ["b", U32]]), "accepted\n"),
    "a case that breaks, returns put in": (
        document([U32], functions=[function([["Literal", "u32", 0]], [["Switch", 0, [[["Default"], [["Break"]], False]]]],
                                            result=[0, None])], returns=True), "accepted\n"),
    "a callee that loads a buffer": (
        document([U32], [BUFFER], [function([["GlobalVariable", 0], ["Load", 0]], [["Emit", 1, 2]])], [compute(body=[call(0)])]),
        "accepted\nbuffer 0 size 4 alignment 4\nentry 0\nglobal 0 read\n"),
    "an image and a sampler passed on": (image_and_sampler(), "accepted\nentry 0\nglobal 0 read\nglobal 1 read\nsample 0 1\n"),
    "one result in two blocks": (
        document([U32], functions=[
            function([["Literal", "u32", 0]], [["Return", 0]], result=[0, None]),
            function([["CallResult", 0]], [["Block", [call(0, result=0)]], ["Block", [call(0, result=0)]]])]), "refused function 1\n"),
    "a task's payload": (payload(["MESH_SHADER"]), "accepted\nentry 0\npayload 0\n"),
    "a task's payload without the capability": (payload([]), "refused global 0\n"),
}


class Run:
    """Runs of a program of which one request for memory is refused."""

    def __init__(self, room, words, folder):
        self.words, self.folder = words, folder
        self.env = {**os.environ, "LD_PRELOAD": f"{room}/librefuse.so"}

    def at(self, number, given=b""):
        """The status and what was written with this request refused, and how many requests there were."""
        os.ftruncate(COUNT, 0)
        os.lseek(COUNT, 0, os.SEEK_SET)
        env = {**self.env, "REFUSE_AT": str(number)}
        ran = subprocess.run(self.words, input=given, capture_output=True, cwd=self.folder, env=env, pass_fds=(COUNT,))
        os.lseek(COUNT, 0, os.SEEK_SET)
        return ran.returncode, ran.stdout.decode(), ran.stderr.decode(), int(os.read(COUNT, 32))


def try_document(run, name, text, due):
    number, faults, own = 1, 0, (0 if due.startswith("accepted") else 1, due, "")
    while True:
        *came, requests = run.at(number, text.encode())
        if requests < number:
            break
        if tuple(came) == FAULT:
            faults += 1
        elif tuple(came) != own:
            return f"{name}: request {number} refused: {came}"
        number += 1
    if tuple(came) != own or not faults:
        return f"{name}: {faults} faults, and then {came}"
    print(f"{name}: each of {number - 1} requests refused in turn, {faults} faults; then {due.splitlines()[0]}", flush=True)
    return None


def is_due(asked, answer, found):
    """Whether this may be found where a call is refused memory, in place of this answer."""
    if asked != "turns":
        return found == "AsBefore"
    due, now = (re.findall(r"Accepted|Memory|Refused\(Refused\([A-Za-z]+, [0-9]+\)\)", it) for it in (answer, found))
    return len(due) == len(now) and sorted(it for one, it in zip(due, now) if one != it) == ["Memory"]


def try_call(run, file, name, asked, answer):
    number, refused = 1, 0
    while True:
        status, out, err, requests = run.at(number)
        if requests < number:
            break
        lines = [it for it in out.split("\n") if it.startswith(f"{name}: not ")]
        if lines:
            found = lines[0].split(", but ", 1)[1]
            # the list of documents is read as JSON, and the JSON reader may be refused memory
            if found != "no list":
                if not is_due(asked, answer, found):
                    return f"{name}: request {number} refused: {found}"
                refused += 1
        number += 1
    if status != 0 or f"{file}: 1 cases, 0 differ" not in out:
        return f"{name}: status {status}, {out!r}, {err!r}"
    print(f"{name}: each of {number - 1} requests refused in turn, {refused} of them of the call", flush=True)
    return None if refused else f"{name}: no request of the call was refused"


def try_calls(room, crate, source, file, program):
    """What is wrong with the calls, each alone in a folder where the program looks for its data."""
    folder = Path(room) / crate
    folder.mkdir()
    (folder / "files.json").write_text("[]")
    for name in re.findall(r'"([a-z]+\.jsonl)"', (CRATES / crate / "src" / source).read_text()):
        (folder / name).write_text("")
    for line in (CRATES / crate / "data" / file).read_text().splitlines():
        (folder / file).write_text(line + "\n")
        name, asked, _, answer = json.loads(line)
        yield try_call(Run(room, [program], folder), file, name, asked, answer)


def main():
    words = argparse.ArgumentParser(description=__doc__.split("\n")[0])
    words.add_argument("--program", default=str(TOP / "crates/checker/out/checker"))
    words.add_argument("--calls", default=str(CRATES / "test_cases/out/test_cases"))
    words.add_argument("--typing", default=str(CRATES / "test_typing/out/test_typing"))
    given = words.parse_args()
    for path in (given.program, given.calls, given.typing):
        if not os.access(path, os.X_OK):
            sys.exit(f"rows: {path} is not built yet")
    with tempfile.TemporaryDirectory() as room:
        compiler = [os.environ.get("CC", "cc"), "-O2", "-fPIC", "-shared", "-o", f"{room}/librefuse.so", str(TOP / "bench/refuse.c")]
        subprocess.run(compiler, check=True)
        counts = os.open(f"{room}/requests", os.O_RDWR | os.O_CREAT)
        os.dup2(counts, COUNT)
        run = Run(room, [given.program], room)
        wrong = [try_document(run, name, *it) for name, it in DOCUMENTS.items()]
        wrong += try_calls(room, "test_cases", "questions.rt", "turns.jsonl", given.calls)
        wrong += try_calls(room, "test_typing", "main.rt", "left.jsonl", given.typing)
    for it in filter(None, wrong):
        print(f"rows: {it}", file=sys.stderr)
    return 1 if any(wrong) else 0


if __name__ == "__main__":
    sys.exit(main())

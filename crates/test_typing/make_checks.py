#!/usr/bin/env python3
"""Writes the cases of the checks of modules up to their overrides: make_checks.py FOLDER [OUT] [--all].

FOLDER has module-checks.jsonl. A line of it is an object with `name`, `document`, `output`, what a program answers that
judges functions as well, but asks for no global variables and no entry points; `fault`, the one fault that stands where it
refuses, or `one_of`, the two that stand there; and `whole`, what it answers with these, where that is something else. OUT is
where the files of cases go, data/ of test_cases where none is given. Without --all the documents are chosen: one for
each fault of each way in which documents were made, and further ones, the shortest first, as far as a file takes less than
LIMIT bytes. The worked rows below are always taken.

`handles` asks whether the handles are in order: the answer is `in order`, or the name of the fault. `checks` asks all steps
up to overrides: the answer is `accepted`, or the step that refuses, the item, and the fault with its parts as the program
prints it. `resolved` asks the same where each override has to have its value; it is asked of documents in which nothing
waits for one, and of worked rows. A case has two answers where either of two faults may be told.
"""
import json
import sys
from pathlib import Path

from make_data import handles, module
from make_infos import capability, error as type_error, lines, nameless, placeless
from make_types import error as resolve_error, handle

LIMIT = 900000
# no step of the module refuses a document that is refused here, or accepted
BEHIND = ("accepted", "accepted entry", "refused function", "refused entry", "refused global")
KINDS = ("const", "override", "runtime")

F32, U32 = [None, ["Scalar", "f32"]], [None, ["Scalar", "u32"]]
WAITING = [[None, 7, 0, None]]


def row(name, asked, answer, types=(), constants=(), overrides=(), expressions=(), flags=None):
    document = module(list(types), [])
    document[8:11] = list(constants), list(overrides), list(expressions)
    if flags is not None:
        document[1] = flags
    return ["rows/" + name, asked, json.dumps(document, separators=(",", ":")), answer]


def struct(offset):
    return [F32, [None, ["Struct", [["a", 0, None, 0], ["b", 0, None, offset]], 8]]]


SUM = [["Literal", "u32", 1], ["Binary", "Add", 0, 0]]
OPEN_SUM = [["Literal", "u32", 1], ["Override", 0], ["Binary", "Add", 0, 1]]
# worked out by hand
ROWS = [
    row("overlap", "checks", "type 1 MemberOverlap { index: 1, offset: 2 }", struct(2)),
    row("no overlap", "checks", "accepted", struct(4)),
    row("sum", "checks", "expression 1 NonFullyEvaluatedConst", [U32], expressions=SUM),
    row("sum that is not asked", "checks", "accepted", [U32], expressions=SUM, flags=[]),
    row("constant of another type", "checks", "constant 0 InvalidType", [U32], [["c", 0, 0]],
        expressions=[["Literal", "f32", 0]]),
    row("override that nothing names", "checks", "override 0 MissingNameAndID", [U32], overrides=[[None, None, 0, None]]),
    row("two overrides of an id", "checks", "override 1 DuplicateID", [U32],
        overrides=[["a", 7, 0, None], ["b", 7, 0, None]]),
    row("abstract literal", "checks", "expression 0 Literal(Width(Abstract))", expressions=[["Literal", "aint", 0]]),
    row("abstract literal that is not asked", "checks", "accepted", expressions=[["Literal", "aint", 0]], flags=[]),
    row("override without a value", "checks", "accepted", [U32], overrides=WAITING),
    row("override without a value", "resolved", "override 0 UninitializedOverride", [U32], overrides=WAITING),
    row("override that is not asked", "resolved", "accepted", [U32], overrides=WAITING, flags=[]),
    row("override with a value", "resolved", "accepted", [U32], overrides=[[None, 7, 0, 0]],
        expressions=[["Literal", "u32", 1]]),
    row("sum that waits", "checks", "accepted", [U32], overrides=[[None, 7, 0, 0]], expressions=OPEN_SUM),
    row("sum that waits", "resolved", "expression 2 NonFullyEvaluatedConst", [U32], overrides=[[None, 7, 0, 0]],
        expressions=OPEN_SUM),
    row("array that waits", "checks", "accepted", [U32, [None, ["Array", 0, ["Pending", 0], 4]]], overrides=WAITING),
    row("array that waits", "resolved", "type 1 UnresolvedOverride(%s)" % handle(1),
        [U32, [None, ["Array", 0, ["Pending", 0], 4]]], overrides=WAITING),
]


def components(document, e):
    """How many scalars an expression adds to a vector."""
    expression, types = document[10][e], document[5]
    form = expression[0]
    if form == "Literal":
        return 1
    if form in ("Splat", "Swizzle"):
        return expression[1]
    places = {"ZeroValue": lambda: expression[1], "Compose": lambda: expression[1],
              "Constant": lambda: document[8][expression[1]][1], "Override": lambda: document[9][expression[1]][2]}
    inner = types[places[form]()][1]
    return inner[1] if inner[0] == "Vector" else 1


def counted(document, e):
    """How many parts a composition has, and how many make its value."""
    _, ty, parts = document[10][e]
    inner = document[5][ty][1]
    if inner[0] == "Vector":
        return sum(components(document, part) for part in parts), inner[1]
    expected = {"Matrix": lambda: inner[1], "Array": lambda: inner[2][1], "Struct": lambda: len(inner[1])}
    return len(parts), expected[inner[0]]()


def compose_error(document, e, fault):
    name = fault[0]
    if name == "Typing":
        return "Typing(%s)" % handle(document[10][e][1])
    if name == "ComponentType":
        return "ComponentType { index: %d }" % fault[1]
    return "ComponentCount { given: %d, expected: %d }" % counted(document, e)


def expression_error(document, e, fault):
    name = fault["name"]
    if name == "Typing":
        return "Typing(%s)" % resolve_error([e, *fault["resolve"]])
    if name == "Compose":
        return "Compose(%s)" % compose_error(document, e, fault["compose"])
    if name == "Literal":
        width = fault["width"]
        inside = width if width == "Abstract" else "%s(%s)" % (width, capability(fault["capability"]))
        return "Literal(Width(%s))" % inside
    return name


def why(document, step, index, fault):
    """A fault as the program tells it, behind the step and the item."""
    if step == "type":
        types = document[5]
        told = type_error(types, index, fault) if fault else nameless(types[index][1])
    elif step == "expression":
        told = expression_error(document, index, fault)
    else:
        told = fault["name"]
    return "%s %d %s" % (step, index, told)


def verdict(case):
    """The step that refuses and the item, or the words of an answer without an item."""
    words = case.get("whole", case["output"]).split()
    if "whole" in case and words[:2] in (["refused", "handles"], ["refused", "document"]):
        return words[1], None
    if words[0] == "accepted" or " ".join(words[:2]) in BEHIND:
        return "accepted", None
    assert "whole" not in case or words[1] in ("handles", "document"), case["name"]
    step = "expression" if words[1] == "typing" else words[1]
    return step, int(words[2]) if len(words) > 2 else None


def faults(case):
    """The faults of which one is told; both of handles where the line does not say which."""
    if "one_of" in case:
        return case["one_of"]
    if "whole" in case:
        return [{"name": "BadHandle"}, {"name": "ForwardDependency"}]
    return [case["fault"]]


def handle_answers(case):
    step, _ = verdict(case)
    if step == "document":
        return ["no document"]
    return [fault["name"] for fault in faults(case)] if step == "handles" else ["in order"]


def check_answers(case, document):
    step, index = verdict(case)
    if step == "document":
        return ["no document"]
    if step == "accepted":
        return [step]
    if step == "handles":
        return ["handles " + fault["name"] for fault in faults(case)]
    return sorted({why(document, step, index, fault) for fault in faults(case)})


def kinds(expressions):
    """How each global expression is known, as a number."""
    found = []
    for expression in expressions:
        form = expression[0]
        if form in ("Literal", "Constant", "ZeroValue"):
            kind = 0
        elif form == "Override":
            kind = 1
        else:
            operands = handles(expression)
            kind = max((found[o] for o in operands), default=0 if form == "Compose" else 2)
        found.append(kind)
    return found


def waits(document):
    """Whether a size, a global expression or an override waits for the value of an override."""
    if any(inner[0] in ("Array", "BindingArray") and inner[2][0] == "Pending" for _, inner in document[5]):
        return True
    if any(init is None for *_, init in document[9]):
        return True
    settled = ("Override", "Compose", "Splat")
    return any(kind == 1 and expression[0] not in settled
               for kind, expression in zip(kinds(document[10]), document[10]))


def name_of(answer):
    """An answer without the item and the parts of the fault."""
    return " ".join(placeless(answer).split()[::2][:2])


def asked(folder):
    """The cases, and what another may lack: a fault, of types its name alone, or how the document was made."""
    for case in lines(folder / "module-checks.jsonl"):
        way, step = case["name"].split("/")[0], verdict(case)[0]
        document = json.loads(case["document"]) if step != "document" else None
        told = {"handles": handle_answers(case), "checks": check_answers(case, document)}
        if step != "document" and (step == "handles" or not waits(document)):
            told["resolved"] = told["checks"]
        for word, answers in told.items():
            whole = word == "checks" and step != "type"
            shown = [answer.split(" ", 2)[-1] if whole else name_of(answer) for answer in answers]
            yield [case["name"], word, case["document"], *answers], {(word, way, step), (word, step, *shown)}


def length(case):
    return len(json.dumps(case, ensure_ascii=False, separators=(",", ":")).encode()) + 1


def chosen(found, everything, turn):
    """The cases that show something new, and of the others those that have a turn, as far as there is room."""
    found = sorted(found, key=lambda x: len(x[0][2]))
    if everything:
        return [case for case, _ in found]
    seen, taken, others = set(), [], []
    for case, marks in found:
        (others if marks <= seen else taken).append(case)
        seen |= marks
    size = sum(map(length, taken))
    for case in sorted(filter(turn, others), key=turn):
        size += length(case)
        if size < LIMIT:
            taken.append(case)
    return taken


def turn_of_order(case):
    """When a further case of `handles` is taken, or 0."""
    return int(case[3] not in ("in order", "no document"))


def turn_of_check(case):
    """When a further case of `checks` is taken, or 0."""
    turns = {"constant": 1, "override": 1, "accepted": 2}
    return turns.get(case[3].split()[0], 0) if case[1] == "checks" else 0


def write(path, cases):
    with open(path, "w", encoding="utf-8") as file:
        for case in cases:
            file.write(json.dumps(case, ensure_ascii=False, separators=(",", ":")) + "\n")
    print(f"{path}: {len(cases)} cases, {path.stat().st_size} bytes")


def main():
    places = [Path(word) for word in sys.argv[1:] if word != "--all"]
    out = places[1] if len(places) > 1 else Path(__file__).resolve().parent.parent / "test_cases/data"
    everything = "--all" in sys.argv
    found = list(asked(places[0]))
    order = [pair for pair in found if pair[0][1] == "handles"]
    checks = [pair for pair in found if pair[0][1] != "handles"]
    write(out / "handles.jsonl", chosen(order, everything, turn_of_order))
    write(out / "checks.jsonl", ROWS + chosen(checks, everything, turn_of_check))


if __name__ == "__main__":
    main()

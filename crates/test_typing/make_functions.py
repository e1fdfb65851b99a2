#!/usr/bin/env python3
"""Writes the cases of the validation of functions: make_functions.py FOLDER [OUT] [--all].

FOLDER has functions.jsonl and whole.jsonl. A line of them is an object with `name`, `document` (the text of a document) and
`output`, what the whole program answers: the former's documents have no global variables and no entry points. Asked are the
documents whose items before the functions, and global variables, are accepted. OUT is where the file of cases goes, data/ of
test_cases where none is given. Without --all the shortest documents are chosen, EACH for each thing that they show,
and one for each set of flags; the worked rows below are always taken.

The answer is `accepted`, or the first function that is refused, or else the first entry point's, with the error as
model_functions.py tells it, as the program shows it; where an entry point is refused for something else, its document is left out. The model has to refuse what the corpus says is refused. A case has two answers where either of
two errors may be told, and is left out where one of more.
"""
import json
import sys
from pathlib import Path

from make_data import SIX, module
from model_functions import Function, Module, places, shown

EACH = 2

# ---- worked out by hand

BOOL, U32, F32 = ([None, ["Scalar", word]] for word in ("bool", "u32", "f32"))
TRUTHS = [["Literal", "bool", True], ["Unary", "LogicalNot", 0], ["Unary", "LogicalNot", 1]]
ANSWERING = [None, [], [0, None], [], [["Literal", "u32", 0]], [["Return", 0]], None]
DEFAULT = ["Default"]
STRICT = [*SIX, "strict-scope"]
RAY = [U32, F32, [None, ["Vector", 3, "f32"]],
       ["RayDesc", ["Struct", [["flags", 0, None, 0], ["cull_mask", 0, None, 4], ["tmin", 1, None, 8], ["tmax", 1, None, 12],
                               ["origin", 2, None, 16], ["dir", 2, None, 32]], 48]],
       [None, ["AccelerationStructure", False]]]
EXCHANGED = [U32, [None, ["Atomic", "u32"]], BOOL,
             [None, ["Struct", [["old_value", 0, None, 0], ["exchanged", 2, None, 4]], 8]]]
WIDE, EXTREMA = [[None, ["Scalar", "u64"]], [None, ["Atomic", "u64"]]], ["SHADER_INT64", "SHADER_INT64_ATOMIC_MIN_MAX"]


def storage(ty, *access, place=0):
    return [None, ["Storage", list(access)], [0, place], ty, None, []]


def f(expressions, body, arguments=(), locals=()):
    return [None, [[None, ty, None] for ty in arguments], None, [[None, ty, None] for ty in locals], expressions, body, None]


def row(name, answer, functions, types=(), flags=SIX, capabilities=(), subgroups=((), ()), returns=False, special=None,
        filters=None, globals=()):
    document = module(list(types), functions=functions)
    document[1:5] = list(flags), list(capabilities), [list(it) for it in subgroups], returns
    document[6], document[7] = special or document[6], filters or document[7]
    document[11] = list(globals)
    answers = [answer] if isinstance(answer, str) else answer
    return ["rows/" + name, "functions", json.dumps(document, separators=(",", ":")), *answers]


def truths(name, answer, *body, **more):
    return row(name, answer, [f(TRUTHS, list(body))], **more)


def image(name, answer, format, access, body, **more):
    """What is done with a storage image of one layer, a texel of it and a number."""
    types = [U32, [None, ["Vector", 2, "u32"]], [None, ["Image", "D2", False, ["Storage", format, access]]]]
    expressions = [["GlobalVariable", 0], ["ZeroValue", 1], ["ZeroValue", 0]]
    return row(name, answer, [f(expressions, [body])], types=types, globals=[[None, "Handle", [0, 0], 2, None, []]], **more)


def trace(name, answer, payload, expressions=(), **more):
    """A ray that is traced in an argument, as a zero value describes it."""
    given = [["FunctionArgument", 0], ["ZeroValue", 3], *expressions]
    body = [["RayPipelineFunction", ["TraceRay", 0, 1, payload]]]
    return row(name, answer, [f(given, body, arguments=[4])], types=RAY, capabilities=["RAY_TRACING_PIPELINE"],
               special=[3, None, None, []], **more)


def atomic(name, answer, fun, result, expressions=(), types=EXCHANGED, space=None, **more):
    variable = [None, space, None, 1, None, []] if space else storage(1, "LOAD", "STORE")
    given = [["GlobalVariable", 0], ["ZeroValue", 0], *expressions]
    return row(name, answer, [f(given, [["Atomic", 0, fun, 1, result]])], types=types, globals=[variable], **more)


def sampled(name, answer, picture, more=()):
    types = [[None, ["Vector", 2, "f32"]], [None, ["Image", "D2", False, ["Sampled", "Float", False]]],
             [None, ["Sampler", False]]]
    expressions = [["FunctionArgument", 0], ["FunctionArgument", 1], ["ZeroValue", 0], ["Literal", "bool", True], *more,
                   ["ImageSample", picture, 1, None, 2, None, None, ["Zero"], None, False]]
    return row(name, answer, [f(expressions, [], arguments=[1, 2])], types=types)


def matrix_stored(name, answer, target, variable):
    types = [U32, [None, ["CooperativeMatrix", 8, 8, "f32", "C"]], F32]
    expressions = [["GlobalVariable", 0], ["ZeroValue", 0], ["ZeroValue", 1]]
    return row(name, answer, [f(expressions, [["CooperativeStore", target, 0, 1, False]])], types=types,
               capabilities=["COOPERATIVE_MATRIX"], globals=[variable])


SLOPE = [[None, [["c", 0, None]], None, [], [["FunctionArgument", 0], ["Literal", "f32", 0], ["Derivative", "X", "None", 1]],
          [["If", 0, [["Emit", 2, 3]], []]], None]]
BALLOT = [f(TRUTHS, [["Emit", 1, 2], ["SubgroupBallot", 3, 1]])]
BALLOT[0][4] = TRUTHS + [["SubgroupBallotResult"]]
CALLED = [ANSWERING, f([["CallResult", 0]], [["Call", 0, [], 0]])]
TAKING = [None, [["x", 0, None]], None, [], [], [], None]
ROWS = [
    truths("emitted twice", "function 0 ExpressionAlreadyInScope 1", ["Emit", 1, 2], ["Emit", 1, 2]),
    truths("emitted in two blocks", "accepted", ["Block", [["Emit", 1, 2]]], ["Block", [["Emit", 1, 2]]]),
    truths("literal emitted", "function 0 ExpressionAlreadyInScope 0", ["Emit", 0, 1]),
    truths("operand not emitted", "accepted", ["Emit", 2, 3]),
    truths("used behind its block", "function 0 Expression 1 NotInScope", ["Block", [["Emit", 1, 2]]], ["If", 1, [], []]),
    row("emitted in two functions", "accepted", [f(TRUTHS, [["Emit", 1, 2]])] * 2),
    row("used in the next case", "function 0 Expression 1 NotInScope",
        [f(TRUTHS[:2] + [["Literal", "u32", 0]],
           [["Switch", 2, [[["U32", 1], [["Emit", 1, 2]], True], [DEFAULT, [["If", 1, [], []]], False]]]])]),
    truths("condition behind a continue", "accepted", ["Loop", [["If", 0, [["Continue"]], []], ["Emit", 1, 2]], [], 1]),
    truths("condition from the continuing part", "accepted", ["Loop", [], [["Emit", 1, 2]], 1]),
    truths("emitted in both parts", "function 0 ExpressionAlreadyInScope 1",
           ["Loop", [["Emit", 1, 2]], [["Emit", 1, 2]], None]),
    truths("break in no loop", "function 0 BreakOutsideOfLoopOrSwitch", ["Break"]),
    truths("return in a continuing part", "function 0 InvalidReturnSpot", ["Loop", [], [["Return", None]], None]),
    row("call that answers", "accepted", CALLED, types=[U32]),
    row("call that answers, blocks alone", "function 1 InvalidCall 0 ResultAlreadyPopulated 0", CALLED, types=[U32],
        flags=["BLOCKS"]),
    row("strict scope, a ballot that names another kind", "function 0 StrictResultMismatch 1", [f(TRUTHS, [["SubgroupBallot", 1, None]])],
        flags=STRICT, capabilities=["SUBGROUP"], subgroups=((), ("BALLOT",))),
    row("strict scope, an operand that is not emitted", "function 0 Expression 1 NotInScope", [f(TRUTHS, [["Emit", 2, 3]])], flags=STRICT),
    row("answer of no call", "function 1 UnvisitedExpression 0", [ANSWERING, f([["CallResult", 0]], [])], types=[U32]),
    row("answer of two calls", "function 1 InvalidCall 0 ResultAlreadyPopulated 0",
        [ANSWERING, f([["CallResult", 0]], [["Block", [["Call", 0, [], 0]]], ["Block", [["Call", 0, [], 0]]]])], types=[U32]),
    row("too few arguments", "function 1 InvalidCall 0 ArgumentCount 1 0", [TAKING, f([], [["Call", 0, [], None]])],
        types=[U32]),
    row("too few arguments, nothing asked", "function 1 InvalidCall 0 ArgumentCount 1 0",
        [TAKING, f([], [["Call", 0, [], None]])], types=[U32], flags=[]),
    row("no value", "accepted", [[None, [], [0, None], [], [], [], None]], types=[U32]),
    row("return without a value", "function 0 InvalidReturnType - 0", [[None, [], [0, None], [], [], [], None]], types=[U32],
        returns=True),
    row("slope where few are", "function 0 NonUniformControlFlow 2 2", SLOPE, types=[BOOL, F32]),
    row("slope that is not asked", "accepted", SLOPE, types=[BOOL, F32],
        flags=[word for word in SIX if word != "CONTROL_FLOW_UNIFORMITY"]),
    row("slope under a filter", "accepted", SLOPE, types=[BOOL, F32],
        filters=[[["Off", ["Standard", "DerivativeUniformity"], None]], 0]),
    row("ballot", "accepted", BALLOT, capabilities=["SUBGROUP"], subgroups=[[], ["BALLOT"]]),
    row("ballot that is not allowed", "function 0 InvalidSubgroup UnsupportedOperation 8", BALLOT, capabilities=["SUBGROUP"]),
    image("texel changed", "accepted", "R32Uint", ["ATOMIC"], ["ImageAtomic", 0, 1, None, ["Max"], 2],
          capabilities=["TEXTURE_ATOMIC"]),
    image("texel changed by a subtraction", "function 0 InvalidImageAtomicFunction Subtract", "R32Uint", ["ATOMIC"],
          ["ImageAtomic", 0, 1, None, ["Subtract"], 2], capabilities=["TEXTURE_ATOMIC"]),
    image("texel changed of no image", "function 0 InvalidImageAtomic ExpectedGlobalVariable", "R32Uint", ["ATOMIC"],
          ["ImageAtomic", 2, 1, None, ["Max"], 2], capabilities=["TEXTURE_ATOMIC"]),
    row("texel written in an element of no array of images", "function 0 InvalidImageStore ExpectedBindingArrayType 1",
        [f([["GlobalVariable", 0], ["AccessIndex", 0, 0], ["ZeroValue", 0]], [["Emit", 1, 2], ["ImageStore", 1, 2, None, 2]])],
        types=[U32, [None, ["Array", 0, ["Constant", 2], 4]]], globals=[storage(1, "LOAD", "STORE")]),
    trace("payload that is no pointer", "function 0 InvalidPayloadType", 2, [["Literal", "u32", 0]]),
    trace("payload of another space", "function 0 InvalidPayloadAddressSpace Private", 2, [["GlobalVariable", 0]],
          globals=[[None, "Private", None, 0, None, []]]),
    trace("payload", "accepted", 2, [["GlobalVariable", 0]], globals=[[None, "RayPayload", None, 0, None, []]]),
    atomic("changed at once", "accepted", ["Add"], 2, [["AtomicResult", 0, False]]),
    atomic("changed in workgroup memory", "function 0 InvalidAtomic InvalidAddressSpace WorkGroup", ["Add"], None,
           types=[F32, [None, ["Atomic", "f32"]]], space="WorkGroup", capabilities=["SHADER_FLOAT32_ATOMIC"]),
    atomic("wide sum", "function 0 InvalidAtomic MissingCapability 4194304", ["Add"], None, types=WIDE, capabilities=EXTREMA),
    atomic("wide maximum", "accepted", ["Max"], None, types=WIDE, capabilities=EXTREMA),
    atomic("sum with an exchange's answer",
           ["function 0 InvalidAtomic ResultExpressionExchange 2", "function 0 InvalidAtomic ResultTypeMismatch 2"],
           ["Add"], 2, [["AtomicResult", 3, True]]),
    atomic("exchange with a sum's answer",
           ["function 0 InvalidAtomic ResultExpressionNotExchange 2", "function 0 InvalidAtomic ResultTypeMismatch 2"],
           ["Exchange", 1], 2, [["AtomicResult", 0, False]]),
    atomic("exchange", "accepted", ["Exchange", 1], 2, [["AtomicResult", 3, True]]),
    atomic("exchange without an answer", "function 0 InvalidAtomic MissingReturnValue", ["Exchange", None], None),
    atomic("compared and not answered", "accepted", ["Exchange", 0], None),
    sampled("sampled", "accepted", 0),
    sampled("sampled of a choice", "function 0 Expression 5 ExpectedGlobalOrArgument", 4, [["Select", 3, 0, 0]]),
    matrix_stored("matrix stored", "accepted", 2, storage(2, "LOAD", "STORE")),
    matrix_stored("no matrix stored", "function 0 InvalidCooperativeStoreTarget 1", 1, storage(2, "LOAD", "STORE")),
    matrix_stored("matrix stored among integers", "function 0 InvalidCooperativeDataPointer 0", 2, storage(0, "LOAD", "STORE")),
    matrix_stored("matrix stored where it is read", "function 0 InvalidStorePointer 0", 2, storage(2, "LOAD")),
]

# ---- the corpus


def judged(document):
    """The word and the number of the first function that is refused, and the errors of which one is told; else nothing."""
    functions = Module(document)
    refused = functions.refused()
    if refused:
        return ("function", *refused)
    for place, entry in enumerate(document[13]):
        function = Function(functions, entry[-1], True)
        found = function.faults()
        if found:
            return ("entry", place, found)
        functions.take(function)
    return None


def answers(document):
    found = judged(document)
    if found is None:
        return ["accepted"]
    word, place, errors = found
    return sorted(f"{word} {place} {error}" for error in errors)


def agrees(output, found):
    """Whether the corpus may answer so, where the first of these is refused: an entry point has further rules."""
    words = output.split()
    refused = None if found is None else [found[0], str(found[1])]
    if words[1:2] == ["function"]:
        return refused == words[1:3]
    if words[1:2] == ["entry"]:
        return refused is None or (refused[0] == "entry" and int(refused[1]) >= int(words[2]))
    return refused is None


def names(error):
    """The names in an error."""
    return " ".join(part for part in error.split() if part[0].isupper())


def marks(document, told):
    """What a document shows that another may not: kinds of statements and expressions, flags, and errors."""
    yield "flags", told[0].split()[0], *sorted(set(document[1]))
    if told == ["accepted"]:
        for function in document[12] + [entry[-1] for entry in document[13]]:
            yield from (("statement", statement[0], *kind(statement)) for statement in places(function[5]))
            yield from (("expression", expression[0]) for expression in function[4])
    else:
        yield from ((told[0].split()[0], names(answer.split(" ", 2)[2])) for answer in told)


def kind(statement):
    """The second name of a statement that has several kinds."""
    if statement[0] == "RayQuery":
        return statement[2][:1]
    if statement[0] in ("Atomic", "SubgroupCollectiveOperation"):
        return [statement[2][0] if statement[0] == "Atomic" else statement[1]]
    return statement[1][:1] if statement[0] == "SubgroupGather" else []


def beside(words, told):
    """Whether an entry point is refused for what is no matter of functions: what is wrong with one is not what is answered."""
    return words[1:2] == ["entry"] and told[0].split()[:2] != words[1:3]


def cases(folder):
    for name in ("functions.jsonl", "whole.jsonl"):
        for text in open(folder / name, encoding="utf-8"):
            line = json.loads(text)
            words = line["output"].split()
            if words[0] == "accepted" or words[1] in ("function", "entry"):
                document = json.loads(line["document"])
                assert agrees(line["output"], judged(document)), line["name"]
                told = answers(document)
                if len(told) < 3 and not beside(words, told):
                    case = ["%s/%s" % (name[:-6], line["name"]), "functions", line["document"], *told]
                    yield case, set(marks(document, told))


def chosen(found):
    """The shortest documents for each thing that they show, those that show something new first."""
    count, first, more = {}, [], []
    for case, new in sorted(found, key=lambda c: len(c[0][2])):
        if any(count.get(mark, 0) < (1 if mark[0] == "flags" else EACH) for mark in new):
            (more if all(mark in count for mark in new) else first).append(case)
            for mark in new:
                count[mark] = count.get(mark, 0) + 1
    return first + more


def main():
    folders = [Path(word) for word in sys.argv[1:] if word != "--all"]
    out = folders[1] if len(folders) > 1 else Path(__file__).resolve().parent.parent / "test_cases/data"
    for name, _, document, *told in ROWS:
        assert answers(json.loads(document)) == told, (name, answers(json.loads(document)))
    found = list(cases(folders[0]))
    taken = ROWS + ([case for case, _ in found] if "--all" in sys.argv else chosen(found))
    with open(out / "functions.jsonl", "w", encoding="utf-8") as file:
        for *asked, first in ([*case[:3], case[3:]] for case in taken):
            case = asked + [shown(answer) for answer in first]
            file.write(json.dumps(case, ensure_ascii=False, separators=(",", ":")) + "\n")
    print(f"functions.jsonl: {len(taken)} of {len(ROWS) + len(found)} cases")


if __name__ == "__main__":
    main()

#!/usr/bin/env python3
"""Writes the cases of what is found over chains of calls: make_chains.py [OUT].

OUT is where the file of cases goes, data/ beside this script where none is given. The documents are chains of calls of each
depth from 1 to 6, forks of two calls at each level of these depths, and fans of two calls at each of 20 levels. What is
expected is worked out from the definitions, from the function that is asked down along the chains that begin there, and is
told as make_summaries.py tells it.
"""
import json
import sys
from pathlib import Path

from make_summaries import answers

DEPTHS = range(1, 7)
LEVELS = 20

# ---- what a function has over its chains


def operands_of_expression(expression):
    """The operands, each with the use of the global variable that it starts at; the base of an access makes none."""
    kind, *parts = expression
    if kind == "Compose":
        return [(e, "READ") for e in parts[1]]
    if kind == "AccessIndex":
        return [(parts[0], None)]
    if kind == "Load":
        return [(parts[0], "READ")]
    if kind == "ArrayLength":
        return [(parts[0], "QUERY")]
    if kind == "ImageSample":
        return [(parts[place], "READ") for place in (0, 1, 3)]
    assert kind in ("Literal", "ZeroValue", "FunctionArgument", "GlobalVariable", "CallResult"), kind
    return []


def operands_of_statement(statement):
    kind, *parts = statement
    if kind == "Store":
        return [(parts[0], "WRITE"), (parts[1], "READ")]
    if kind == "Call":
        return [(e, "READ") for e in parts[1]]
    if kind in ("If", "Switch"):
        return [(parts[0], "READ")]
    if kind == "Return":
        return [(e, "READ") for e in parts if e is not None]
    assert kind in ("Emit", "Block", "Loop", "Break", "Kill"), kind
    return []


def parts_of(statement):
    """The blocks that stand in a statement."""
    kind, *parts = statement
    if kind == "Switch":
        return [case[1] for case in parts[1]]
    return {"Block": parts[:1], "If": parts[1:3], "Loop": parts[:2]}.get(kind, [])


class Function:
    """A function with all that it does."""

    def __init__(self, written):
        self.count, self.expressions = len(written[1]), written[4]
        self.statements = list(self.all_of(written[5]))
        self.operands = [o for e in self.expressions for o in operands_of_expression(e)]
        self.operands += [o for s in self.statements for o in operands_of_statement(s)]
        self.calls = [(s[1], s[2]) for s in self.statements if s[0] == "Call"]
        self.samplings = [(e, x[1], x[2]) for e, x in enumerate(self.expressions) if x[0] == "ImageSample"]

    def all_of(self, block):
        for statement in block:
            yield statement
            for part in parts_of(statement):
                yield from self.all_of(part)

    def start(self, e):
        """The global variable that a chain of accesses starts at."""
        kind, *parts = self.expressions[e]
        if kind == "GlobalVariable":
            return parts[0]
        return self.start(parts[0]) if kind == "AccessIndex" else None

    def uses(self):
        """The global variables that operands use, each with the use."""
        return {(self.start(e), use) for e, use in self.operands if use and self.start(e) is not None}

    def names(self):
        return {x[1] for x in self.expressions if x[0] == "GlobalVariable"}

    def bound(self, e, bindings):
        """What an expression stands for, where the arguments stand for these."""
        kind, *parts = self.expressions[e]
        if kind == "FunctionArgument":
            return bindings[parts[0]]
        base = self.expressions[parts[0]] if kind == "AccessIndex" else self.expressions[e]
        return ("Global", base[1]) if base[0] == "GlobalVariable" else None

    def own(self):
        """Its arguments, each standing for itself."""
        return tuple(("Argument", number) for number in range(self.count))


def ends(functions, f):
    """The functions at the ends of chains from this one, with what their arguments stand for there. Two chains that end in
    one function with the same bindings show the same, and go on in the same ways."""
    found, left = set(), [(f, functions[f].own())]
    while left:
        end = left.pop()
        if end not in found:
            found.add(end)
            function, bindings = functions[end[0]], end[1]
            left += [(g, tuple(function.bound(e, bindings) for e in passed)) for g, passed in function.calls]
    return found


def uses_of(functions, f):
    """What is used directly at an end, and QUERY for what is named there while nothing from there uses it directly."""
    used = set()
    for h in {h for h, _ in ends(functions, f)}:
        used |= functions[h].uses()
        below = {g for k, _ in ends(functions, h) for g, _ in functions[k].uses()}
        used |= {(g, "QUERY") for g in functions[h].names() - below}
    return used


def pairs_of(functions, f):
    """The images and samplers of all samplings at ends."""
    pairs = {(functions[h].bound(image, bindings), functions[h].bound(sampler, bindings))
             for h, bindings in ends(functions, f) for _, image, sampler in functions[h].samplings}
    return sorted(pair for pair in pairs if None not in pair)


def wrong_forms(functions, f):
    """Samplings of what stands for nothing, and what stands for nothing and is passed for what a callee samples."""
    function = functions[f]
    own = function.own()
    wrong = {e for e, *parts in function.samplings if None in [function.bound(part, own) for part in parts]}
    for g, passed in function.calls:
        asked = {part[1] for pair in pairs_of(functions, g) for part in pair if part[0] == "Argument"}
        wrong |= {passed[number] for number in asked if function.bound(passed[number], own) is None}
    return sorted(wrong)


def varies(variable):
    """Whether what lies in a global variable may differ between invocations."""
    space = variable[1]
    return space == "Private" or space[0] == "Storage" and "STORE" in space[1]


def sources(function, e, globals_):
    """The expressions that are not the same in all invocations and that a value comes from."""
    kind, *parts = function.expressions[e]
    own = kind in ("FunctionArgument", "CallResult") or kind == "GlobalVariable" and varies(globals_[parts[0]])
    below = [sources(function, o, globals_) for o, _ in operands_of_expression(function.expressions[e])]
    return sorted(set(sum(below, [e] * own)))


def info(functions, f, globals_):
    """What is kept of a function."""
    function, used = functions[f], uses_of(functions, f)
    count = range(len(function.expressions))
    return {
        "may_kill": any(s[0] == "Kill" for h, _ in ends(functions, f) for s in functions[h].statements),
        "uses": [[g, [use for of, use in sorted(used) if of == g]] for g in range(len(globals_))],
        "pairs": pairs_of(functions, f),
        "ref_counts": [sum(o == e for o, _ in function.operands) for e in count],
        "assignable_globals": [function.start(e) for e in count],
        "sources": [sources(function, e, globals_) for e in count],
        "requirements": [[e, "IMPLICIT_LEVEL"] for e, *_ in function.samplings if function.expressions[e][7] == ["Auto"]],
    }


def asked(document):
    """What is found of each function, and then of each entry point."""
    globals_, count = document[11], len(document[12])
    functions = [Function(f) for f in document[12] + [entry[6] for entry in document[13]]]
    found = []
    for f in range(len(functions)):
        wrong = [["ExpectedGlobalOrArgument", e] for e in wrong_forms(functions, f)]
        told = {"refused": wrong} if wrong else {"info": info(functions, f, globals_)}
        found.append({"tests": [True] * 5, **told})
        if wrong:
            break
    return {"functions": found[:count], "entries": found[count:]}


# ---- documents

SCALAR, VECTOR, IMAGE, SAMPLER, IMAGES, ARRAY = range(6)
TYPES = [[None, ["Scalar", "f32"]], [None, ["Vector", 2, "f32"]],
         [None, ["Image", "D2", False, ["Sampled", "Float", False]]], [None, ["Sampler", False]],
         [None, ["BindingArray", IMAGE, ["Constant", 4]]], [None, ["Array", SCALAR, ["Dynamic"], 4]]]
FLAGS = ["EXPRESSIONS", "BLOCKS", "CONTROL_FLOW_UNIFORMITY", "STRUCT_LAYOUTS", "CONSTANTS", "BINDINGS"]
RESOURCES = [IMAGE, IMAGE, IMAGE, SAMPLER, SAMPLER, IMAGES]
ELEMENTS, PRIVATE, LENGTHS = 5, 6, 7


def document(functions, entries=(), more=0):
    """A document of these functions, with resources, a private variable, an array, and more private variables."""
    globals_ = [[None, "Handle", [0, place], ty, None, []] for place, ty in enumerate(RESOURCES)]
    globals_ += [[None, "Private", None, SCALAR, None, []], [None, ["Storage", ["LOAD"]], [1, 0], ARRAY, None, []]]
    globals_ += [[None, "Private", None, SCALAR, None, []] for _ in range(more)]
    points = [["Fragment", "main", None, [0, 0, 0], None, None, entry] for entry in entries]
    return [1, FLAGS, [], [[], []], False, TYPES, [None, None, None, []], [[], None], [], [], [], globals_, list(functions),
            points]


def function(images, samplers, expressions, body, result=None):
    """A function whose arguments are so many images and then so many samplers; its first expressions are these."""
    arguments = [IMAGE] * images + [SAMPLER] * samplers
    own = [["FunctionArgument", number] for number in range(len(arguments))]
    return [None, [[None, ty, None] for ty in arguments], result, [], own + expressions, body, None]


def bottom(images, samplers, *body):
    """It samples its first image by its first sampler, and stores into the private variable."""
    count = images + samplers
    level = ["Auto"] if images == 1 else ["Zero"]
    expressions = [["Literal", "f32", 0], ["Compose", VECTOR, [count, count]],
                   ["ImageSample", 0, images, None, count + 1, None, None, level, None, False], ["GlobalVariable", PRIVATE]]
    return function(images, samplers, expressions, [["Emit", count + 1, count + 3], ["Store", count + 3, count], *body])


def call(f, passed):
    return ["Call", f, passed, None]


def inside(statement):
    """The statement in a block, a choice, a switch and a loop, each of which is taken by all invocations alike."""
    switch = ["Switch", 1, [[["U32", 0], [statement], False], [["Default"], [], False]]]
    return ["Block", [["If", 0, [["Loop", [switch, ["Break"]], [], None]], []]]]


def entry(f, passed, *body):
    """An entry point that passes these global variables."""
    expressions = [["GlobalVariable", g] for g in passed]
    return function(0, 0, expressions, [call(f, list(range(len(passed)))), *body])


def handed_on(depth):
    """Each level hands its image and its sampler on. It names the variable that is stored into and the array."""
    named = [["GlobalVariable", PRIVATE], ["GlobalVariable", LENGTHS]]
    levels = [function(1, 1, named, [call(f, [0, 1])]) for f in range(depth)]
    return document([bottom(1, 1, ["Kill"]), *levels], [entry(depth, [0, 3])])


def exchanged(depth):
    """Each level hands on another of its images in place of the first, and another sampler."""
    levels = [function(3, 2, [], [call(f, [1, 2, 0, 4, 3])]) for f in range(depth)]
    return document([bottom(3, 2), *levels], [entry(depth, [0, 1, 2, 3, 4])])


def element(depth):
    """All calls stand in other statements. The level in the middle passes an image of its own, out of an array."""
    own = [["GlobalVariable", ELEMENTS], ["AccessIndex", 4, 1]]
    values = [["Literal", "bool", True], ["Literal", "u32", 0]]
    levels = []
    for f in range(depth):
        passed = 5 if f == depth // 2 else 2
        level = function(0, 0, values, [["Emit", 5, 6], inside(call(f, [passed, 3]))])
        level[1] = [[None, IMAGE, None], [None, SAMPLER, None]]
        level[4] += [["FunctionArgument", 0], ["FunctionArgument", 1], *own]
        levels.append(level)
    return document([bottom(1, 1), *levels], [entry(depth, [2, 4])])


def wrong(depth):
    """The level at the top passes a number where the bottom samples; those below pass one where it doesn't."""
    passed = [["Literal", "f32", 0]]
    levels = [function(2, 1, passed, [call(f, [0, 3, 2] if f + 1 < depth else [3, 0, 2])]) for f in range(depth)]
    return document([bottom(2, 1), *levels], [entry(depth, [0, 1, 3])])


def own_globals(depth):
    """Each level loads a variable of its own, and asks how long the array is."""
    more = PRIVATE + 2
    levels = []
    for f in range(depth):
        expressions = [["GlobalVariable", more + f], ["Load", 2], ["GlobalVariable", LENGTHS], ["ArrayLength", 4]]
        levels.append(function(1, 1, expressions, [["Emit", 3, 4], ["Emit", 5, 6], call(f, [0, 1])]))
    return document([bottom(1, 1, ["Kill"]), *levels], [entry(depth, [1, 4])], depth)


def forked(depth):
    """Each level calls the one below twice: once with its images in another order, once with its samplers."""
    levels = [function(3, 2, [], [call(f, [1, 2, 0, 3, 4]), call(f, [0, 1, 2, 4, 3])]) for f in range(depth)]
    return document([bottom(3, 2), *levels], [entry(depth, [0, 1, 2, 3, 4])])


def twice(depth):
    """Each level calls the one below twice, once with its two images exchanged."""
    levels = [function(2, 1, [], [call(f, [0, 1, 2]), call(f, [1, 0, 2])]) for f in range(depth)]
    return document([bottom(2, 1), *levels], [entry(depth, [0, 1, 3]), entry(depth, [2, 2, 4], ["Kill"])])


def alike(depth):
    """Each level calls the one below twice in the same way, and loads a variable of its own between."""
    made = own_globals(depth)
    for f in range(depth):
        made[12][f + 1][5].insert(0, call(f, [0, 1]))
    return made


def wrong_fan(depth):
    """As in a fan that exchanges images, but that the top passes a number in its second call."""
    made = twice(depth)
    made[12][depth][4].append(["Literal", "f32", 0])
    made[12][depth][5][1][2] = [1, 3, 2]
    return made


def answer_alone():
    """A function that has an expression for the answer of another one and does not call it; one that calls it."""
    answering = bottom(1, 1, ["Return", 2])
    answering[2] = [SCALAR, None]
    alone = function(1, 1, [["CallResult", 0]], [])
    calling = function(1, 1, [["CallResult", 0]], [["Call", 0, [0, 1], 2]])
    return document([answering, alone, calling])


def loaded():
    """An entry point that calls a function that loads."""
    made = document([function(0, 0, [["GlobalVariable", 0], ["Load", 0]], [["Emit", 1, 2]])], [entry(0, [])])
    made[5] = [[None, ["Scalar", "u32"]]]
    made[11] = [[None, ["Storage", ["LOAD", "STORE"]], [0, 0], 0, None, []]]
    return made


def sampled():
    """An entry point that passes an image and a sampler to a function that hands them on to one that samples."""
    sample = ["ImageSample", 0, 1, None, 2, None, None, ["Zero"], None, False]
    sampling = function(1, 1, [["ZeroValue", VECTOR], sample], [["Emit", 3, 4]])
    return document([sampling, function(1, 1, [], [call(0, [0, 1])])], [entry(1, [0, 3])])


def all_documents():
    for name, made in (("handed on", handed_on), ("exchanged", exchanged), ("an element", element), ("wrong", wrong),
                       ("own globals", own_globals), ("forked", forked)):
        for depth in DEPTHS:
            yield f"chains/{name}/{depth}", made(depth)
    for name, made in (("forked", forked), ("exchanged", twice), ("alike", alike), ("wrong", wrong_fan)):
        yield f"fans/{name}", made(LEVELS)
    yield "chains/answer alone", answer_alone()
    yield "chains/loaded", loaded()
    yield "chains/sampled", sampled()


def main():
    out = Path(sys.argv[1]) if len(sys.argv) > 1 else Path(__file__).resolve().parent / "data"
    with open(out / "chains.jsonl", "w", encoding="utf-8") as file:
        for name, made in all_documents():
            text = json.dumps(made, separators=(",", ":"))
            told = answers({"document": text, **asked(made)})
            assert told is not None, name
            file.write(json.dumps([name, "summaries", text, *told], separators=(",", ":")) + "\n")


if __name__ == "__main__":
    main()

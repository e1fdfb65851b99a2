#!/usr/bin/env python3
"""Writes the cases of what is found of functions: make_summaries.py CORPUS [OUT] [--all].

A line of the corpus is an object with `name`, `document` (the text of a document) and, for each function (`functions`) and
each entry point (`entries`), the answers of the five tests of its handles (`tests`), and what the analysis finds (`info`) or
the faults of which it tells one (`refused`). OUT is where the file of cases goes, data/ beside this script where none is
given. Without --all the shortest documents are chosen, a few for each thing that they show.

The answer is a line for each function up to the first of which nothing is found, and then for each entry point: whether it
may end the fragment, the bits of the use of each global variable, the pairs of images and samplers by their places in the
row of all global variables and then all arguments, those of two global variables once more, as the set has them in order,
and for each expression how often it is used, the global variable that it starts at, an `n` where it is not the same in all
invocations, and the bits of what it asks for; or why it is refused. A case has two answers where either of two faults may
be told, and is left out where one of more.
"""
import itertools
import json
import sys
from pathlib import Path

from make_types import error

USES = {"READ": 1, "WRITE": 2, "QUERY": 4, "ATOMIC": 8}
REQUIREMENTS = {"WORK_GROUP_BARRIER": 1, "DERIVATIVE": 2, "IMPLICIT_LEVEL": 4, "COOP_OPS": 8}
EACH = 2


def place(part, globals_):
    return part[1] + (globals_ if part[0] == "Argument" else 0)


def info_told(info, globals_):
    uses = {g: sum(USES[w] for w in words) for g, words in info["uses"]}
    asks = {e: REQUIREMENTS[w] for e, w in info["requirements"]}
    pairs = sorted((place(i, globals_), place(s, globals_)) for i, s in info["pairs"])
    told = "kills " if info["may_kill"] else "ends "
    told += "".join("%d." % uses.get(g, 0) for g in range(globals_)) + " "
    told += "".join("%d-%d." % pair for pair in pairs) + " "
    told += "".join("%d-%d." % pair for pair in pairs if max(pair) < globals_) + " "
    for e, count in enumerate(info["ref_counts"]):
        start = info["assignable_globals"][e]
        told += "%d%s%sr%d;" % (count, "" if start is None else "g%d" % start, "n" if info["sources"][e] else "",
                                asks.get(e, 0))
    return [told + "\n"]


def refused_told(faults):
    """What may be told of faults: the first expression without a type, else one of a wrong form."""
    untyped = sorted((f[1:] for f in faults if f[0] == "typing"), key=lambda f: f[0])
    if untyped:
        first = untyped[0]
        return ["untyped %d %s\n" % (first[0], error(first))]
    wrong = ["wrong form %d\n" % f[1] for f in faults if f[0] == "ExpectedGlobalOrArgument"]
    return wrong or ["not uniform %s\n" % " ".join(map(str, uniformity(f))) for f in faults]


def uniformity(fault):
    """What a fault of uniformity asks for, and the expression, if it is one."""
    _, expression, requirement = fault
    return [REQUIREMENTS[requirement]] + [expression] * (expression is not None)


def function_told(answer, globals_):
    """What may be told of a function, and whether it has an info; None where something else is asked."""
    tests = answer["tests"]
    if not all(tests):
        return None if None in tests and False not in tests else (["out of order\n"], False)
    if "info" in answer:
        return info_told(answer["info"], globals_), True
    return refused_told(answer["refused"]), False


def answers(line):
    """The answers that are right, or None where something else is asked."""
    globals_ = len(json.loads(line["document"])[11])
    parts, goes_on = [], True
    for answer in line["functions"]:
        told = function_told(answer, globals_)
        if told is None:
            return None
        parts.append(told[0])
        goes_on = told[1]
        if not goes_on:
            break
    for answer in line["entries"] if goes_on else []:
        told = function_told(answer, globals_)
        if told is None:
            return None
        parts.append(told[0])
    found = ["".join(some) for some in itertools.islice(itertools.product(*parts), 3)]
    return found if len(found) < 3 else None


def statements(block):
    for statement in block:
        yield statement
        for part in statement[1:]:
            if statement[0] == "Switch" and isinstance(part, list):
                for case in part:
                    yield from statements(case[1])
            elif statement[0] in ("Block", "If", "Loop") and isinstance(part, list):
                yield from statements(part)


def refused_marks(function, faults):
    """What is refused: the kind of fault, its name, and the kind of the expression."""
    for fault in faults:
        place = fault[1]
        form = None if place is None else function[4][place][0]
        yield fault[0], *(f for f in fault[2:3] if isinstance(f, str)), form


def info_marks(function, info):
    """What is told: kinds of expressions, statements, uses and pairs, each with what is known of it."""
    for e, expression in enumerate(function[4]):
        yield expression[0], bool(info["sources"][e]), info["assignable_globals"][e] is None
    yield from ((statement[0], info["may_kill"]) for statement in statements(function[5]))
    yield from (("use", *words) for _, words in info["uses"])
    yield from (("pair", image[0], sampler[0]) for image, sampler in info["pairs"])


def features(line):
    """What a document has that another may lack."""
    document, found = json.loads(line["document"]), set()
    functions = document[12] + [entry[-1] for entry in document[13]]
    for function, answer in zip(functions, line["functions"] + line["entries"]):
        if "info" in answer:
            found |= set(info_marks(function, answer["info"]))
        else:
            found |= set(refused_marks(function, answer.get("refused", [])))
    return found


def chosen(cases):
    """The shortest documents, a few for each that they have."""
    count, taken = {}, []
    for case, marks in sorted(cases, key=lambda c: len(c[0][2])):
        if any(count.get(mark, 0) < EACH for mark in marks):
            for mark in marks:
                count[mark] = count.get(mark, 0) + 1
            taken.append(case)
    return taken


def main():
    words = [w for w in sys.argv[1:] if not w.startswith("--")]
    out = Path(words[1]) if len(words) > 1 else Path(__file__).resolve().parent / "data"
    found = []
    for text in open(words[0], encoding="utf-8"):
        line = json.loads(text)
        told = answers(line)
        if told is not None:
            found.append(([line["name"], "summaries", line["document"], *told], features(line)))
    cases = [case for case, _ in found] if "--all" in sys.argv else chosen(found)
    with open(out / "summaries.jsonl", "w", encoding="utf-8") as file:
        for case in cases:
            file.write(json.dumps(case, ensure_ascii=False, separators=(",", ":")) + "\n")
    print(f"summaries.jsonl: {len(cases)} of {len(found)} cases")


if __name__ == "__main__":
    main()

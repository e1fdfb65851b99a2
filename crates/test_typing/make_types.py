#!/usr/bin/env python3
"""Writes the cases of the types of expressions: make_types.py CORPUS [OUT] [--all].

A line of the corpus is an object with `name`, `document` (the text of a document) and, for the global expressions
(`globals`), each function (`functions`) and each entry point (`entries`), the canonical forms of the types of its
expressions in order (`types`) and what the first one without a type is refused for (`fault`). OUT is where the file of
cases goes, data/ beside this script where none is given. Without --all the documents are chosen for coverage.
"""
import json
import sys
from pathlib import Path

SCALARS = {
    "bool": ("Bool", 1), "i16": ("Sint", 2), "u16": ("Uint", 2), "i32": ("Sint", 4), "u32": ("Uint", 4),
    "i64": ("Sint", 8), "u64": ("Uint", 8), "f16": ("Float", 2), "f32": ("Float", 4), "f64": ("Float", 8),
    "aint": ("AbstractInt", 8), "afloat": ("AbstractFloat", 8),
}
SIZES = {2: "Bi", 3: "Tri", 4: "Quad"}
SIDES = {8: "Eight", 16: "Sixteen"}
ACCESS = ("LOAD", "STORE", "ATOMIC")
TEXTS = {
    "IncompatibleOperands": "the operation does not take their types",
    "BuiltinArgumentsInvalid": "the function has no rule for their types",
}


def handle(n):
    return "[%d]" % n


def truth(b):
    return "true" if b else "false"


def scalar(s):
    kind, width = SCALARS[s] if isinstance(s, str) else s
    return "Scalar { kind: %s, width: %d }" % (kind, width)


def access(words):
    return "StorageAccess(%s)" % (" | ".join(w for w in ACCESS if w in words) or "0x0")


def space(s):
    return s if isinstance(s, str) else "Storage { access: %s }" % access(s[1])


def length(n):
    if n[0] == "Dynamic":
        return "Dynamic"
    return "%s(%s)" % (n[0], n[1] if n[0] == "Constant" else handle(n[1]))


def image_class(c):
    if c[0] == "Sampled":
        return "Sampled { kind: %s, multi: %s }" % (c[1], truth(c[2]))
    if c[0] == "Depth":
        return "Depth { multi: %s }" % truth(c[1])
    if c[0] == "External":
        return "External"
    return "Storage { format: %s, access: %s }" % (c[1], access(c[2]))


def form(t):
    """The canonical form as the program prints it."""
    if isinstance(t, int):
        return "Struct(%s)" % handle(t)
    kind = t[0]
    if kind in ("Scalar", "Atomic"):
        return "%s(%s)" % (kind, scalar(t[1]))
    if kind == "Vector":
        return "Vector { size: %s, scalar: %s }" % (SIZES[t[1]], scalar(t[2]))
    if kind == "Matrix":
        return "Matrix { columns: %s, rows: %s, scalar: %s }" % (SIZES[t[1]], SIZES[t[2]], scalar(t[3]))
    if kind == "CooperativeMatrix":
        return "CooperativeMatrix { columns: %s, rows: %s, scalar: %s, role: %s }" % (
            SIDES[t[1]], SIDES[t[2]], scalar(t[3]), t[4])
    if kind == "Pointer":
        return "Pointer { base: %s, space: %s }" % (handle(t[1]), space(t[2]))
    if kind == "ValuePointer":
        size = "None" if t[1] is None else "Some(%s)" % SIZES[t[1]]
        return "ValuePointer { size: %s, scalar: %s, space: %s }" % (size, scalar(t[2]), space(t[3]))
    if kind == "Array":
        return "Array { base: %s, size: %s, stride: %d }" % (handle(t[1]), length(t[2]), t[3])
    if kind == "BindingArray":
        return "BindingArray { base: %s, size: %s }" % (handle(t[1]), length(t[2]))
    if kind == "Image":
        return "Image { dim: %s, arrayed: %s, class: %s }" % (t[1], truth(t[2]), image_class(t[3]))
    if kind == "Sampler":
        return "Sampler { comparison: %s }" % truth(t[1])
    assert kind in ("AccelerationStructure", "RayQuery"), t
    return "%s { vertex_return: %s }" % (kind, truth(t[1]))


def error(fault):
    """Why an expression has no type, as the program prints it."""
    name, fields = fault[1], fault[2:]
    if name == "OutOfBoundsIndex":
        return "OutOfBoundsIndex { expr: %s, index: %d }" % (handle(fields[0]), fields[1])
    if name == "InvalidAccess":
        return "InvalidAccess { expr: %s, indexed: %s }" % (handle(fields[0]), truth(fields[1]))
    if name == "FunctionArgumentNotFound":
        return "%s(%d)" % (name, fields[0])
    if name in TEXTS:
        return '%s("%s")' % (name, TEXTS[name])
    if name in ("FunctionReturnsVoid", "MissingSpecialType"):
        return name
    return "%s(%s)" % (name, handle(fields[0]))


def bodies(case):
    return [("globals", case["globals"])] + [("function", f) for f in case["functions"]] + [
        ("entry", e) for e in case["entries"]]


def expected(case):
    """The answer that is expected for a document: a line for each expression, behind a line for each body."""
    lines = []
    for word, answer in bodies(case):
        lines.append(word)
        lines += [form(t) for t in answer["types"]]
        if answer["fault"]:
            lines.append(error(answer["fault"]))
    return "".join(line + "\n" for line in lines)


def variant(value):
    """What an expression is, down to the words in it: handles and numbers aside."""
    if isinstance(value, list):
        return tuple(variant(v) for v in value)
    return value if isinstance(value, (str, type(None))) else type(value).__name__


def outcomes(document, case):
    """Each expression that is asked of functions, with the first word of its type or of its fault."""
    for function, answer in zip(document[12], case["functions"]):
        expressions, types = function[4], answer["types"]
        for expression, type in zip(expressions, types):
            yield expression, "struct" if isinstance(type, int) else type[0]
        if answer["fault"]:
            yield expressions[len(types)], answer["fault"][1]


def features(case):
    """What a document has that another may lack: types and faults, and what expressions they are of."""
    found = set()
    for word, answer in bodies(case):
        found |= {(word, "struct" if isinstance(t, int) else form(t)) for t in answer["types"]}
        if answer["fault"]:
            found.add((word, answer["fault"][1]))
    for expression, outcome in outcomes(json.loads(case["document"]), case):
        found.add((str(variant(expression))[:80], outcome))
    return found


def chosen(cases, limit):
    """Documents that add most features for their size, as far as they take fewer bytes than the limit."""
    rest = [(case, features(case), len(case["document"])) for case in cases]
    covered, picked, size = set(), [], 0
    while rest:
        best = max(rest, key=lambda r: len(r[1] - covered) / r[2])
        if not best[1] - covered or size + best[2] > limit:
            break
        picked.append(best[0])
        covered |= best[1]
        size += best[2]
        rest = [r for r in rest if r[0] is not best[0] and r[1] - covered]
    return sorted(picked, key=lambda c: c["name"])


def main():
    arguments = [a for a in sys.argv[1:] if a != "--all"]
    with open(arguments[0], encoding="utf-8") as file:
        cases = [json.loads(line) for line in file]
    out = Path(arguments[1]) if len(arguments) > 1 else Path(__file__).parent / "data"
    part = cases if "--all" in sys.argv else chosen(cases, 600000)
    with open(out / "types.jsonl", "w", encoding="utf-8") as file:
        for case in part:
            file.write(json.dumps([case["name"], "types", case["document"], expected(case)], ensure_ascii=False) + "\n")
    print(f"{len(part)} of {len(cases)} documents")


if __name__ == "__main__":
    main()

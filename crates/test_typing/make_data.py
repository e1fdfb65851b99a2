#!/usr/bin/env python3
"""Writes the cases of this crate: make_data.py FOLDER [OUT] [--all].

FOLDER holds layouts.jsonl and constness.jsonl: a JSON object a line, with the name of a case, the text of a document, and
the answer that two implementations gave for it which were written independently of each other and of this repository.
OUT is where the files of cases go, data/ beside this script where none is given. Without --all only some cases are taken:
a case is taken where it shows something that no case before it shows, as a kind of type with a new shape or a kind of
expression with new kinds of operands. The worked rows below are always taken.

A line of a file of cases is a list of four texts: the name, what is asked, the document, the answer. The answer to
`layouts` is the size, the alignment and the stride of each type, each followed by a semicolon, and then, if a type has no
layout, its place and what is wrong with it. The answer to `constness` is a letter for each expression (c for const, o for
override, r for runtime), with a semicolon behind the global expressions, behind each function and behind each entry point.
"""
import json
import sys
from pathlib import Path

SIX = ["EXPRESSIONS", "BLOCKS", "CONTROL_FLOW_UNIFORMITY", "STRUCT_LAYOUTS", "CONSTANTS", "BINDINGS"]


def module(types, expressions=(), functions=()):
    return [1, SIX, [], [[], []], False, types, [None, None, None, []], [[], None], [], [["o", None, 0, None]] if expressions
            else [], list(expressions), [], list(functions), []]


F32, U32 = [None, ["Scalar", "f32"]], [None, ["Scalar", "u32"]]

# worked out by hand
LAYOUT_ROWS = [
    ("rows/struct of a float and a vector",
     [F32, [None, ["Vector", 4, "f32"]], [None, ["Struct", [["a", 0, None, 0], ["b", 1, None, 16]], 32]]],
     "4 4 4;16 16 16;32 16 32;"),
    ("rows/vector of three", [[None, ["Vector", 3, "f32"]]], "12 16 16;"),
    ("rows/matrix of three columns and rows", [[None, ["Matrix", 3, 3, "f32"]]], "48 16 48;"),
    ("rows/array by its stride", [U32, [None, ["Array", 0, ["Constant", 3], 2]]], "4 4 4;6 4 8;"),
    ("rows/too large",
     [F32, [None, ["Struct", [], 4]], [None, ["Struct", [["a", 0, None, 0]], 4294967295]]], "4 4 4;4 1 4;2 TooLarge"),
    ("rows/greatest span", [F32, [None, ["Struct", [["a", 0, None, 0]], 2147483647]]], "4 4 4;2147483647 4 2147483648;"),
    ("rows/one byte more", [F32, [None, ["Struct", [["a", 0, None, 0]], 2147483648]]], "4 4 4;1 TooLarge"),
    ("rows/product past 64 bits cut to 32", [U32, [None, ["Array", 0, ["Constant", 4294967295], 4294967295]]],
     "4 4 4;1 TooLarge"),
    ("rows/product that is 0 in 32 bits", [U32, [None, ["Array", 0, ["Constant", 65536], 65536]]], "4 4 4;1 TooLarge"),
]
KIND_ROWS = [
    ("rows/composition of nothing", [U32, [None, ["Struct", [], 4]]], [["Compose", 1, []]], "c;"),
    ("rows/composition with an override", [U32, [None, ["Vector", 2, "u32"]]],
     [["Literal", "u32", 1], ["Override", 0], ["Compose", 1, [0, 1]], ["Splat", 2, 0]], "cooc;"),
]


def rows():
    layouts = [[name, "layouts", json.dumps(module(types), separators=(",", ":")), answer]
               for name, types, answer in LAYOUT_ROWS]
    kinds = [[name, "constness", json.dumps(module(types, expressions), separators=(",", ":")), answer]
             for name, types, expressions, answer in KIND_ROWS]
    return layouts, kinds


def cases(path):
    return [json.loads(line) for line in path.read_text().splitlines()]


def layout_answer(case):
    told = "".join(f"{size} {alignment} {stride};" for size, alignment, stride in case["layouts"])
    return told + ("" if case["refused"] is None else "{} {}".format(*case["refused"]))


def kind_answer(case):
    lists = [case["globals"], *case["functions"], *case["entries"]]
    return "".join("".join(kind[0] for kind in kinds) + ";" for kinds in lists)


def size_class(number):
    return number if number < 64 else number.bit_length() + 100


def layout_marks(case):
    """What a case shows: each kind of type with its sizes and scalars, and where a struct or an array has its alignment."""
    types = json.loads(case["document"])[5]
    marks = set()
    for place, layout in enumerate(case["layouts"]):
        inner = types[place][1]
        alignment = layout[1]
        if inner[0] == "Struct":
            members = [case["layouts"][member[1]][1] for member in inner[1]]
            marks.add(("Struct", len(members), alignment, members.index(alignment) if alignment in members else None))
            marks.add(("span", size_class(inner[2])))
        elif inner[0] in ("Array", "BindingArray"):
            marks.add((inner[0], inner[2][0], alignment, size_class(layout[0])))
        else:
            marks.add(json.dumps([part for part in inner if not isinstance(part, (dict, list))]))
    if case["refused"] is not None:
        inner = types[case["refused"][0]][1]
        marks.add(("refused", inner[0], len(str(inner))))
    return marks


def handles(expression):
    """The operands of an expression, as far as its kind may rest on them."""
    form = expression[0]
    if form == "Compose":
        return expression[2]
    places = {"Access": [1, 2], "AccessIndex": [1], "Splat": [2], "Swizzle": [2], "Unary": [2], "Binary": [2, 3],
              "Select": [1, 2, 3], "Relational": [2], "Math": [2, 3, 4, 5], "As": [1]}.get(form, [])
    return [expression[place] for place in places if place < len(expression) and expression[place] is not None]


def kind_marks(case):
    document = json.loads(case["document"])
    lists = [(document[10], case["globals"])]
    lists += [(function[4], kinds) for function, kinds in zip(document[12], case["functions"])]
    lists += [(entry[-1][4], kinds) for entry, kinds in zip(document[13], case["entries"])]
    marks = set()
    for number, (expressions, kinds) in enumerate(lists):
        for expression, kind in zip(expressions, kinds):
            operands = tuple(kinds[handle] for handle in handles(expression) if isinstance(handle, int))
            shown = tuple(sorted(set(operands))) if expression[0] == "Compose" else operands
            marks.add((number == 0, expression[0], kind, shown))
    return marks


def chosen(found, marks_of, everything):
    seen, taken = set(), []
    for case in found:
        marks = marks_of(case)
        if everything or not marks <= seen:
            taken.append(case)
            seen |= marks
    return taken


def write(path, lines):
    path.write_text("".join(json.dumps(line, separators=(",", ":")) + "\n" for line in lines))
    print(f"{path}: {len(lines)} cases, {path.stat().st_size} bytes")


def main():
    everything = "--all" in sys.argv[1:]
    places = [word for word in sys.argv[1:] if word != "--all"]
    folder = Path(places[0])
    out = Path(places[1]) if len(places) > 1 else Path(__file__).resolve().parent / "data"
    layouts, kinds = rows()
    for case in chosen(cases(folder / "layouts.jsonl"), layout_marks, everything):
        layouts.append([case["name"], "layouts", case["document"], layout_answer(case)])
    for case in chosen(cases(folder / "constness.jsonl"), kind_marks, everything):
        kinds.append([case["name"], "constness", case["document"], kind_answer(case)])
    write(out / "layouts.jsonl", layouts)
    write(out / "constness.jsonl", kinds)


if __name__ == "__main__":
    main()

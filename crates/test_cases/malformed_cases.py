"""Documents that are cut short, hold odd numbers, or come to the limits of the form, as rows of a name, a text, and what is due.

The answers were worked out by hand.
"""
import itertools
import json

SIX = ["EXPRESSIONS", "BLOCKS", "CONTROL_FLOW_UNIFORMITY", "STRUCT_LAYOUTS", "CONSTANTS", "BINDINGS"]
U32 = [None, ["Scalar", "u32"]]
TRUE, ZERO = ["Literal", "bool", True], ["Literal", "u32", 0]
MOST = 4294967295
ACCEPTED, NO_DOCUMENT, NO_HANDLES = "accepted", "refused document", "refused handles"


def document(types=(), globals=(), functions=(), entries=(), flags=SIX):
    parts = [1, flags, [], [[], []], False, types, [None, None, None, []], [[], None], [], [], [], globals, functions, entries]
    return json.dumps(parts, separators=(",", ":"))


def function(expressions=(), body=(), arguments=()):
    return [None, arguments, None, [], expressions, body, None]


def entry(expressions=(), body=()):
    return ["Compute", "main", None, [1, 1, 1], None, None, function(expressions, body)]


def call(callee):
    return ["Call", callee, [], None]


def nested(make, count, inner):
    for _ in range(count):
        inner = make(inner)
    return inner


def blocks(count):
    return nested(lambda inner: ["Block", [inner]], count - 1, ["Block", []])


def switches(count):
    """So many switches with one case, the innermost of which is empty."""
    return nested(lambda inner: ["Switch", 0, [[["Default"], inner and [inner], False]]], count, [])


def with_callee(text):
    return document(functions=[function(body=[call("@")])]).replace('"@"', text)


def loads_a_buffer():
    """An entry point whose callee loads a buffer."""
    buffer = [None, ["Storage", ["LOAD", "STORE"]], [0, 0], 0, None, []]
    return document([U32], [buffer], [function([["GlobalVariable", 0], ["Load", 0]], [["Emit", 1, 2]])], [entry(body=[call(0)])])


def prefixes():
    whole = loads_a_buffer()
    for count in range(len(whole)):
        yield f"first {count} bytes of a document", whole[:count], NO_DOCUMENT
    yield "the whole of it", whole, "accepted\nbuffer 0 size 4 alignment 4\nentry 0\nglobal 0 read"
    whole = document().encode()
    for at in range(len(whole) + 1):
        yield f"byte 255 in front of byte {at}", whole[:at] + b"\xff" + whole[at:], NO_DOCUMENT


def numbers():
    for text, due in [("4294967294", NO_HANDLES), (str(MOST), NO_DOCUMENT), ("-1", NO_DOCUMENT), ("0.5", NO_DOCUMENT),
                      ("{}", NO_DOCUMENT)]:
        yield f"callee {text}", with_callee(text), due
    for first, end, due in [(1, 1, ACCEPTED), (1, 0, NO_HANDLES), (0, 9, NO_HANDLES)]:
        yield f"range from {first} to {end}", document(functions=[function([TRUE], [["Emit", first, end]])]), due
    array = lambda count, stride: document([U32, [None, ["Array", 0, ["Constant", count], stride]]])
    yield "array of the most items, of the longest stride", array(MOST, MOST), "refused layout 1"
    yield "array of no items", array(0, 4), NO_DOCUMENT
    yield "array of no items, of the longest stride", array(0, MOST), NO_DOCUMENT
    yield "member at the last offset", document([U32, [None, ["Struct", [["a", 0, None, MOST]], 4]]]), "refused type 1"
    yield "one flag twice", document(flags=["BLOCKS", *SIX]), ACCEPTED
    yield "one flag twice, the second after all others", document(flags=[*SIX, "BLOCKS"]), ACCEPTED


def flag_sets():
    """Handles and arities that are refused whatever is checked."""
    refused = [
        ("array of itself", dict(types=[[None, ["Array", 0, ["Constant", 4], 4]]]), NO_HANDLES),
        ("function that calls itself", dict(functions=[function(body=[call(0)])]), NO_HANDLES),
        ("call without its argument",
         dict(types=[U32], functions=[function(arguments=[["x", 0, None]]), function(body=[call(0)])]), "refused function 1"),
    ]
    for name, parts, due in refused:
        for count in range(len(SIX) + 1):
            for flags in itertools.combinations(SIX, count):
                yield f"{name} under {', '.join(flags) or 'no flag'}", document(**parts, flags=flags), due


def limits():
    for count, due in [(30, ACCEPTED), (31, NO_DOCUMENT)]:
        yield f"{count} switches in one another", document(functions=[function([ZERO], [switches(count)])]), due
    for count, due in [(61, "accepted\nentry 0"), (62, NO_DOCUMENT)]:
        yield f"{count} blocks in one another in an entry point", document(entries=[entry(body=[blocks(count)])]), due


def rows():
    yield from prefixes()
    yield from numbers()
    yield from flag_sets()
    yield from limits()

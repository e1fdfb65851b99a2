"""The examples, the words and the limits of docs/FORMAT.md, each at its place in a whole document, as cases.

A table of that page with a column `example` is known by the head of its first column, a row of words by its first cell.
A document of plain parts, or one of ANSWERS, has the answer of the program as its output; of every other the case tells
whether it is one. Beside each example stands one that has a part too many, and beside each set of words one in another
spelling.
"""
import json
import re
import sys
from pathlib import Path

PAGE = Path(__file__).resolve().parent.parent.parent / "docs" / "FORMAT.md"

FLAGS = ["EXPRESSIONS", "BLOCKS", "CONTROL_FLOW_UNIFORMITY", "STRUCT_LAYOUTS", "CONSTANTS", "BINDINGS"]
WIDE = ["FLOAT64", "SHADER_FLOAT16", "SHADER_INT16", "SHADER_INT64"]
STAGED = ["EARLY_DEPTH_TEST", "RAY_TRACING_PIPELINE"]
NO_SPECIAL, NO_FILTERS = [None, None, None, []], [[], None]
SIMPLE = [["Literal", "bool", True], ["Literal", "u32", 0], ["Literal", "i32", 0]]

# the places of a document
CAPABILITIES, TYPES, SPECIAL, FILTERS, CONSTANTS, OVERRIDES, GLOBALS, FUNCTIONS, ENTRIES = 2, 5, 6, 7, 8, 9, 11, 12, 13
# the places whose arrays take any number of parts
OPEN = {1, 2, 5, 8, 9, 10, 11, 12, 13}

# what is due where a document is of plain parts and not accepted, or of others
ANSWERS = {
    "statement: a break out of the innermost loop or switch": "refused function 1",
    "statement: a continue of the innermost loop": "refused function 1",
    "case: a case: its value, its body, and whether it falls through to the next": "refused function 1",
    "value: a number with a sign, from -2147483648 to 2147483647": "refused function 1",
    "value: what no other case names": "refused function 1",
    "scalar S: aint": "refused type 0",
    "scalar S: afloat": "refused type 0",
    # it asks for an early depth test, and the document does not have the capability
    "entry: an entry point; its name is a text and never null": "refused entry 0",
    # there is no position, no mesh and no payload
    "stage of an entry point: Vertex": "refused entry 0",
    "stage of an entry point: Mesh": "refused entry 0",
    "stage of an entry point: Task": "refused entry 0",
    # there are no such types, and no such variable
    "mesh: the mesh output; where a limit is an override's, the expression that names it": "refused handles",
    "topology: Points": "refused handles",
    "topology: Lines": "refused handles",
    "topology: Triangles": "refused handles",
    # what is stored to is no pointer
    "limit: a store in 61 blocks in a body of a function": "refused function 1",
    "limit: a store in 60 blocks in a body of an entry point": "refused entry 0",
    "limit: a barrier in 60 blocks in a body of a function": "accepted",
    "limit: a barrier in 60 blocks in a body of an entry point": "accepted\nentry 0",
}


def whole(index=None, value=None):
    parts = [1, FLAGS, WIDE, [[], []], False, [], NO_SPECIAL, NO_FILTERS, [], [], [], [], [], []]
    if index is not None:
        parts[index] = value
    return parts


def function(index=None, value=None):
    parts = [None, [], None, [], SIMPLE, [], None]
    if index is not None:
        parts[index] = value
    return parts


def in_function(index, value):
    return whole(FUNCTIONS, [function(), function(index, value)])


def of_type(inner):
    return whole(TYPES, [[None, inner]])


def of_expression(it):
    return in_function(4, [it])


def of_statement(it):
    return in_function(5, [it])


def of_case(it):
    return of_statement(["Switch", 1, [it]])


def of_filter(it):
    return whole(FILTERS, [[it], None])


def of_pair(it):
    return whole(SPECIAL, [None, None, None, [[it, 0]]])


def of_space(it):
    return whole(GLOBALS, [[None, it, None, 0, None, []]])


def of_class(it):
    return of_type(["Image", "D2", False, it])


def of_binding(it):
    return in_function(1, [[None, 0, it]])


def of_sample(gather, level):
    return of_expression(["ImageSample", 0, 1, gather, 2, None, None, level, None, False])


def of_entry(stage="Compute", early=None, mesh=None):
    size = 1 if stage in ["Compute", "Mesh", "Task"] else 0
    document = whole(ENTRIES, [[stage, "main", early, [size] * 3, mesh, None, function()]])
    document[CAPABILITIES] = WIDE + STAGED
    return document


# where the examples of a table belong
PLACES = {
    "type": lambda it: whole(TYPES, [it]),
    "inner": of_type,
    "member": lambda it: of_type(["Struct", [it], 64]),
    "size": lambda it: of_type(["Array", 0, it, 4]),
    "space": of_space,
    "class": of_class,
    "binding": of_binding,
    "expression": of_expression,
    "literal": of_expression,
    "level": lambda it: of_sample(None, it),
    "query": lambda it: of_expression(["ImageQuery", 0, it]),
    "statement": of_statement,
    "case": of_case,
    "value": lambda it: of_statement(["Switch", 1, [[it, [], False], [["Default"], [], False]]]),
    "atomic": lambda it: of_statement(["Atomic", 0, it, 1, None]),
    "ray query function": lambda it: of_statement(["RayQuery", 0, it]),
    "mode": lambda it: of_statement(["SubgroupGather", it, 0, 1]),
    "constant": lambda it: whole(CONSTANTS, [it]),
    "override": lambda it: whole(OVERRIDES, [it]),
    "global": lambda it: whole(GLOBALS, [it]),
    "filter": of_filter,
    "rule": lambda it: of_filter(["Off", it, None]),
    "special types": lambda it: whole(SPECIAL, it),
    "predeclared": of_pair,
    "function": lambda it: whole(FUNCTIONS, [it]),
    "argument": lambda it: in_function(1, [it]),
    "result": lambda it: in_function(2, it),
    "local": lambda it: in_function(3, [it]),
    "entry": lambda it: whole(ENTRIES, [it]),
    "early depth test": lambda it: of_entry("Fragment", early=it),
    "mesh": lambda it: of_entry("Mesh", mesh=it),
}

# where the words of a set belong
WORDS = {
    "flag": lambda it: whole(1, [it]),
    "capability": lambda it: whole(2, [it]),
    "stage of a set": lambda it: whole(3, [[it], []]),
    "stage of an entry point": of_entry,
    "subgroup operation of a set": lambda it: whole(3, [[], [it]]),
    "scalar S": lambda it: of_type(["Scalar", it]),
    "space": of_space,
    "access": lambda it: of_space(["Storage", [it]]),
    "dimension": lambda it: of_type(["Image", it, False, ["Depth", False]]),
    "kind": lambda it: of_expression(["As", 0, it, None]),
    "format": lambda it: of_class(["Storage", it, []]),
    "role": lambda it: of_expression(["CooperativeLoad", 8, 8, it, 0, 1, False]),
    "built-in": lambda it: of_binding(["BuiltIn", it]),
    "interpolation": lambda it: of_binding(["Location", 0, it, None, None, False]),
    "sampling": lambda it: of_binding(["Location", 0, None, it, None, False]),
    "letter": lambda it: of_sample(it, ["Zero"]),
    "operator of one value": lambda it: of_expression(["Unary", it, 0]),
    "operator of two values": lambda it: of_expression(["Binary", it, 0, 1]),
    "axis": lambda it: of_expression(["Derivative", it, "None", 0]),
    "control": lambda it: of_expression(["Derivative", "X", it, 0]),
    "question": lambda it: of_expression(["Relational", it, 0]),
    "math function": lambda it: of_expression(["Math", it, 0, None, None, None]),
    "barrier": lambda it: of_statement(["MemoryBarrier", [it]]),
    "operation": lambda it: of_statement(["SubgroupCollectiveOperation", it, "Reduce", 0, 1]),
    "collective": lambda it: of_statement(["SubgroupCollectiveOperation", "Add", it, 0, 1]),
    "direction": lambda it: of_statement(["SubgroupGather", ["QuadSwap", it], 0, 1]),
    "decoration": lambda it: whole(GLOBALS, [[None, "Uniform", None, 0, None, [it]]]),
    "severity": lambda it: of_filter([it, ["Unknown", ""], None]),
    "depth": lambda it: of_entry("Fragment", early=["Allow", it]),
    "topology": lambda it: of_entry("Mesh", mesh=[it, 0, None, 0, None, 0, 0, 0]),
}


def steers(statement):
    """Whether a statement steers and does no more."""
    word, *rest = statement
    inside = {"Block": rest[:1], "If": rest[1:3], "Loop": rest[:2]}.get(word, [])
    if word == "Switch":
        inside = [body for _, body, _ in rest[1]]
    known = ["Block", "If", "Switch", "Loop", "Break", "Continue", "Return", "Kill", "Call"]
    return word in known and all(steers(it) for body in inside for it in body)


def is_plain(document):
    """Whether a document has nothing but scalar types, and functions and entry points of literals and of what steers."""
    if document[6:8] != [NO_SPECIAL, NO_FILTERS] or any(document[8:12]):
        return False
    if any(inner[0] != "Scalar" for _, inner in document[TYPES]) or any(it[4:6] != [None, None] for it in document[ENTRIES]):
        return False
    return all(
        name is None and not arguments and (result is None or result[1] is None) and not locals_ and leaf is None
        and all(it[0] == "Literal" and it[1] in ["bool", "i32", "u32"] for it in expressions) and all(map(steers, body))
        for name, arguments, result, locals_, expressions, body, leaf in document[FUNCTIONS] + [it[6] for it in document[ENTRIES]])


def written(value):
    return json.dumps(value, separators=(",", ":"), ensure_ascii=False)


def case(name, document, form):
    made = {"name": name, "input": written(document)}
    if not form:
        made |= {"form": False, "output": "refused document\n"}
    elif name in ANSWERS or is_plain(document):
        entries = [f"entry {it}" for it in range(len(document[ENTRIES]))]
        made["output"] = ANSWERS.get(name, "\n".join(["accepted", *entries])) + "\n"
    else:
        made["form"] = True
    return json.dumps(made, ensure_ascii=False)


def longer(value, is_open):
    """The same with a part too many; where any number of parts may stand, with one that is none."""
    if not isinstance(value, list):
        return [value]
    return value + ([{}] if is_open else [None])


def tables():
    """The tables of the page: each with its heads, and its rows of cells."""
    lines = PAGE.read_text().splitlines()
    for at, line in enumerate(lines):
        if line.startswith("|---"):
            rows = []
            for row in lines[at + 1:]:
                if not row.startswith("|"):
                    break
                rows.append(row.strip("| ").split(" | "))
            yield lines[at - 1].strip("| ").split(" | "), rows


def of_table(head, cells, example):
    if head == "place":
        index = int(cells[0])
        return f"{head} {index}", lambda it: whole(index, it), index in OPEN
    return f"{head}: {cells[0]}".replace("`", ""), PLACES[head], False


def example_cases(heads, rows):
    for cells in rows:
        value = json.loads(cells[-1].strip("`"))
        name, put, is_open = of_table(heads[0], cells, value)
        yield case(name, put(value), True)
        yield case(f"{name}, a part too many", put(longer(value, is_open)), False)


def word_cases(rows):
    for name, words in rows:
        words, put = re.findall("`([^`]*)`", words), WORDS[name]
        for word in words:
            yield case(f"{name}: {word}", put(word), True)
        yield case(f"{name}: {words[0].swapcase()}", put(words[0].swapcase()), False)


def in_blocks(statement, count):
    for _ in range(count):
        statement = ["Block", [statement]]
    return statement


def in_switches(count):
    body = []
    for _ in range(count):
        body = [["Switch", 1, [[["Default"], body, False]]]]
    return body


def limit_cases():
    barrier = ["MemoryBarrier", []]
    store = ["Store", 0, 1]
    bodies = {
        "a function": lambda body: in_function(5, body),
        "an entry point": lambda body: whole(ENTRIES, [["Compute", "main", None, [1, 1, 1], None, None, function(5, body)]]),
    }
    for name, put in bodies.items():
        most = 61 if name == "a function" else 60
        for count in [most, most + 1]:
            yield case(f"limit: a store in {count} blocks in a body of {name}", put([in_blocks(store, count)]), count == most)
        for count in [60, 61]:
            yield case(f"limit: a barrier in {count} blocks in a body of {name}", put([in_blocks(barrier, count)]), count == 60)
            empty = in_blocks(["Block", []], count)
            yield case(f"limit: an empty block in {count} blocks in a body of {name}", put([empty]), count == 60)
        for count in [30, 31]:
            yield case(f"limit: {count} switches in a body of {name}", put(in_switches(count)), count == 30)


def cases():
    [smallest] = re.findall("```json\n(.*)\n```", PAGE.read_text())
    yield case("the smallest document", json.loads(smallest), True)
    yield case("the smallest document, a part too many", json.loads(smallest) + [None], False)
    seen = set()
    for heads, rows in tables():
        if heads[-1] == "example":
            seen.add(heads[0])
            yield from example_cases(heads, rows)
        elif heads == ["set", "words"]:
            seen |= {name for name, _ in rows}
            yield from word_cases(rows)
    yield from limit_cases()
    missing = ({"place"} | set(PLACES) | set(WORDS)) - seen
    if missing:
        sys.exit(f"make_data: docs/FORMAT.md has no {sorted(missing)}")

#!/usr/bin/env python3
"""Writes the data files of this crate, one case a line.

    make_data.py                            examples.json, from the folder examples at the top, the files of rows, among them
                                            malformed.json, and format.json, from the examples and the words of docs/FORMAT.md
    make_data.py --check                    says which of these would change, and writes nothing
    make_data.py --corpus NAME CASES [OUT]  NAME.json, from a file that has one case a line, or from a folder that has each
                                            as a .json and a .txt, in the folder OUT, or else data
    make_data.py --some NAME CASES [OUT]    the same, of the shortest inputs alone: EACH for each verdict, for each number of
                                            lines of a report, for each kind of line, and for each word in which names end

A case is an object: its name, its input (or input_b64, in Base64, where that is no UTF-8), spaces, a number of blanks
that are to follow the input (none where it is left out), and the output that is due; or, where it has a form, whether
its input is a document. In the file CASES a case may have a document in the place of the input, and whole, the output that
is due where the whole form is judged: it is taken where there is one. A case whose input is a document is known by its
output alone. The answers of the rows below were worked out by hand. A new data file also needs its name in data/files.json
and its line in stdout.
"""
import base64
import json
import sys
from pathlib import Path

sys.dont_write_bytecode = True
import format_cases
import malformed_cases

HERE = Path(__file__).resolve().parent
DATA = HERE / "data"
EXAMPLES = HERE.parent.parent / "examples"

ACCEPTED, NO_DOCUMENT, NO_HANDLES = "accepted", "refused document", "refused handles"

FLAGS = ["EXPRESSIONS", "BLOCKS", "CONTROL_FLOW_UNIFORMITY", "STRUCT_LAYOUTS", "CONSTANTS", "BINDINGS"]
CAPABILITIES = """
    IMMEDIATES FLOAT64 SHADER_FLOAT16 SHADER_INT16 SHADER_INT64 PRIMITIVE_INDEX BUFFER_BINDING_ARRAY
    STORAGE_BUFFER_BINDING_ARRAY TEXTURE_AND_SAMPLER_BINDING_ARRAY STORAGE_TEXTURE_BINDING_ARRAY
    ACCELERATION_STRUCTURE_BINDING_ARRAY STORAGE_TEXTURE_16BIT_NORM_FORMATS CUBE_ARRAY_TEXTURES CLIP_DISTANCES
    CULL_DISTANCE MULTIVIEW EARLY_DEPTH_TEST MULTISAMPLED_SHADING DUAL_SOURCE_BLENDING SUBGROUP SUBGROUP_BARRIER
    SHADER_INT64_ATOMIC_MIN_MAX SHADER_INT64_ATOMIC_ALL_OPS SHADER_FLOAT32_ATOMIC TEXTURE_ATOMIC TEXTURE_INT64_ATOMIC
    TEXTURE_EXTERNAL RAY_QUERY RAY_HIT_VERTEX_POSITION RAY_TRACING_PIPELINE SHADER_BARYCENTRICS MESH_SHADER
    MESH_SHADER_POINT_TOPOLOGY PER_VERTEX DRAW_INDEX COOPERATIVE_MATRIX MEMORY_DECORATION_COHERENT
    MEMORY_DECORATION_VOLATILE
""".split()
STAGES = "VERTEX FRAGMENT COMPUTE MESH TASK RAY_GENERATION ANY_HIT CLOSEST_HIT MISS".split()
SUBGROUPS = "BASIC VOTE ARITHMETIC BALLOT SHUFFLE SHUFFLE_RELATIVE QUAD".split()
# each scalar with the capability that it needs: "" where it needs none, None where none allows it
SCALARS = {
    "bool": "", "i32": "", "u32": "", "f32": "", "i16": "SHADER_INT16", "u16": "SHADER_INT16", "i64": "SHADER_INT64",
    "u64": "SHADER_INT64", "f16": "SHADER_FLOAT16", "f64": "FLOAT64", "aint": None, "afloat": None,
}

MOST_BYTES = 16777216
EACH = 2


def written(value):
    return json.dumps(value, separators=(",", ":"), ensure_ascii=False)


def parts(types=(), functions=(), flags=FLAGS, capabilities=(), subgroups=((), ()), returns=False, version=1):
    return [version, list(flags), list(capabilities), [list(it) for it in subgroups], returns, list(types),
            [None, None, None, []], [[], None], [], [], [], [], list(functions), []]


def document(*given, **named):
    return written(parts(*given, **named))


def with_part(index, text):
    """The smallest document with other text at one of its places."""
    texts = [written(it) for it in parts()]
    texts[index] = text
    return "[" + ",".join(texts) + "]"


def function(*body):
    return [None, [], None, [], [], list(body), None]


def scalar(word, name=None):
    return [name, ["Scalar", word]]


def nested(statement, blocks):
    for _ in range(blocks):
        statement = ["Block", [] if statement is None else [statement]]
    return statement


def with_bytes(before, odd, after):
    return before.encode() + odd + after.encode()


def rows():
    whole = document()
    ret = ["Return", None]

    def call(to, arguments=(), result=None):
        return ["Call", to, list(arguments), result]

    # bytes
    yield "smallest document", whole, ACCEPTED
    yield "no bytes", "", NO_DOCUMENT
    yield "no JSON", "not json", NO_DOCUMENT
    yield "empty object", "{}", NO_DOCUMENT
    yield "empty list", "[]", NO_DOCUMENT
    yield "cut short", "[1,", NO_DOCUMENT
    for text in ["null", "true", "1", '"accepted"', "[[]]", "[1]"]:
        yield f"only {text}", text, NO_DOCUMENT
    yield "last byte missing", whole[:-1], NO_DOCUMENT
    yield "blanks around and inside", " \t\r\n" + whole.replace(",", " ,\n\t") + "\r\n ", ACCEPTED
    yield "form feed in front", "\f" + whole, NO_DOCUMENT
    yield "zero byte behind", whole + "\0", NO_DOCUMENT
    yield "null behind", whole + "null", NO_DOCUMENT
    yield "bracket behind", whole + "]", NO_DOCUMENT
    yield "comma behind", whole + ",", NO_DOCUMENT
    yield "second document behind", whole + whole, NO_DOCUMENT
    yield "comma before the last bracket", whole[:-1] + ",]", NO_DOCUMENT
    named = document([scalar("u32", "@")])
    before, after = named.split("@")
    for odd in [b"\xff", b"\x80", b"\xc3", b"\xc0\xaf", b"\xed\xa0\x80", b"\xf4\x90\x80\x80", b"\xe2\x82"]:
        yield f"name of the bytes {odd.hex()}", with_bytes(before, odd, after), NO_DOCUMENT
    for name in ["\u00e9", "\u20ac", "\U0001f600", "a b", "x" * 300]:
        yield f"name {name if len(name) < 9 else 'of 300 letters'}", named.replace("@", name), ACCEPTED
    yield "name with escapes", named.replace("@", '\\"\\\\\\/\\b\\f\\n\\r\\t\\u00e9\\ud83d\\ude00\\u0000'), ACCEPTED
    yield "name with a line feed", named.replace("@", "a\nb"), NO_DOCUMENT
    yield "name with an unknown escape", named.replace("@", "\\x"), NO_DOCUMENT
    yield "byte 255 behind", with_bytes(whole, b"\xff", ""), NO_DOCUMENT

    # version and numbers
    for text in ["2", "0", "-1", "1.0", "-0", "1e2", "1e0", "01", "+1", "1.", ".1", "0x1", "NaN", "18446744073709551617",
                 "1" * 400, "null", "true", '"1"', "[1]"]:
        short = text if len(text) < 30 else "of 400 digits"
        yield f"version {short}", with_part(0, text), NO_DOCUMENT

    # an object anywhere
    for index in range(14):
        yield f"object as part {index}", with_part(index, "{}"), NO_DOCUMENT
    for index in [1, 2, 5, 12, 13]:
        yield f"object in part {index}", with_part(index, "[{}]"), NO_DOCUMENT
    yield "object as a whole document", '{"version":1}', NO_DOCUMENT
    yield "object as a name", document([[{}, ["Scalar", "u32"]]]), NO_DOCUMENT
    yield "object as a type's form", document([[None, {"Scalar": "u32"}]]), NO_DOCUMENT
    yield "object as a body", document([], [[None, [], None, [], [], {}, None]]), NO_DOCUMENT
    yield "object as a statement", document([], [function({"Return": None})]), NO_DOCUMENT
    yield "object in a statement", document([], [function(["Return", {}])]), NO_DOCUMENT

    # arity and kinds of the parts
    for index in range(14):
        yield f"part {index} left out", written([it for at, it in enumerate(parts()) if at != index]), NO_DOCUMENT
    yield "a part too many", whole[:-1] + ",[]]", NO_DOCUMENT
    for index in [1, 2, 3, 5, 6, 7, 8, 9, 10, 11, 12, 13]:
        yield f"null as part {index}", with_part(index, "null"), NO_DOCUMENT
        yield f"text as part {index}", with_part(index, '"BLOCKS"'), NO_DOCUMENT
    for text in ["null", "0", "1", '"false"', "[]"]:
        yield f"returns {text}", with_part(4, text), NO_DOCUMENT
    for text in ["[]", "[[]]", "[[],[],[]]", '["VERTEX","BASIC"]', "[null,[]]", "[[],null]"]:
        yield f"subgroup sets {text}", with_part(3, text), NO_DOCUMENT
    for text in ["[]", "[null,null,[]]", "[null,null,null,null,[]]", "[null,null,null,null]", "[null,null,[],[]]"]:
        yield f"special types {text}", with_part(6, text), NO_DOCUMENT
    for text in ["[]", "[[]]", "[null,null]", "[[],null,null]", "[[],[]]"]:
        yield f"filters {text}", with_part(7, text), NO_DOCUMENT

    # words
    sets = {
        "flag": (FLAGS, lambda words: document(flags=words)),
        "capability": (CAPABILITIES, lambda words: document(capabilities=words)),
        "stage": (STAGES, lambda words: document(subgroups=[words, []])),
        "subgroup word": (SUBGROUPS, lambda words: document(subgroups=[[], words])),
    }
    for what, (words, made) in sets.items():
        for word in words:
            yield f"{what} {word}", made([word]), ACCEPTED
        yield f"every {what}", made(words), ACCEPTED
        yield f"every {what}, in the other order", made(words[::-1]), ACCEPTED
        yield f"no {what}", made([]), ACCEPTED
        yield f"{what} written twice", made([words[0], words[0]]), ACCEPTED
        for odd in [words[1].lower(), words[1].capitalize(), words[1][:-1], words[1] + "S", " " + words[1], "", "ALL"]:
            yield f'{what} "{odd}"', made([odd]), NO_DOCUMENT
        yield f"unknown {what} behind known ones", made([*words, "ALL"]), NO_DOCUMENT
        for odd in [None, 1, True, [words[0]]]:
            yield f"{what} {written(odd)}", made([odd]), NO_DOCUMENT
    yield "flag as a capability", document(capabilities=["BLOCKS"]), NO_DOCUMENT
    yield "capability as a flag", document(flags=["SUBGROUP"]), NO_DOCUMENT
    yield "stage as a subgroup word", document(subgroups=[[], ["VERTEX"]]), NO_DOCUMENT
    yield "subgroup word as a stage", document(subgroups=[["BASIC"], []]), NO_DOCUMENT
    yield "stage as an entry point writes it", document(subgroups=[["Vertex"], []]), NO_DOCUMENT

    # types
    for word, needed in SCALARS.items():
        due = ACCEPTED if needed == "" else "refused type 0"
        yield f"type {word}", document([scalar(word)]), due
        yield f"type {word} with every capability", document([scalar(word)], capabilities=CAPABILITIES), \
            "refused type 0" if needed is None else ACCEPTED
        if needed:
            others = [it for it in CAPABILITIES if it != needed]
            yield f"type {word} with {needed}", document([scalar(word)], capabilities=[needed]), ACCEPTED
            yield f"type {word} with all but {needed}", document([scalar(word)], capabilities=others), "refused type 0"
    yield "type aint without flags", document([scalar("aint")], flags=[]), "refused type 0"
    yield "type u32 without flags", document([scalar("u32")], flags=[]), ACCEPTED
    yield "all scalars that need no capability", document([scalar(it) for it, need in SCALARS.items() if need == ""]), ACCEPTED
    yield "bad types 1 and 2", document([scalar("u32"), scalar("aint"), scalar("f16")]), "refused type 1"
    yield "bad types 2 and 3", document([scalar("u32", "a"), scalar("u32", "b"), scalar("f16"), scalar("afloat")]), "refused type 2"
    yield "bad type 1, with the capability of type 0", \
        document([scalar("f16"), scalar("f64")], capabilities=["SHADER_FLOAT16"]), "refused type 1"
    yield "bad type 0, with the capability of type 1", \
        document([scalar("f16"), scalar("f64")], capabilities=["FLOAT64"]), "refused type 0"
    yield "bad type 12", document([scalar("u32", f"name {it}") for it in range(12)] + [scalar("aint")]), "refused type 12"
    for form in [[], ["Scalar"], ["Scalar", "u32", "u32"], ["scalar", "u32"], ["Scalar", "U32"], ["Scalar", "u8"],
                 ["Scalar", "uint"], ["Scalar", ""], ["Scalar", None], ["Scalar", 4], ["Scalar", ["u32"]], ["u32"], "u32",
                 None, 0, ["Vec"], ["Scalar", "Uint", 4]]:
        yield f"type of form {written(form)}", document([[None, form]]), NO_DOCUMENT
    for item in [[], [None], [["Scalar", "u32"]], ["Scalar", "u32"], [None, ["Scalar", "u32"], None], [1, ["Scalar", "u32"]],
                 [True, ["Scalar", "u32"]], [["a"], ["Scalar", "u32"]], None, "u32", 0]:
        yield f"type {written(item)}", document([item]), NO_DOCUMENT

    # equal types
    yield "two equal types", document([scalar("u32", "a"), scalar("u32", "a")]), NO_DOCUMENT
    yield "two types of one form and two names", document([scalar("u32", "a"), scalar("u32", "b")]), ACCEPTED
    yield "two types of one name and two forms", document([scalar("u32", "a"), scalar("i32", "a")]), ACCEPTED
    yield "two types of two widths and no name", document([scalar("f32"), scalar("f64")], capabilities=["FLOAT64"]), ACCEPTED
    yield "two equal types without a name", document([scalar("u32"), scalar("u32")]), NO_DOCUMENT
    yield "two equal types with the empty name", document([scalar("u32", ""), scalar("u32", "")]), NO_DOCUMENT
    yield "no name and the empty name", document([scalar("u32"), scalar("u32", "")]), ACCEPTED
    yield "names that differ in case", document([scalar("u32", "a"), scalar("u32", "A")]), ACCEPTED
    yield "one name, written in two ways", \
        document([scalar("u32", "a"), scalar("u32", "@")]).replace("@", "\\u0061"), NO_DOCUMENT
    yield "first and last type equal", document([scalar("u32"), scalar("i32"), scalar("f32"), scalar("u32")]), NO_DOCUMENT
    yield "last two types equal", document([scalar("u32"), scalar("i32"), scalar("i32")]), NO_DOCUMENT
    yield "two equal types that no capability allows", document([scalar("aint"), scalar("aint")]), NO_DOCUMENT

    # functions and statements
    yield "functions of every statement", document([], [
        function(), function(ret), function(call(0), ret), function(["Block", []]),
        function(["Block", [call(2), ["Block", [call(0), call(1)]], ret]], call(3), ret, ret),
    ]), ACCEPTED
    for returns in [False, True]:
        end = ", returns added" if returns else ""
        yield f"call below in a block{end}", document([], [function(), function(["Block", [call(0)]], ret)], returns=returns), ACCEPTED
        yield f"empty body{end}", document([], [function()], returns=returns), ACCEPTED
        yield f"statements behind a return{end}", document([], [function(), function(ret, call(0), ret)], returns=returns), ACCEPTED
        yield f"function calls itself{end}", document([], [function(call(0))], returns=returns), NO_HANDLES
        yield f"function calls a later one{end}", document([], [function(call(1)), function()], returns=returns), NO_HANDLES
        yield f"return of a missing expression{end}", document([], [function(["Return", 0])], returns=returns), NO_HANDLES
    yield "function calls itself in a block", document([], [function(["Block", [["Block", [call(0)]]]])]), NO_HANDLES
    yield "function calls itself behind a return", document([], [function(ret, call(0))]), NO_HANDLES
    yield "function calls itself behind a good call", document([], [function(), function(call(0), call(1))]), NO_HANDLES
    yield "function calls itself without flags", document([], [function(call(0))], flags=[]), NO_HANDLES
    yield "call of a missing function", document([], [function(), function(call(2))]), NO_HANDLES
    yield "two functions that call one another", document([], [function(call(1)), function(call(0))]), NO_HANDLES
    yield "each function calls the one below", \
        document([], [function()] + [function(call(it)) for it in range(40)]), ACCEPTED
    yield "each function but the last calls one below", \
        document([], [function()] + [function(call(it)) for it in range(39)] + [function(call(40))]), NO_HANDLES
    yield "call with a missing argument", document([], [function(), function(call(0, [0]))]), NO_HANDLES
    yield "call with a missing result", document([], [function(), function(call(0, [], 0))]), NO_HANDLES
    yield "handles go before types", document([scalar("aint")], [function(call(0))]), NO_HANDLES
    yield "types go before functions", document([scalar("u32"), scalar("aint")], [function(), function(call(0))]), "refused type 1"
    for number, due in [(4294967294, NO_HANDLES), (4294967295, NO_DOCUMENT), (4294967296, NO_DOCUMENT), (-1, NO_DOCUMENT),
                        (18446744073709551615, NO_DOCUMENT), (18446744073709551616, NO_DOCUMENT)]:
        yield f"callee {number}", document([], [function(call(number))]), due
        yield f"argument {number}", document([], [function(), function(call(0, [number]))]), due
        yield f"result {number}", document([], [function(), function(call(0, [], number))]), due
        yield f"returned {number}", document([], [function(["Return", number])]), due
    for text in ["0.0", "-0", "0e0", "null", "true", '"0"', "[0]", "00"]:
        yield f"callee {text}", document([], [function(), function(["Call", "@", [], None])]).replace('"@"', text), NO_DOCUMENT
    for text in ["0.0", "-0", "0e0", "true", '"0"', "[]"]:
        yield f"returned {text}", document([], [function(["Return", "@"])]).replace('"@"', text), NO_DOCUMENT
    for item in [[], None, "Return", ["Return"], ["Return", None, None], ["return", None], ["Block"], ["Block", None],
                 ["Block", [], []], ["Block", ret], ["Call", 0, []], ["Call", 0, [], None, None], ["Call", 0, None, None],
                 ["Call", 0, [None], None], ["Call"], [None], [0], [["Return", None]], ["", None], ["Discard"], 0, False]:
        yield f"statement {written(item)}", document([], [function(), function(item)]), NO_DOCUMENT
    yield "bad statement deep in a block", document([], [function(nested(["Discard"], 9))]), NO_DOCUMENT
    for at in range(7):
        item = function()
        del item[at]
        yield f"function without part {at}", document([], [item]), NO_DOCUMENT
    yield "function with a part too many", document([], [function() + [None]]), NO_DOCUMENT
    for item in [None, [], 0, "main"]:
        yield f"function {written(item)}", document([], [item]), NO_DOCUMENT
    for at, odd in [(0, 0), (0, []), (1, None), (2, []), (2, 0), (3, None), (4, None), (5, None), (5, "Return"), (6, "a"), (6, [])]:
        item = function()
        item[at] = odd
        yield f"function with {written(odd)} as part {at}", document([], [item]), NO_DOCUMENT

    # nesting
    yield "61 blocks nested, the innermost empty", document([], [function(nested(None, 61))]), ACCEPTED
    yield "62 blocks nested, the innermost empty", document([], [function(nested(None, 62))]), NO_DOCUMENT
    yield "return in 61 blocks", document([], [function(nested(ret, 61))]), ACCEPTED
    yield "return in 62 blocks", document([], [function(nested(ret, 62))]), NO_DOCUMENT
    yield "call in 60 blocks", document([], [function(), function(nested(call(0), 60))]), ACCEPTED
    yield "call in 61 blocks", document([], [function(), function(nested(call(0), 61))]), NO_DOCUMENT
    yield "call of itself in 60 blocks", document([], [function(nested(call(0), 60))]), NO_HANDLES
    for depth in [126, 127, 128, 200, 10000]:
        yield f"{depth} lists nested", "[" * depth + "]" * depth, NO_DOCUMENT
        yield f"{depth} brackets", "[" * depth, NO_DOCUMENT

    # lengths
    for length in [4095, 4096, 4097, 8192, 100000, MOST_BYTES - 1, MOST_BYTES]:
        yield f"{length} bytes, most of them blank", whole, ACCEPTED, length - len(whole)
    for length in [MOST_BYTES + 1, MOST_BYTES + 2, 2 * MOST_BYTES]:
        yield f"{length} bytes, most of them blank", whole, NO_DOCUMENT, length - len(whole)
    for length in [1, MOST_BYTES, MOST_BYTES + 1, MOST_BYTES + 5000]:
        yield f"{length} blanks alone", "", NO_DOCUMENT, length
    many = document([scalar("u32")], [function(*[ret] * 40)] * 30)
    yield "functions past a few chunks of bytes", many, ACCEPTED
    yield "the same, cut short", many[:-2], NO_DOCUMENT

    # global variables that are used, far apart among many that are not
    def referring(globals, used, body=()):
        made = parts([scalar("u32")], capabilities=["IMMEDIATES"])
        made[11] = [[None, space, binding, 0, None, []] for space, binding in globals]
        made[13] = [["Compute", "main", None, [1, 1, 1], None, None,
                     [None, [], None, [], [["GlobalVariable", at] for at in used] + [["Literal", "u32", 1]], list(body), None]]]
        return written(made)

    private, buffer, immediate = ("Private", None), ["Storage", ["LOAD"]], ("Immediate", None)
    apart = [0, 62, 63, 64, 65, 127, 128, 192, 199]
    yield "uses far apart", referring([private] * 200, apart), "\n".join(["accepted", "entry 0", *(f"global {at} query" for at in apart)])
    yield "the last of 65 is used", referring([private] * 65, [64]), "accepted\nentry 0\nglobal 64 query"
    yield "none of 65 is used", referring([private] * 65, []), "accepted\nentry 0"
    yield "one of 200 is written", referring([private] * 200, [130], [["Store", 0, 1]]), "accepted\nentry 0\nglobal 130 write"
    shared = [(buffer, [0, 0]) if at in (70, 140) else private for at in range(200)]
    told = [f"buffer {at} size 4 alignment 4" for at in (70, 140)]
    yield "one of two variables of a binding", referring(shared, [140]), "\n".join(["accepted", *told, "entry 0", "global 140 query"])
    yield "both variables of a binding", referring(shared, [70, 140]), "refused entry 0"
    immediates = [immediate if at in (70, 150) else private for at in range(200)]
    yield "one of two immediates", referring(immediates, [3, 150]), "accepted\nentry 0\nglobal 3 query\nglobal 150 query"
    yield "both immediates", referring(immediates, [70, 150]), "refused entry 0"


def control_rows():
    """Results, literals, and the statements that steer."""
    ret, brk, cont, kill = ["Return", None], ["Break"], ["Continue"], ["Kill"]
    literals = [["Literal", "bool", True], ["Literal", "u32", 0], ["Literal", "i32", 0]]
    truth, whole, signed = 0, 1, 2
    answer = ["Return", whole]
    bad = "refused function 0"
    no_blocks = [it for it in FLAGS if it != "BLOCKS"]

    def fun(*body, expressions=literals, result=None):
        return [None, [], None if result is None else [result, None], [], list(expressions), list(body), None]

    def one(*body, result=None, expressions=literals, types=(scalar("u32"),), **named):
        return document(types, [fun(*body, result=result, expressions=expressions)], **named)

    def block(*body):
        return ["Block", list(body)]

    def choice(accept=(), reject=(), condition=truth):
        return ["If", condition, list(accept), list(reject)]

    def loop(body=(), continuing=(), condition=None):
        return ["Loop", list(body), list(continuing), condition]

    def case(value, *body, falls=False):
        return [value if isinstance(value, list) else ["U32", value], list(body), falls]

    def default(*body, falls=False):
        return case(["Default"], *body, falls=falls)

    def switch(*cases, on=whole):
        return ["Switch", on, list(cases)]

    def call(to, arguments=(), result=None):
        return ["Call", to, list(arguments), result]

    # where a statement may not leave its block, and where it may
    yield "break in a continuing part", document([scalar("u32")], [function(loop([], [brk]))]), bad
    yield "continue in a continuing part", document([scalar("u32")], [function(loop([], [cont]))]), bad
    yield "return in a continuing part", document([scalar("u32")], [function(loop([], [ret]))]), bad
    only_whole = [literals[whole]]
    yield "continue in the default of a switch in a loop", \
        one(loop([switch(default(cont), on=0)]), expressions=only_whole), ACCEPTED
    yield "break in the default of a switch in a continuing part", \
        one(loop([], [switch(default(brk), on=0)]), expressions=only_whole), ACCEPTED
    yield "case that falls into the default", one(switch(case(1, falls=True), default(), on=0), expressions=only_whole), ACCEPTED
    yield "signed value for an unsigned selector", \
        one(switch(case(["I32", 1], falls=True), default(), on=0), expressions=only_whole), bad
    yield "one value in two cases", \
        one(switch(case(1, falls=True), case(1, falls=True), default(), on=0), expressions=only_whole), bad
    yield "switch with a case and no default", one(switch(case(1, falls=True), on=0), expressions=only_whole), bad
    yield "default that falls through at the end", \
        one(switch(case(1, falls=True), default(falls=True), on=0), expressions=only_whole), bad
    for returns, due in [(False, ACCEPTED), (True, bad)]:
        end = ", returns added" if returns else ""
        yield f"loop that returns a value, and nothing behind it{end}", \
            one(loop([["Return", 0]]), result=0, expressions=only_whole, returns=returns), due
        yield f"empty body of a function with a result{end}", one(result=0, expressions=[], returns=returns), due
        yield f"choice that kills on one side, in a function with a result{end}", one(choice([kill]), result=0, returns=returns), due
        yield f"default that breaks at the end of a function with a result{end}", \
            one(switch(default(brk), on=0), result=0, expressions=only_whole, returns=returns), ACCEPTED
    yield "break in a function's body", document([], [function(brk)]), bad
    yield "break in a function's body, without flags", document([], [function(brk)], flags=[]), ACCEPTED
    yield "truth returned as a number", one(["Return", 0], result=0, expressions=[literals[truth]]), bad

    # how a place may be left: b by a break, c by a continue, r by a return
    ways = {
        "block": block, "accepted side": lambda it: choice([it]), "rejected side": lambda it: choice([], [it]),
        "case": lambda it: switch(case(1, it), default()), "falling case": lambda it: switch(case(1, it, falls=True), default()),
        "default": lambda it: switch(case(1), default(it)), "early default": lambda it: switch(default(it), case(1)),
        "loop": lambda it: loop([it]), "continuing part": lambda it: loop([], [it]),
        "loop with a condition": lambda it: loop([it], [], truth),
        "continuing part with a condition": lambda it: loop([], [it], truth),
    }
    # the innermost is written first
    places = {
        "": "r", "block": "r", "accepted side": "r", "rejected side": "r", "block < block": "r", "block < accepted side": "r",
        "rejected side < accepted side": "r",
        "case": "br", "falling case": "br", "default": "br", "early default": "br", "block < case": "br",
        "accepted side < default": "br", "rejected side < falling case": "br", "case < case": "br", "case < block": "br",
        "default < rejected side": "br",
        "loop": "bcr", "loop with a condition": "bcr", "block < loop": "bcr", "accepted side < loop": "bcr",
        "rejected side < loop": "bcr", "case < loop": "bcr", "falling case < loop": "bcr", "default < loop": "bcr",
        "loop < case": "bcr", "loop < loop": "bcr", "case < block < loop": "bcr", "block < case < loop": "bcr",
        "case < case < loop": "bcr", "loop < block": "bcr", "loop < rejected side < case < loop": "bcr",
        "continuing part": "", "continuing part with a condition": "", "block < continuing part": "",
        "accepted side < continuing part": "", "rejected side < continuing part": "",
        "block < block < continuing part": "", "block < accepted side < continuing part": "",
        "continuing part < continuing part": "", "continuing part < loop": "", "continuing part < case": "",
        "continuing part < case < loop": "", "continuing part < loop < continuing part": "",
        "case < continuing part": "b", "falling case < continuing part": "b", "default < continuing part": "b",
        "early default < continuing part": "b", "block < case < continuing part": "b",
        "rejected side < default < continuing part": "b", "case < block < continuing part": "b",
        "case < case < continuing part": "b", "case < continuing part < loop": "b",
        "case < continuing part < case < loop": "b",
        "loop < continuing part": "bc", "block < loop < continuing part": "bc", "case < loop < continuing part": "bc",
        "loop < case < continuing part": "bc", "loop < block < continuing part": "bc",
        "loop < loop < continuing part": "bc", "loop < continuing part < loop": "bc",
        "accepted side < case < loop < continuing part": "bc",
    }

    def put(statement, place):
        for way in place.split(" < ") if place else []:
            statement = ways[way](statement)
        return statement

    for place, letters in places.items():
        where = " in a " + place.replace(" < ", " in a ") if place else " in a body"
        where = where.replace(" a accepted", " an accepted").replace(" a early", " an early")
        for what, statement, free in [("break alone", brk, "b" in letters), ("continue alone", cont, "c" in letters),
                                      ("return alone", ret, "r" in letters), ("kill alone", kill, True),
                                      ("empty block", block(), True)]:
            yield f"{what}{where}", one(put(statement, place)), ACCEPTED if free else bad
            if not free:
                yield f"{what}{where}, with blocks unasked", one(put(statement, place), flags=no_blocks), ACCEPTED
        if "r" not in letters:
            yield f"value returned{where}", one(put(answer, place), answer, result=0), bad
        else:
            yield f"value returned{where}", one(put(answer, place), answer, result=0), ACCEPTED
            yield f"value returned{where}, with no result", one(put(answer, place)), bad
        yield f"condition that is a number{where}", one(put(choice(condition=whole), place)), bad
        yield f"missing condition{where}", one(put(choice(condition=3), place)), NO_HANDLES
        yield f"call with an argument{where}", document([], [fun(), fun(put(call(0, [0]), place))], flags=[]), "refused function 1"
        yield f"word that no statement has{where}", one(put(["Discard"], place)), NO_DOCUMENT
    for first in [brk, cont, ret, kill]:
        word = first[0]
        yield f"statements behind {word} in a loop", one(loop([first, block(), ret, brk, kill, cont])), ACCEPTED
        yield f"bad statement behind {word} in a loop", one(loop([first, choice(condition=whole)])), bad
    yield "break behind a loop", one(loop(), brk), bad
    yield "continue behind a switch in no loop", one(switch(default()), cont), bad
    yield "loops of a body and a continuing part, each left by a break", one(loop([brk], [loop([brk])])), ACCEPTED
    yield "break in a loop, with BLOCKS alone", one(loop([brk]), flags=["BLOCKS"]), ACCEPTED
    yield "break in a continuing part, with BLOCKS alone", one(loop([], [brk]), flags=["BLOCKS"]), bad
    for flag in no_blocks:
        yield f"break in a continuing part, with {flag} alone", one(loop([], [brk]), flags=[flag]), ACCEPTED

    # conditions
    for at, due in [(truth, ACCEPTED), (whole, bad), (signed, bad), (3, NO_HANDLES), (4294967294, NO_HANDLES)]:
        for what, made in [("choice", choice(condition=at)), ("loop", loop(condition=at))]:
            yield f"{what} by expression {at}", one(made), due
            yield f"{what} by expression {at}, without flags", one(made, flags=[]), NO_HANDLES if due == NO_HANDLES else ACCEPTED
    yield "choice by a truth that is false", one(choice(condition=0), expressions=[["Literal", "bool", False]]), ACCEPTED
    yield "loop without a condition", one(loop()), ACCEPTED

    # switches
    top, low = 4294967295, -2147483648
    rules = {
        "default alone": (switch(default()), True),
        "no case": (switch(), False),
        "two defaults": (switch(default(), default()), False),
        "two defaults around a case": (switch(default(), case(1), default()), False),
        "default first": (switch(default(), case(1)), True),
        "default in the middle that falls through": (switch(case(1), default(falls=True), case(2)), True),
        "case behind the default that falls through at the end": (switch(default(), case(1, falls=True)), False),
        "all but the last fall through": (switch(case(1, falls=True), case(2, falls=True), default()), True),
        "all fall through": (switch(case(1, falls=True), case(2, falls=True), default(falls=True)), False),
        "two values": (switch(case(1), case(2), default()), True),
        "least and greatest unsigned values": (switch(case(0), case(top), default()), True),
        "least and greatest signed values": (switch(case(["I32", low]), case(["I32", 2147483647]), default(), on=signed), True),
        "one signed value and its opposite": (switch(case(["I32", 1]), case(["I32", -1]), default(), on=signed), True),
        "one signed value twice": (switch(case(["I32", -1]), default(), case(["I32", -1]), on=signed), False),
        "one value in the first and the last case": (switch(case(7), case(8), default(), case(9), case(7)), False),
        "unsigned value for a signed selector": (switch(case(1), default(), on=signed), False),
        "signed value for an unsigned selector, behind a good one": (switch(case(1), case(["I32", 2]), default()), False),
        "one number as a signed and an unsigned value": (switch(case(1), case(["I32", 1]), default()), False),
        "truth as the selector": (switch(default(), on=truth), False),
        "truth as the selector, with a value": (switch(case(1), default(), on=truth), False),
        "signed selector": (switch(default(), on=signed), True),
        "many values": (switch(*[case(it) for it in range(300)], default()), True),
        "many values, the last of them again": (switch(*[case(it) for it in range(300)], default(), case(299)), False),
        "many values, the first of them again": (switch(*[case(it) for it in range(300)], default(), case(0)), False),
        "bad switch in a case": (switch(case(1, switch()), default()), False),
        "bad switch in a case that falls through": (switch(case(1, switch(), falls=True), default()), False),
        "one value in a switch and in a switch inside": (switch(case(1, switch(case(1), default())), default()), True),
    }
    for name, (statement, good) in rules.items():
        yield f"switch: {name}", one(statement), ACCEPTED if good else bad
        yield f"switch: {name}, returns added", one(statement, returns=True), ACCEPTED if good else bad
        yield f"switch: {name}, without flags", one(statement, flags=[]), ACCEPTED
    yield "switch by a missing expression", one(switch(default(), on=3)), NO_HANDLES
    yield "switch by a missing expression, without flags", one(switch(default(), on=3), flags=[]), NO_HANDLES

    # results and what is returned
    words = {"bool": truth, "u32": whole, "i32": signed}
    for word, needed in SCALARS.items():
        for literal, at in words.items():
            due = "refused type 0" if needed is None else ACCEPTED if word == literal else bad
            yield f"{literal} returned as {word}", \
                one(["Return", at], result=0, types=[scalar(word)], capabilities=CAPABILITIES), due
    yield "value of a type with a name", one(answer, result=0, types=[scalar("u32", "a")]), ACCEPTED
    yield "value of the second of two types with one form", one(answer, result=1, types=[scalar("u32", "a"), scalar("u32")]), ACCEPTED
    yield "value of another type than the declared one", one(answer, result=1, types=[scalar("u32"), scalar("i32")]), bad
    yield "no value where there is a result", one(ret, result=0), bad
    yield "no value where there is a result, without flags", one(ret, result=0, flags=[]), ACCEPTED
    yield "value where there is no result", one(answer), bad
    yield "value where there is no result, without flags", one(answer, flags=[]), ACCEPTED
    yield "value of another type, without flags", one(["Return", truth], result=0, flags=[]), ACCEPTED
    yield "missing value", one(["Return", 3], result=0), NO_HANDLES
    yield "good return behind a bad one", one(ret, answer, result=0), bad
    yield "bad return behind a good one", one(answer, ret, result=0), bad
    yield "result of a missing type", one(result=1), NO_HANDLES
    yield "result of a missing type, without flags", one(result=1, flags=[]), NO_HANDLES
    yield "result of the greatest handle", one(result=4294967294), NO_HANDLES
    yield "result past the greatest handle", one(result=4294967295), NO_DOCUMENT
    for form in ["[]", "[0]", "[0,null,null]", "[null,null]", "[true,null]", '["0",null]', "[-1,null]", "[0.0,null]", "0", "true",
                 '"u32"', "{}", "[0,0]", "[0,false]", "[[0],null]"]:
        yield f"result {form}", written(parts([scalar("u32")], [fun(result="@")])).replace('["@",null]', form), NO_DOCUMENT

    # calls
    callee, gives = fun(), fun(answer, result=0)
    for name, first, statement, due, unasked in [
        ("call without a result", callee, call(0), ACCEPTED, ACCEPTED),
        ("call that drops a result", gives, call(0), "refused function 1", ACCEPTED),
        ("call with a literal as the result of none", callee, call(0, [], 1), "refused function 1", ACCEPTED),
        ("call with a literal as its result", gives, call(0, [], 1), "refused function 1", ACCEPTED),
        ("call with an argument too many", callee, call(0, [1]), "refused function 1", "refused function 1"),
        ("call with two arguments too many", callee, call(0, [1, 1]), "refused function 1", "refused function 1"),
        ("call with an argument too many and a result", gives, call(0, [0], 1), "refused function 1", "refused function 1"),
        ("call with a missing argument behind one that is there", callee, call(0, [1, 3]), NO_HANDLES, NO_HANDLES),
        ("call with a missing result of a callee with one", gives, call(0, [], 3), NO_HANDLES, NO_HANDLES),
    ]:
        for flags, it in [(FLAGS, due), (["BLOCKS"], due), (no_blocks, unasked), ([], unasked)]:
            asked = {len(FLAGS): "all", 1: "BLOCKS", 5: "all but BLOCKS", 0: "no flags"}[len(flags)]
            yield f"{name}, {asked}", document([scalar("u32")], [first, fun(statement)], flags=flags), it

    # which function, and which step
    wrong = fun(brk)
    yield "bad functions 1 and 2", document([], [fun(), wrong, wrong]), "refused function 1"
    yield "bad function 2", document([], [fun(), fun(), wrong]), "refused function 2"
    yield "bad function 0, then good ones", document([], [wrong, fun(), fun()]), bad
    yield "bad function 12", document([], [fun(ret)] * 12 + [wrong]), "refused function 12"
    yield "bad rule in function 0, bad call in function 1", document([], [wrong, fun(call(0, [0]))]), bad
    yield "bad rule in function 0 unasked, bad call in function 1", \
        document([], [wrong, fun(call(0, [0]))], flags=[]), "refused function 1"
    yield "bad call in function 1, bad rule in function 2", document([], [fun(), fun(call(0, [0])), wrong]), "refused function 1"
    yield "call of a bad function", document([], [wrong, fun(call(0))]), bad
    yield "types go before bad functions", document([scalar("aint")], [wrong]), "refused type 0"
    yield "handles go before bad functions", document([], [wrong, fun(["Return", 3])]), NO_HANDLES
    yield "form goes before bad functions", document([], [wrong, fun(["Return", -1])]), NO_DOCUMENT
    yield "expressions are each function's own", \
        document([], [fun(choice(condition=0)), fun(choice(condition=0), expressions=[])]), NO_HANDLES
    yield "expression 0 is a number in one function", \
        document([], [fun(choice(condition=0)), fun(choice(condition=0), expressions=only_whole)]), "refused function 1"

    # returns that are put in: in a function with a result they are seen, as they give no value
    made = {
        "empty body": ([], True), "a return": ([answer], False), "a kill": ([kill], False), "a call": ([call(0)], True),
        "an empty block": ([block()], True), "a block with a return": ([block(answer)], False),
        "a block with a kill": ([block(kill)], False), "a block with a call": ([block(call(0))], True),
        "a return behind an empty block": ([block(), answer], False),
        "three blocks, the innermost empty": ([block(block(block()))], True),
        "three blocks around a return": ([block(block(block(answer)))], False),
        "a choice with empty sides": ([choice()], True), "a choice that returns on both sides": ([choice([answer], [answer])], False),
        "a choice that returns where it holds": ([choice([answer])], True),
        "a choice that returns where it doesn't": ([choice([], [answer])], True),
        "a choice that returns or kills": ([choice([answer], [kill])], False),
        "a return behind an empty choice": ([choice(), answer], False),
        "a choice with an open block": ([choice([block()], [answer])], True),
        "a choice in a choice, all closed": ([choice([choice([answer], [kill])], [answer])], False),
        "a choice in a choice, one side open": ([choice([choice([answer])], [answer])], True),
        "an empty default": ([switch(default())], True), "a default that breaks": ([switch(default(brk))], False),
        "a default that returns": ([switch(default(answer))], False), "a default that calls": ([switch(default(call(0)))], True),
        "an empty case that falls through": ([switch(case(1, falls=True), default(answer))], False),
        "an empty case that doesn't fall through": ([switch(case(1), default(answer))], True),
        "a case that calls and falls through": ([switch(case(1, call(0), falls=True), default(kill))], False),
        "an open choice that falls through": ([switch(case(1, choice(), falls=True), default(brk))], False),
        "a case that breaks, and an open default": ([switch(case(1, brk), default())], True),
        "a case with a choice that breaks or returns": ([switch(case(1, choice([brk], [answer])), default(block(kill)))], False),
        "a case with a choice that breaks or goes on": ([switch(case(1, choice([brk])), default(answer))], True),
        "a switch in a default, which breaks": ([switch(default(switch(default(brk))))], False),
        "a switch in a default, which is empty": ([switch(default(switch(default())))], True),
        "a return behind an open switch": ([switch(default()), answer], False),
        "a loop": ([loop()], True), "a loop that returns": ([loop([answer])], True), "a loop that breaks": ([loop([brk])], True),
        "a return behind a loop": ([loop(), answer], False), "a loop in a block": ([block(loop())], True),
        "a loop on one side": ([choice([loop()], [answer])], True), "a loop in a default": ([switch(default(loop([answer])))], True),
        "an open choice in a loop, and a return": ([loop([choice()]), answer], False),
        "an empty block behind a return": ([answer, block()], True), "a kill behind a return": ([answer, kill], False),
        "a call behind a return": ([answer, call(0)], True), "a loop behind a kill": ([kill, loop()], True),
    }
    for name, (body, open_end) in made.items():
        for returns in [False, True]:
            for flags in [FLAGS, []]:
                due = "refused function 1" if open_end and returns and flags else ACCEPTED
                end = ", returns added" * returns + ", without flags" * (not flags)
                yield f"result, and at the end {name}{end}", \
                    document([scalar("u32")], [fun(), fun(*body, result=0)], flags=flags, returns=returns), due
        plain = json.loads(written(body).replace(written(answer), written(ret)))
        yield f"no result, and at the end {name}, returns added", document([], [fun(), fun(*plain)], returns=True), ACCEPTED
    yield "break in a body, returns added", one(brk, returns=True), bad
    yield "break in a continuing part, returns added", one(loop([], [brk]), returns=True), bad
    yield "second function open, returns added", \
        document([scalar("u32")], [fun(), fun(answer, result=0), fun(result=0)], returns=True), "refused function 2"

    # forms of statements
    forms = """
        ["If"] ["If",0] ["If",0,[]] ["If",0,[],[],[]] ["If",[],[]] ["If",null,[],[]] ["If",-1,[],[]] ["If",true,[],[]]
        ["If","0",[],[]] ["If",0.0,[],[]] ["If",[0],[],[]] ["If",4294967295,[],[]] ["If",0,null,[]] ["If",0,[],null] ["If",0,0,[]]
        ["If",0,["Kill"],[]] ["If",0,[],["Kill"]] ["If",0,[[]],[]] ["If",0,[null],[]] ["if",0,[],[]] ["If",0,{},[]]
        ["Loop"] ["Loop",[]] ["Loop",[],[]] ["Loop",[],[],null,null] ["Loop",[],null] ["Loop",null,[],null] ["Loop",[],null,null]
        ["Loop",[],[],true] ["Loop",[],[],"0"] ["Loop",[],[],[]] ["Loop",[],[],-1] ["Loop",[],[],0.0] ["Loop",[],[],4294967295]
        ["Loop",["Kill"],[],null] ["Loop",[],["Kill"],null] ["Loop",0,[],null] ["loop",[],[],null] ["Loop",[],[],{}]
        ["Switch"] ["Switch",1] ["Switch",1,[[["Default"],[],false]],null] ["Switch",[[["Default"],[],false]]]
        ["Switch",null,[[["Default"],[],false]]] ["Switch",true,[]] ["Switch","1",[]] ["Switch",1.0,[]] ["Switch",-1,[]]
        ["Switch",4294967295,[]] ["Switch",1,null] ["Switch",1,0] ["Switch",1,[[]]] ["Switch",1,[null]] ["Switch",1,["Default"]]
        ["Switch",1,[["Default"]]] ["Switch",1,[["Default",[],false]]] ["Switch",1,[[["Default"],[]]]]
        ["Switch",1,[[["Default"],[],false,null]]] ["Switch",1,[[["Default"],null,false]]] ["Switch",1,[[["Default"],[],null]]]
        ["Switch",1,[[["Default"],[],0]]] ["Switch",1,[[["Default"],[],"false"]]] ["Switch",1,[[["Default"],false,[]]]]
        ["Switch",1,[[null,[],false]]] ["Switch",1,[[1,[],false]]] ["Switch",1,[[[],[],false]]] ["Switch",1,[["",[],false]]]
        ["Switch",1,[[["Default"],["Kill"],false]]] ["switch",1,[[["Default"],[],false]]] ["Switch",1,{}]
        ["Break",null] ["Break",0] ["Break",[]] ["break"] ["Break",["Break"]] ["Continue",null] ["Continue",0] ["Continue",[]] ["continue"]
        ["Kill",null] ["Kill",0] ["Kill",[]] ["kill"] "Break" "Continue" "Kill" "Loop" [["Break"]] ["Return",true] ["Return",[1]]
    """.split()
    for form in forms:
        yield f"form {form}", one("@").replace('"@"', form), NO_DOCUMENT
        yield f"form {form} in a loop, without flags", one(loop(["@"]), flags=[]).replace('"@"', form), NO_DOCUMENT
    for value in ['["Default",0]', '["Default",null]', '["default"]', '["U32"]', '["U32",null]', '["U32",1,1]', '["U32",-1]',
                  '["U32",4294967296]', '["U32",1.0]', '["U32","1"]', '["U32",true]', '["U32",[1]]', '["u32",1]', '["I32"]',
                  '["I32",null]', '["I32",1,1]', '["I32",2147483648]', '["I32",-2147483649]', '["I32",-0]', '["I32",1e0]',
                  '["I32","1"]', '["I32",false]', '["i32",1]', '["Bool",true]', '["I64",1]', '["U32",18446744073709551616]',
                  '["I32",-9223372036854775809]', '[1]', '["Sint",1]', '[null]', '{}']:
        yield f"switch value {value}", one(switch(case(["@"]), default())).replace('["@"]', value), NO_DOCUMENT
    for value, at in [('["U32",0]', whole), ('["U32",4294967295]', whole), ('["I32",2147483647]', signed),
                      ('["I32",-2147483648]', signed), ('["I32",-1]', signed), ('["I32",0]', signed)]:
        yield f"switch value {value}", one(switch(case(["@"]), default(), on=at)).replace('["@"]', value), ACCEPTED

    # forms of expressions
    for form in ['["Literal","bool",true]', '["Literal","bool",false]', '["Literal","u32",0]', '["Literal","u32",4294967295]',
                 '["Literal","i32",0]', '["Literal","i32",2147483647]', '["Literal","i32",-2147483648]', '["Literal","i32",-1]']:
        yield f"expression {form}", one(expressions=["@"]).replace('"@"', form), ACCEPTED
        yield f"expression {form} twice", one(expressions=["@", "@"]).replace('"@"', form), ACCEPTED
    for form in ['[]', 'null', '0', '"Literal"', '["Literal"]', '["Literal","u32"]', '["Literal","u32",0,0]', '["Literal",0]',
                 '["literal","u32",0]', '["Literal","U32",0]', '["Literal",null,0]', '["Literal",["u32"],0]', '["Literal","uint",0]',
                 '["Literal","",0]', '["Literal","bool",0]', '["Literal","bool",1]', '["Literal","bool",null]',
                 '["Literal","bool","true"]', '["Literal","bool",[]]', '["Literal","u32",-1]', '["Literal","u32",4294967296]',
                 '["Literal","u32",0.0]', '["Literal","u32",-0]', '["Literal","u32",null]', '["Literal","u32",true]',
                 '["Literal","u32","0"]', '["Literal","u32",1e2]', '["Literal","i32",2147483648]', '["Literal","i32",-2147483649]',
                 '["Literal","i32",1.5]', '["Literal","i32",null]', '["Literal","i32",false]', '["Literal","i32",4294967295]',
                 '["Literal","u32",18446744073709551616]', '["Literal","i32",-9223372036854775809]', '["Number","u32",0]', '{}',
                 '[["Literal","u32",0]]', '["Literal","u32",{}]']:
        yield f"expression {form}", one(expressions=["@"]).replace('"@"', form), NO_DOCUMENT
        yield f"expression {form} behind a good one", \
            one(expressions=[literals[0], "@"], flags=[]).replace('"@"', form), NO_DOCUMENT

    # nesting: a choice and a loop cost two levels, as a block does, and a switch four
    def into(way, times, statement=None):
        for _ in range(times):
            statement = way([] if statement is None else [statement])
        return statement

    twos = {
        "choices, accepted sides": lambda it: ["If", truth, it, []], "choices, rejected sides": lambda it: ["If", truth, [], it],
        "loops": lambda it: ["Loop", it, [], None], "loops, continuing parts": lambda it: ["Loop", [], it, None],
    }
    for name, way in twos.items():
        yield f"61 nested {name}, the innermost empty", one(into(way, 61)), ACCEPTED
        yield f"62 nested {name}, the innermost empty", one(into(way, 62)), NO_DOCUMENT
        yield f"kill in 61 nested {name}", one(into(way, 61, kill)), ACCEPTED
        yield f"kill in 62 nested {name}", one(into(way, 62, kill)), NO_DOCUMENT
        yield f"break in 61 nested {name}", one(into(way, 61, brk)), ACCEPTED if name == "loops" else bad
        yield f"61 nested {name}, the innermost empty, returns added", one(into(way, 61), returns=True), ACCEPTED
    cases_in = lambda it: ["Switch", whole, [[["Default"], it, False]]]
    yield "30 nested switches, the innermost empty", one(into(cases_in, 30)), ACCEPTED
    yield "31 nested switches, the innermost empty", one(into(cases_in, 31)), NO_DOCUMENT
    yield "break in 30 nested switches", one(into(cases_in, 30, brk)), ACCEPTED
    yield "continue in 30 nested switches", one(into(cases_in, 30, cont)), bad
    yield "continue in 30 nested switches in a loop", one(loop([into(cases_in, 30, cont)])), ACCEPTED
    yield "switch without cases in 30 nested switches", one(into(cases_in, 30, switch())), bad
    yield "kill in a block in 30 nested switches", one(into(cases_in, 30, block(kill))), ACCEPTED
    yield "kill in two blocks in 30 nested switches", one(into(cases_in, 30, block(block(kill)))), NO_DOCUMENT
    yield "default in 30 nested switches in a block", one(block(into(cases_in, 30))), ACCEPTED
    yield "default in 30 nested switches in two blocks", one(block(block(into(cases_in, 30)))), NO_DOCUMENT
    yield "61 nested blocks, returns added", one(into(lambda it: ["Block", it], 61), returns=True), ACCEPTED
    yield "61 nested blocks of a function with a result, returns added", \
        one(into(lambda it: ["Block", it], 61), returns=True, result=0), bad
    yield "62 nested blocks, returns added", one(into(lambda it: ["Block", it], 62), returns=True), NO_DOCUMENT


def case(row):
    name, text, due, spaces = row if len(row) == 4 else (*row, 0)
    made = {"name": name}
    if isinstance(text, bytes):
        made["input_b64"] = base64.b64encode(text).decode()
    else:
        made["input"] = text
    if spaces:
        made["spaces"] = spaces
    made["output"] = due + "\n"
    return json.dumps(made, ensure_ascii=False)


def documents_of(folder):
    """The documents of a folder, each with the answer beside it."""
    for file in sorted(folder.glob("*.json")):
        due = file.with_suffix(".txt").read_text()
        yield json.dumps({"name": file.stem, "input": file.read_text(), "output": due}, ensure_ascii=False)


def listed(lines):
    lines = list(lines)
    names = [json.loads(it)["name"] for it in lines]
    again = {it for it in names if names.count(it) > 1}
    if again:
        sys.exit(f"make_data: two cases have one name: {sorted(again)}")
    return "[\n" + ",\n".join(lines) + "\n]\n"


def corpus(file):
    """The cases of a file, each as it stands, or with its document as the input; a name that comes again gets its line."""
    seen = set()
    for number, line in enumerate(file.read_text().rstrip("\n").split("\n")):
        read = json.loads(line)
        if "document" in read or read.get("form"):
            output = read.get("whole", read["output"])
            name = f"{read['name']}/{number}" if read["name"] in seen else read["name"]
            seen.add(name)
            line = json.dumps({"name": name, "input": read.get("document", read.get("input")), "output": output})
        yield line


def marks_of(read):
    """What a case shows that another may not."""
    verdict, *told = read["output"].rstrip("\n").split("\n")
    yield "verdict", verdict
    yield "lines", len(told)
    yield "word", [it for it in read["name"].split("/") if not it.isdigit()][-1]
    for line in told:
        yield "line", *(it for it in line.split() if not it.isdigit())


def some(lines):
    """The shortest of these cases, EACH for each thing that they show, in the same order."""
    lines = list(lines)
    count, taken = {}, set()
    for place in sorted(range(len(lines)), key=lambda it: len(lines[it])):
        marks = set(marks_of(json.loads(lines[place])))
        if any(count.get(mark, 0) < EACH for mark in marks):
            taken.add(place)
            for mark in marks:
                count[mark] = count.get(mark, 0) + 1
    return [lines[place] for place in sorted(taken)]


def main(words):
    if words[:1] in (["--corpus"], ["--some"]) and len(words) in (3, 4):
        cases = Path(words[2])
        lines = documents_of(cases) if cases.is_dir() else corpus(cases)
        file = Path(*words[3:] or [DATA]) / f"{words[1]}.json"
        file.write_text(listed(some(lines) if words[0] == "--some" else lines))
        return 0
    if words not in ([], ["--check"]):
        sys.exit(__doc__)
    status = 0
    for name, lines in [("examples.json", documents_of(EXAMPLES)), ("rows-first.json", map(case, rows())),
                        ("rows-control.json", map(case, control_rows())), ("format.json", format_cases.cases()),
                        ("malformed.json", map(case, malformed_cases.rows()))]:
        text, file = listed(lines), DATA / name
        if not words:
            file.write_text(text)
        elif not file.is_file() or file.read_text() != text:
            print(f"make_data: data/{name} is not what this program would write")
            status = 1
    return status


if __name__ == "__main__":
    sys.exit(main(sys.argv[1:]))

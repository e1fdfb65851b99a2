#!/usr/bin/env python3
"""Writes WGSL shaders by chance: wgsl_texts.py COUNT [SEED]

Each is one line of JSON with a `name` and a `text`: `right/N` is a shader of a grammar, with constants, overrides, structs, resources,
helper functions and entry points; `wrong/N` is one with one mistake, in a type, a name, an argument, a number, an attribute or a
statement; `mutant/N` is one of examples/wgsl or of these with a token taken out, doubled, swapped or replaced. Each third is of one
kind.
"""
import json
import random
import re
import sys
from pathlib import Path

TOP = Path(__file__).resolve().parent.parent
TOKEN = re.compile(r"//[^\n]*|[A-Za-z_]\w*|0x[\w.]+(?:[+-]\d+)?|\d[\w.]*|\.\d\w*|\s+|[-+*/%&|^<>=!]=|&&|\|\||->|<<|>>|\+\+|.", re.DOTALL)
NUMBERS, INTEGERS = ("i32", "u32", "f32"), ("i32", "u32")
WORDS = "amount angle area base bias blend centre cell change colour count cover decay depth edge energy factor fade force gain grid height hit index level light limit mass noise normal offset origin phase place power radius ratio ray reach scale seed shade size slope speed start step sum tint total turn value wave weight width".split()
SHORT = {"i32": "i", "u32": "u", "f32": "f", "f16": "h"}
ONE = "abs ceil floor round trunc fract sign sqrt sin cos tan exp exp2 log log2 saturate radians degrees inverseSqrt tanh sinh cosh atan quantizeToF16".split()
TWO, THREE = "min max pow step atan2".split(), "clamp mix smoothstep fma".split()
KNOWN = "abs ceil floor round trunc fract sign sqrt saturate".split()
COMPARISONS = ["==", "!=", "<", "<=", ">", ">="]
INPUTS = {"global_invocation_id": ("vec", 3, "u32"), "local_invocation_id": ("vec", 3, "u32"), "local_invocation_index": "u32",
          "workgroup_id": ("vec", 3, "u32"), "num_workgroups": ("vec", 3, "u32")}
SAMPLED = {"texture_1d": 1, "texture_2d": 2, "texture_2d_array": 2, "texture_3d": 3, "texture_cube": 3, "texture_cube_array": 3}
DEPTHS = {"texture_depth_2d": 2, "texture_depth_2d_array": 2, "texture_depth_cube": 3, "texture_depth_cube_array": 3}
STORED = {"texture_storage_1d": 1, "texture_storage_2d": 2, "texture_storage_2d_array": 2, "texture_storage_3d": 3}
FORMATS = {"rgba8unorm": "f32", "rgba16float": "f32", "r32float": "f32", "rgba32float": "f32", "r32uint": "u32", "rgba8uint": "u32",
           "rgba16uint": "u32", "r32sint": "i32", "rgba32sint": "i32", "rgba8snorm": "f32", "rg32float": "f32"}
ATOMICS = "Add Sub Max Min And Or Xor Exchange".split()


def spell(ty):
    """The text of a type."""
    if isinstance(ty, str):
        return ty
    if ty[0] == "vec":
        return f"vec{ty[1]}<{ty[2]}>"
    if ty[0] == "mat":
        return f"mat{ty[1]}x{ty[2]}<{ty[3]}>"
    if ty[0] == "array":
        return f"array<{spell(ty[1])}, {ty[2]}>" if ty[2] else f"array<{spell(ty[1])}>"
    if ty[0] == "atomic":
        return f"atomic<{ty[1]}>"
    if ty[0] == "pointer":
        return f"ptr<{ty[1]}, {spell(ty[2])}>"
    return ty[1]


def scalar(ty):
    """The scalar of a scalar, vector or matrix, or nothing."""
    return ty if isinstance(ty, str) else ty[-1] if ty[0] in ("vec", "mat") else None


class Shader:
    """A shader on its way: what is declared, and the scopes of what is made now."""

    def __init__(self, seed, mistake=0):
        self.dice = random.Random(seed)
        self.mistake, self.points, self.made = mistake, 0, ""
        self.names, self.scopes, self.structs, self.functions, self.textures, self.samplers = 0, [[]], {}, [], [], []
        self.atomics, self.inside, self.flat = [], [], 0
        self.half = self.chance(.15)

    def chance(self, p):
        return self.dice.random() < p

    def pick(self, *of):
        return self.dice.choice(of[0] if len(of) == 1 else of)

    def errs(self, what):
        """Whether the one mistake is made here."""
        self.points += 1
        if self.points == self.mistake:
            self.made = what
        return self.points == self.mistake

    def name(self):
        self.names += 1
        made = self.pick(WORDS) + self.pick("", "_") + str(self.names)
        return self.pick("loop", "active", "_", "2nd", "if") if self.errs("name") and self.chance(.3) else made

    # ---- types

    def number(self):
        return self.pick(*NUMBERS, "f32", *(["f16"] if self.half else []))

    def value_type(self, depth=2):
        """A type of values that can be made."""
        kind = self.dice.random()
        if kind < .45:
            return self.pick(self.number(), self.number(), self.number(), "bool")
        if kind < .75:
            return ("vec", self.pick(2, 3, 4), self.number())
        if kind < .83:
            return ("mat", self.pick(2, 3, 4), self.pick(2, 3, 4), self.pick("f32", "f16") if self.half else "f32")
        if kind < .92 and depth:
            return ("array", self.value_type(depth - 1), self.pick(1, 2, 3, 4, 8))
        made = [it for it, members in self.structs.items() if self.is_made(members)]
        return ("struct", self.pick(made)) if made and depth else "f32"

    def is_made(self, members):
        return all(not isinstance(ty, tuple) or ty[0] in ("vec", "mat") or ty[0] == "array" and ty[2] or
                   ty[0] == "struct" and self.is_made(self.structs[ty[1]]) for _, ty in members)

    def shared_type(self, depth=2):
        """A type of what hosts share."""
        while True:
            ty = self.value_type(depth)
            if "bool" not in json.dumps([ty, self.members(ty)]):
                return ty

    def members(self, ty):
        if isinstance(ty, tuple) and ty[0] == "struct":
            return [[each, self.members(each)] for _, each in self.structs[ty[1]]]
        return self.members(ty[1]) if isinstance(ty, tuple) and ty[0] == "array" else []

    def other(self, ty):
        """Another type."""
        return self.pick([it for it in ["i32", "u32", "f32", "bool", ("vec", 2, "f32"), ("vec", 3, "u32"), ("vec", 4, "f32"),
                                        ("mat", 3, 3, "f32"), ("array", "f32", 2)] if it != ty])

    # ---- expressions

    def literal(self, ty, typed):
        if ty == "bool":
            return self.pick("true", "false")
        if self.errs("number") and self.chance(.5):
            return self.pick("00", "1u2", "0x", "1e", "99999999999999", "1.5u", "3e40f", "1h", "0b1", "4294967296u")
        if ty in ("f32", "f16"):
            short = SHORT[ty]
            texts = [f"{self.dice.randrange(1, 40) / 4}{short}", f"{self.dice.randrange(1, 9)}{short}", f"{self.dice.randrange(1, 9)}e-1{short}"]
            free = [f"{self.dice.randrange(1, 80) / 8}", f".{self.dice.randrange(1, 9)}", f"{self.dice.randrange(1, 9)}", "1e2", "0x1.8p1", f"{self.dice.randrange(1, 9)}."]
            return self.pick(texts if typed else texts + free * 2)
        value = self.pick(1, 2, 3, 4, 7, 16, 31, 255, 1000) if self.chance(.9) else 0
        texts = [f"{value}{SHORT[ty]}", f"{hex(value)}{SHORT[ty]}"]
        return self.pick(texts if typed else texts + [str(value)] * 4)

    def leaf(self, ty, phase, typed):
        """A literal, or a constructor of what is simple."""
        if isinstance(ty, str):
            text = self.literal(ty, typed)
            return f"(-{text})" if ty not in ("u32", "bool") and self.chance(.1) else text
        return self.constructor(ty, 0, phase, typed)

    def constructor(self, ty, depth, phase, typed):
        part = lambda of: self.expression(of, depth - 1, phase, typed)
        if isinstance(ty, str):
            other = self.pick(*NUMBERS) if ty != "bool" else "u32"
            return f"{ty}({self.expression(other, depth - 1, phase, typed)})" if depth > 0 else f"{ty}({self.literal(ty, False)})"
        if self.chance(.1):
            return f"{spell(ty)}()"
        if ty[0] == "vec":
            head = self.pick(spell(ty), f"vec{ty[1]}{SHORT[ty[2]]}" if ty[2] in SHORT else spell(ty), spell(ty) if typed else f"vec{ty[1]}")
            if self.chance(.2):
                return f"{head}({part(ty[2])})"
            if ty[1] > 2 and not self.flat and self.chance(.3):
                parts = [part(("vec", ty[1] - 1, ty[2])), part(ty[2])]
                return f"{head}({', '.join(parts if self.chance(.7) else parts[::-1])})"
            count = ty[1] + (self.pick(-1, 1) if self.errs("components") else 0)
            return f"{head}({', '.join(part(ty[2]) for _ in range(count))})"
        if ty[0] == "mat":
            head = spell(ty) if typed or self.chance(.6) else f"mat{ty[1]}x{ty[2]}"
            if self.chance(.5):
                return f"{head}({', '.join(part(('vec', ty[2], ty[3])) for _ in range(ty[1]))})"
            return f"{head}({', '.join(part(ty[3]) for _ in range(ty[1] * ty[2]))})"
        if ty[0] == "array":
            head = spell(ty) if typed or self.chance(.6) else "array"
            count = ty[2] + (self.pick(-1, 1) if self.errs("elements") else 0)
            return f"{head}({', '.join(part(ty[1]) for _ in range(count))})"
        parts = [part(each) for _, each in self.structs[ty[1]]]
        return f"{ty[1]}({', '.join(parts)})"

    def paths(self, wanted, phase):
        """Expressions on what is in scope that have the type."""
        found = []
        for scope in self.scopes:
            for name, ty, how in scope:
                if phase == "const" and how != "const" or phase == "override" and how not in ("const", "override"):
                    continue
                if how == "write":
                    continue
                found += self.parts(f"(*{name})" if how == "pointer" else name, ty, wanted, 3, phase)
        return found

    def parts(self, text, ty, wanted, depth, phase):
        found = [text] if ty == wanted else []
        if not isinstance(ty, tuple) or not depth:
            return found
        if ty[0] == "vec" and self.chance(.6):
            letters = self.pick("xyzw"[:ty[1]], "rgba"[:ty[1]])
            if wanted == ty[2]:
                found += [f"{text}.{self.pick(letters)}", f"{text}[{self.index(ty[1], phase)}]"]
            elif isinstance(wanted, tuple) and wanted[0] == "vec" and wanted[2] == ty[2]:
                found.append(f"{text}.{''.join(self.pick(letters) for _ in range(wanted[1]))}")
        elif ty[0] == "mat" and self.chance(.6):
            found += self.parts(f"{text}[{self.index(ty[1], phase)}]", ("vec", ty[2], ty[3]), wanted, depth - 1, phase)
        elif ty[0] == "array" and self.chance(.7):
            found += self.parts(f"{text}[{self.index(ty[2] or 9, phase)}]", ty[1], wanted, depth - 1, phase)
        elif ty[0] == "struct":
            for name, each in self.structs[ty[1]]:
                found += self.parts(f"{text}.{name}", each, wanted, depth - 1, phase)
        return found

    def index(self, count, phase):
        at = self.dice.randrange(count) if not self.errs("index") else count
        names = [name for scope in self.scopes for name, ty, how in scope if ty in INTEGERS and how in ("let", "var")]
        if phase == "run" and names and self.chance(.4):
            return self.pick(names)
        return self.pick(str(at), f"{at}u", f"{at}i")

    def expression(self, ty, depth=2, phase="run", typed=False):
        """The text of an expression of this type."""
        if self.errs("type"):
            ty = self.other(ty)
        kind = self.dice.random()
        if kind < .35 or depth <= 0:
            found = self.paths(ty, phase)
            if found and self.chance(.85):
                return self.pick(found) if not self.errs("unknown name") else self.pick("missing", "hight", "x.y")
            if depth <= 0:
                return self.leaf(ty, phase, typed)
        if kind < .5:
            return self.constructor(ty, depth, phase, typed)
        made = None
        if kind < .72:
            made = self.operation(ty, depth, phase, typed)
        elif kind < .92:
            made = self.known(ty, depth, typed) if phase != "run" else self.call(ty, depth, typed)
        elif scalar(ty) and ty[0] != "mat":
            # naga ends over a constant `select` of vectors that are made of vectors
            self.flat += 1
            parts = [self.expression(ty, depth - 1, phase, typed) for _ in range(2)]
            self.flat -= 1
            made = f"select({', '.join(parts)}, {self.expression('bool', depth - 1, phase)})"
        return made or self.constructor(ty, depth, phase, typed)

    def operation(self, ty, depth, phase, typed):
        of = scalar(ty)
        part = lambda it, typed=typed: self.expression(it, depth - 1, phase, typed)
        if ty == "bool":
            if self.chance(.4):
                return f"({part('bool')} {self.pick('&&', '||', '&', '|', '==', '!=')} {part('bool')})"
            if self.chance(.15):
                return f"!{self.leaf('bool', phase, typed)}"
            number = self.number()
            return f"({part(number)} {self.pick(COMPARISONS)} {part(number)})"
        if of is None or of == "bool":
            return None
        if ty[0] == "mat":
            if ty[1] == ty[2] and self.chance(.3):
                return f"({part(ty)} * {part(ty)})"
            return self.pick(f"({part(ty)} {self.pick('+-')} {part(ty)})", f"({part(ty)} * {part(of)})")
        if isinstance(ty, tuple) and of in ("f32", "f16") and self.chance(.15):
            columns = self.pick(2, 3, 4)
            if self.chance(.5):
                return f"({part(('mat', columns, ty[1], of), True)} * {part(('vec', columns, of))})"
            return f"({part(('vec', columns, of))} * {part(('mat', ty[1], columns, of), True)})"
        if isinstance(ty, tuple) and self.chance(.25):
            both = [part(ty), part(of)]
            return "({} {} {})".format(*(both[0], self.pick("+-*"), both[1]) if self.chance(.5) else (both[1], self.pick("+-*"), both[0]))
        if of in INTEGERS and self.chance(.35):
            if self.chance(.4):
                right = f"{self.dice.randrange(1, 8)}u" if isinstance(ty, str) else f"vec{ty[1]}<u32>({self.dice.randrange(1, 8)}u)"
                return f"({part(ty, True)} {self.pick('<<', '>>')} {right})"
            return f"({part(ty)} {self.pick('&|^')} {part(ty)})" if self.chance(.8) else f"~{part(ty)}"
        if self.chance(.1) and of != "u32":
            return f"(-{self.leaf(ty, phase, typed) if self.chance(.3) else part(ty)})".replace("--", "- -")
        if self.chance(.25):
            return f"({part(ty)} {self.pick('/%')} {self.nonzero(ty, typed)})"
        return f"({part(ty)} {self.pick('+-*')} {part(ty)})"

    def nonzero(self, ty, typed):
        text = self.leaf(ty, "const", typed)
        return text if not isinstance(ty, str) or re.search("[1-9]", text) else "1"

    def known(self, ty, depth, typed):
        """A function that is computed while the text is read."""
        of = scalar(ty)
        part = lambda it: self.expression(it, depth - 1, "const", typed)
        if of in ("f32", "f16") and ty[0] != "mat":
            return self.pick(f"{self.pick(KNOWN)}({part(ty)})", f"{self.pick('min', 'max')}({part(ty)}, {part(ty)})")
        if of in INTEGERS:
            return self.pick(f"abs({part(ty)})", f"{self.pick('min', 'max')}({part(ty)}, {part(ty)})", f"{self.pick('countOneBits', 'firstLeadingBit')}({part(ty)})")
        return None

    def arguments(self, parts):
        if self.errs("arguments"):
            parts = parts[:-1] if self.chance(.5) else parts + ["1"]
        return ", ".join(parts) + self.pick("", "", "", ",") * bool(parts)

    def call(self, ty, depth, typed):
        """A call of a built-in function or of one of the shader."""
        part = lambda it, typed=typed: self.expression(it, depth - 1, "run", typed)
        made = [it for it in self.functions if it[2] == ty and self.has_pointers(it)]
        if made and self.chance(.4):
            return self.call_of(self.pick(made), depth)
        of = scalar(ty)
        kind = self.dice.random()
        if ty[0] == "mat":
            return f"transpose({part(('mat', ty[2], ty[1], ty[3]), True)})"
        if of in ("f32", "f16"):
            name, parts = self.float_call(ty, of, part)
        elif of in INTEGERS:
            name, parts = self.integer_call(ty, of, part)
        elif ty == "bool":
            name, parts = self.pick(("any", "all")), [f"({part(('vec', 3, 'f32'))} {self.pick(COMPARISONS)} {part(('vec', 3, 'f32'))})"]
        else:
            return None
        if self.errs("function"):
            name = self.pick("lerp", "maximum", "len", "dot", "arrayLength", "vec5", "cross")
        return f"{name}({self.arguments(parts)})" + (self.pick(".fract", ".whole") if name == "modf" else ".fract" if name == "frexp" else "")

    def float_call(self, ty, of, part):
        kind = self.dice.random()
        if isinstance(ty, str) and kind < .3:
            size = self.pick(2, 3, 4)
            name = self.pick("length", "dot", "distance", "determinant") if ty == "f32" else self.pick("length", "dot")
            if name == "determinant":
                return name, [part(("mat", size, size, of), True)]
            return name, [part(("vec", size, of), True) for _ in range(1 + (name != "length"))]
        if isinstance(ty, tuple) and kind < .35:
            name = self.pick("normalize", "reflect", "faceForward", *(["cross"] if ty[1] == 3 else []), "mix", "refract")
            if name == "mix":
                return name, [part(ty), part(ty), part(of)]
            if name == "refract":
                return name, [part(ty, True), part(ty, True), part(of)]
            return name, [part(ty, True) for _ in range({"normalize": 1, "faceForward": 3}.get(name, 2))]
        texture = self.sampled(ty, part) if kind < .5 else None
        if texture:
            return texture
        if of == "f32" and kind > .9 and isinstance(ty, tuple):
            return self.pick([(2, "unpack2x16float"), (2, "unpack2x16unorm"), (4, "unpack4x8unorm"), (4, "unpack4x8snorm")][:2] if ty[1] == 2 else [(4, "unpack4x8unorm"), (4, "unpack4x8snorm")])[1] if ty[1] != 3 else "abs", [part("u32")] if ty[1] != 3 else [part(ty, True)]
        if kind < .56:
            return self.pick("modf", "frexp"), [part(ty, True)]
        if kind < .75:
            return self.pick([it for it in ONE if of == "f32" or it != "quantizeToF16"]), [part(ty, True)]
        if kind < .9:
            return self.pick(TWO), [part(ty, True), part(ty)]
        return self.pick(THREE), [part(ty, True), part(ty), part(ty)]

    def integer_call(self, ty, of, part):
        kind = self.dice.random()
        if isinstance(ty, str) and kind < .2:
            return "dot", [part(("vec", self.pick(2, 3, 4), of), True)] * 2
        if ty == "u32" and kind < .35:
            packed = {"pack4x8unorm": 4, "pack4x8snorm": 4, "pack2x16float": 2, "pack2x16unorm": 2}
            name = self.pick(list(packed))
            return name, [part(("vec", packed[name], "f32"), True)]
        runtime = [name for scope in self.scopes for name, it, _ in scope if isinstance(it, tuple) and it[0] == "array" and not it[2]]
        if ty == "u32" and runtime and kind < .45:
            return "arrayLength", [f"&{self.pick(runtime)}"]
        if ty == ("vec", 2, "u32") and kind < .5 and self.textures:
            flat = [name for name, it in self.textures if "_2d" in it]
            if flat:
                return "textureDimensions", [self.pick(flat)]
        if kind < .6:
            return self.pick("countOneBits", "reverseBits", "firstLeadingBit", "firstTrailingBit", "countLeadingZeros", "abs"), [part(ty, True)]
        if kind < .7:
            both = [part("u32"), part("u32")]
            return self.pick(("extractBits", [part(ty, True), *both]), ("insertBits", [part(ty, True), part(ty), *both]))
        if kind < .9:
            return self.pick("min", "max"), [part(ty, True), part(ty)]
        return "clamp", [part(ty, True), part(ty), part(ty)]

    def sampled(self, ty, part):
        """A look into a texture with this result, or nothing."""
        found = []
        for name, texture in self.textures:
            head, _, form = texture.partition("<")
            inside = [part(("vec", SAMPLED[head], "f32") if SAMPLED[head] > 1 else "f32", True)] if head in SAMPLED else []
            layer = [part("i32", True)] if "array" in head else []
            plain = [it for it, compares in self.samplers if not compares]
            if head in SAMPLED and form[:3] == "f32" and ty == ("vec", 4, "f32") and plain:
                found.append(("textureSampleLevel", [name, self.pick(plain), *inside, *layer, part("f32")]) if head != "texture_1d" else None)
                if "fragment" in self.inside and len(self.inside) == 1:
                    found.append(("textureSample", [name, self.pick(plain), *inside, *layer]))
                if head in ("texture_2d", "texture_2d_array") and self.chance(.5):
                    found.append(("textureGather", [str(self.dice.randrange(4)), name, self.pick(plain), *inside, *layer]))
            if head in DEPTHS and ty == "f32" and self.samplers:
                place = part(("vec", DEPTHS[head], "f32"), True)
                compares = [it for it, yes in self.samplers if yes]
                if compares:
                    found.append(("textureSampleCompareLevel", [name, self.pick(compares), place, *layer, part("f32")]))
                if plain:
                    found.append(("textureSampleLevel", [name, self.pick(plain), place, *layer, part("i32", True)]))
            if head in ("texture_2d", "texture_3d", "texture_2d_array") and ty == ("vec", 4, form[:3]):
                found.append(("textureLoad", [name, part(("vec", SAMPLED[head], self.pick(INTEGERS)), True), *layer, part("i32")]))
        found = [it for it in found if it]
        return self.pick(found) if found else None

    def variables(self, ty):
        """The variables of functions that are in scope and have the type."""
        return [it for scope in self.scopes for it, each, how in scope if how == "var" and each == ty]

    def has_pointers(self, function):
        """Whether the function's pointers can be given."""
        return all(self.variables(ty[2]) for ty in function[1] if isinstance(ty, tuple) and ty[0] == "pointer")

    def call_of(self, function, depth):
        name, arguments, _ = function
        parts = []
        for ty in arguments:
            if isinstance(ty, tuple) and ty[0] == "pointer":
                parts.append(f"&{self.pick(self.variables(ty[2]))}")
            else:
                parts.append(self.expression(ty, depth - 1))
        return f"{name}({self.arguments(parts)})"

    # ---- statements

    def declare(self, name, ty, how):
        self.scopes[-1].append((name, ty, how))

    def places(self):
        """What can be assigned, with its type."""
        found = []
        for scope in self.scopes:
            for name, ty, how in scope:
                if how in ("var", "pointer", "read_write") or how == "let" and self.errs("assigned"):
                    found += self.place_parts(f"(*{name})" if how == "pointer" else name, ty, 3)
        return found

    def place_parts(self, text, ty, depth):
        if not isinstance(ty, tuple) or not depth:
            return [(text, ty)]
        found = [(text, ty)] if ty[0] not in ("array", "struct") or ty[0] == "array" and ty[2] else []
        if ty[0] == "vec" and ty[2] != "bool":
            found.append((f"{text}.{self.pick('xyzw'[:ty[1]])}", ty[2]))
        elif ty[0] == "mat":
            found.append((f"{text}[{self.index(ty[1], 'run')}]", ("vec", ty[2], ty[3])))
        elif ty[0] == "array":
            found += self.place_parts(f"{text}[{self.index(ty[2] or 9, 'run')}]", ty[1], depth - 1)
        elif ty[0] == "struct":
            for name, each in self.structs[ty[1]]:
                found += self.place_parts(f"{text}.{name}", each, depth - 1)
        return found

    def block(self, count, depth, indent):
        self.scopes.append([])
        lines = [line for _ in range(count) for line in self.statement(depth, indent)]
        self.scopes.pop()
        return lines

    def semicolon(self):
        return "" if self.errs("semicolon") else ";"

    def statement(self, depth, indent):
        pad = "    " * indent
        kind = self.dice.random()
        if self.errs("statement"):
            return [pad + self.pick("break;", "continue;", "return 1;", "discard;", "missing();", "let x;", "var;", "x += ;", "else {}",
                                    "case 1: {}", "fallthrough;", "const y: i32;", "if true x = 1;", "while {}", "for ;; {}", "1 + 2;",
                                    "workgroupBarrier;", "let a = b = 1;", "@foo { }", "var<storage> z: i32;", "struct T {}", "return;;;")]
        if kind < .3:
            return [self.local(pad)]
        if kind < .62:
            return [self.assignment(pad)]
        if kind < .68:
            return [self.effect(pad)]
        if kind < .72:
            return [f"{pad}_ = {self.expression(self.value_type(), 2, 'run', True)}{self.semicolon()}"]
        if depth == 0:
            return [self.assignment(pad)]
        if kind < .84:
            return self.choice(pad, depth, indent)
        if kind < .95:
            return self.loop(pad, depth, indent)
        if kind < .97:
            return [pad + "{", *self.block(2, depth - 1, indent + 1), pad + "}"]
        return self.switch(pad, depth, indent)

    def local(self, pad):
        ty, word = self.value_type(), self.pick("let", "let", "var", "var", "const")
        if word == "const" and not scalar(ty):
            word = "let"
        phase = "const" if word == "const" else "run"
        if self.chance(.4):
            value, ascribed = self.expression(ty, 2, phase), f": {spell(ty)}"
        else:
            value, ascribed = self.expression(ty, 2, phase, True), ""
        name = self.name()
        if word == "var" and self.chance(.15):
            self.declare(name, ty, word)
            return f"{pad}var {name}: {spell(ty)}{self.semicolon()}"
        text = f"{pad}{word} {name}{ascribed} = {value}{self.semicolon()}"
        self.declare(name, ty, word)
        if word == "var" and self.chance(.1):
            pointer = self.name()
            self.declare(pointer, ty, "pointer")
            text += f"\n{pad}let {pointer} = &{name};"
        return text

    def assignment(self, pad):
        found = self.places()
        if not found:
            return self.local(pad)
        text, ty = self.pick(found)
        of = scalar(ty)
        if ty in INTEGERS and self.chance(.15):
            return f"{pad}{text}{self.pick('++', '--')}{self.semicolon()}"
        if of in NUMBERS and self.chance(.4):
            return f"{pad}{text} {self.pick('+-*') if ty[0] != 'mat' else self.pick('+-')}= {self.expression(ty)}{self.semicolon()}"
        return f"{pad}{text} = {self.expression(ty)}{self.semicolon()}"

    def effect(self, pad):
        """An atomic, a store into a texture, a call."""
        kind = self.dice.random()
        if self.atomics and kind < .5 and "vertex" not in self.inside:
            place, of = self.pick(self.atomics)
            name = f"atomic{self.pick(ATOMICS)}"
            made = f"{name}(&{place}, {self.expression(of)})"
            if self.chance(.2):
                made = f"atomicStore(&{place}, {self.expression(of)})"
            elif self.chance(.5):
                made = f"let {self.bound(of)} = {self.pick(made, f'atomicLoad(&{place})')}"
            elif self.chance(.3):
                made = f"let {self.bound('bool')} = atomicCompareExchangeWeak(&{place}, {self.expression(of)}, {self.expression(of)}).exchanged"
            return f"{pad}{made}{self.semicolon()}"
        stored = [(name, it) for name, it in self.textures if "storage" in it and "read>" not in it]
        if stored and "vertex" not in self.inside:
            name, it = self.pick(stored)
            head, form = it.split("<")
            where = self.expression(("vec", STORED[head], "i32") if STORED[head] > 1 else "i32", 1, "run", True)
            layer = [self.expression("i32", 1, "run", True)] if "array" in head else []
            value = self.expression(("vec", 4, FORMATS[form.split(",")[0]]))
            return f"{pad}textureStore({self.arguments([name, where, *layer, value])}){self.semicolon()}"
        none = [it for it in self.functions if it[2] is None and self.has_pointers(it)]
        return f"{pad}{self.call_of(self.pick(none), 2)}{self.semicolon()}" if none else self.assignment(pad)

    def bound(self, ty):
        name = self.name()
        self.later = (name, ty, "let")
        return name

    def choice(self, pad, depth, indent):
        lines = [f"{pad}if {self.expression('bool')} {{", *self.block(2, depth - 1, indent + 1)]
        if self.chance(.2):
            lines += [f"{pad}}} else if ({self.expression('bool')}) {{", *self.block(1, depth - 1, indent + 1)]
        if self.chance(.4):
            lines += [f"{pad}}} else {{", *self.block(2, depth - 1, indent + 1)]
        return lines + [pad + "}"]

    def loop(self, pad, depth, indent):
        kind, at, count = self.dice.random(), self.name(), self.pick(2, 3, 8)
        self.scopes.append([(at, "i32", "let")])
        body = self.block(2, depth - 1, indent + 1)
        if self.chance(.2):
            body.append(f"{pad}    if {self.expression('bool')} {{ {self.pick('break', 'continue')}; }}")
        if kind < .6:
            step = self.pick(f"{at}++", f"{at} += 1", f"{at} = {at} + 1")
            lines = [f"{pad}for (var {at} = 0; {at} < {count}; {step}) {{", *body, pad + "}"]
        elif kind < .8:
            lines = [f"{pad}var {at} = 0;", f"{pad}while {at} < {count} {{", f"{pad}    {at} += 1;", *body, pad + "}"]
        else:
            end = self.pick(f"break if {at} >= {count};", f"{at} += 1; break if {at} > {count};")
            lines = [f"{pad}var {at} = 0;", f"{pad}loop {{", f"{pad}    if {at} > {count} {{ break; }}", *body,
                     f"{pad}    continuing {{", f"{pad}        {at} += 1;", f"{pad}        {end}", f"{pad}    }}", pad + "}"]
        self.scopes.pop()
        return lines

    def switch(self, pad, depth, indent):
        lines = [f"{pad}switch {self.expression('i32', 2, 'run', True)} {{"]
        for values in ("0", "1, 2", "3i,", "(4 + 1)"):
            lines += [f"{pad}    case {values}{self.pick(':', '')} {{", *self.block(1, depth - 1, indent + 2), pad + "    }"]
        return lines + [f"{pad}    {self.pick('default', 'case 7, default', 'default:')} {{ }}" if not self.errs("default") else "", pad + "}"]

    # ---- declarations

    def constant(self):
        ty = self.value_type(1)
        name, value = self.name(), self.expression(ty, 2, "const", True)
        ascribed = f": {spell(ty)}" if self.chance(.5) else ""
        self.scopes[0].append((name, ty, "const"))
        return f"const {name}{ascribed} = {value}{self.semicolon()}"

    def override(self):
        ty, name = self.pick("i32", "u32", "f32", "bool"), self.name()
        number = f"@id({self.names}) " if self.chance(.3) else ""
        value = f" = {self.expression(ty, 1, 'override')}" if self.chance(.7) else ""
        self.scopes[0].append((name, ty, "override"))
        return f"{number}override {name}: {spell(ty)}{value}{self.semicolon()}"

    def structure(self, shared=True):
        name = self.name().title()
        members, lines = [], []
        for _ in range(self.dice.randrange(1, 6)):
            ty, member = self.shared_type(1) if shared else self.value_type(1), self.name()
            attribute = self.pick("@align(16) ", "@size(64) ") if self.chance(.08) and isinstance(ty, str) else ""
            if self.errs("member attribute"):
                attribute = self.pick("@align(3) ", "@size(1) ", "@location(0) ", "@offset(4) ", "@align ", "@size() ")
            members.append((member, ty))
            lines.append(f"    {attribute}{member}: {spell(ty)},")
        self.structs[name] = members
        return "\n".join([f"struct {name} {{", *lines, "}"])

    def variable(self, binding):
        kind, name = self.dice.random(), self.name()
        attributes = f"@group({binding // 8}) @binding({binding % 8}) "
        if self.errs("binding"):
            attributes = self.pick("", "@group(0) ", "@binding(1) ", "@group(0) @group(0) @binding(0) ", "@location(0) ", "@group(-1) @binding(0) ")
        if kind < .2:
            ty = self.value_type()
            self.scopes[0].append((name, ty, "read_write"))
            value = f" = {self.expression(ty, 1, 'const')}" if self.chance(.4) else ""
            return f"var<private> {name}: {spell(ty)}{value};"
        if kind < .3:
            if self.chance(.5):
                of = self.pick(INTEGERS)
                self.atomics.append((name, of))
                return f"var<workgroup> {name}: atomic<{of}>;"
            ty = self.value_type()
            self.scopes[0].append((name, ty, "read_write"))
            return f"var<workgroup> {name}: {spell(ty)};"
        if kind < .45:
            ty = self.pick([("struct", it) for it in self.structs] + [("vec", 4, "f32"), ("mat", 4, 4, "f32"), ("array", ("vec", 4, "u32"), 3)])
            if re.search("bool|array", json.dumps([ty, self.members(ty)])) and self.chance(.9):
                ty = "f32"
            self.scopes[0].append((name, ty, "read"))
            return f"{attributes}var<uniform> {name}: {spell(ty)};"
        if kind < .75:
            return self.storage(attributes, name)
        return self.resource(attributes, name)

    def storage(self, attributes, name):
        ty, access = self.shared_type(), self.pick("read", "read_write", "read_write")
        if self.chance(.5):
            ty = ("array", ty, None)
        if self.chance(.15):
            of = self.pick(INTEGERS)
            self.atomics.append((f"{name}[1]", of))
            return f"{attributes}var<storage, read_write> {name}: array<atomic<{of}>>;"
        self.scopes[0].append((name, ty, access))
        head = "var<storage>" if access == "read" and self.chance(.5) else f"var<storage, {access}>"
        if self.errs("space"):
            head = self.pick("var", "var<private>", "var<uniform, read_write>", "var<function>", "var<storage, write>", "var<read>", "const")
        return f"{attributes}{head} {name}: {spell(ty)}{self.semicolon()}"

    def resource(self, attributes, name):
        kind = self.dice.random()
        if kind < .35:
            compares = self.chance(.4)
            self.samplers.append((name, compares))
            return f"{attributes}var {name}: sampler{'_comparison' if compares else ''};"
        if kind < .65:
            texture = f"{self.pick(list(SAMPLED))}<{self.pick('f32', 'f32', 'u32', 'i32')}>"
        elif kind < .8:
            texture = self.pick(list(DEPTHS))
        else:
            texture = f"{self.pick(list(STORED))}<{self.pick(list(FORMATS))}, write>"
        self.textures.append((name, texture))
        return f"{attributes}var {name}: {texture}{self.semicolon()}"

    def function(self):
        name, self.inside = self.name(), ["function"]
        self.scopes.append([])
        arguments, types = [], []
        for _ in range(self.dice.randrange(4)):
            ty, argument = self.value_type(), self.name()
            if self.chance(.15):
                self.declare(argument, ty, "pointer")
                ty = ("pointer", "function", ty)
            else:
                self.declare(argument, ty, "let")
            arguments.append(f"{argument}: {spell(ty)}")
            types.append(ty)
        result = self.value_type() if self.chance(.8) else None
        lines = self.block(self.dice.randrange(1, 5), 2, 1)
        if result and not self.errs("return"):
            lines.append(f"    return {self.expression(result)};")
        self.scopes.pop()
        used = self.pick("@must_use\n", "", "", "") if result else ""
        self.functions.append((name, types, result))
        return "\n".join([f"{used}fn {name}({', '.join(arguments)}){' -> ' + spell(result) if result else ''} {{", *lines, "}"])

    def compute(self):
        self.inside = ["compute"]
        self.scopes.append([])
        arguments = []
        for word, ty in INPUTS.items():
            if self.chance(.4):
                name = self.name()
                self.declare(name, ty, "let")
                arguments.append(f"    @builtin({word}) {name}: {spell(ty)},")
        size = self.pick("@workgroup_size(64)", "@workgroup_size(8, 8)", "@workgroup_size(4, 4, 4)", "@workgroup_size(1)")
        if self.errs("size"):
            size = self.pick("", "@workgroup_size()", "@workgroup_size(0)", "@workgroup_size(1.5)", "@workgroup_size(1, 2, 3, 4)", "@workgroup_size(-1)", "@workgroup_size(x)")
        lines = ["    workgroupBarrier();"] if self.chance(.3) else []
        lines += self.block(self.dice.randrange(2, 7), 2, 1)
        self.scopes.pop()
        return "\n".join([f"@compute {size}", f"fn {self.name()}(", *arguments, ") {", *lines, "}"])

    def stage(self, word):
        self.inside = [word]
        self.scopes.append([])
        arguments = []
        for at in range(self.dice.randrange(4)):
            ty, name = self.pick(("vec", 2, "f32"), ("vec", 3, "f32"), ("vec", 4, "f32"), "f32", "u32", ("vec", 2, "i32")), self.name()
            flat = "@interpolate(flat) " if scalar(ty) != "f32" and word == "fragment" else ""
            if self.errs("location"):
                flat, at = self.pick(("", 0), ("@interpolate(linear) ", at), ("@builtin(position) ", at), ("@invariant ", at))
            self.declare(name, ty, "let")
            arguments.append(f"    @location({at}) {flat}{name}: {spell(ty)},")
        if self.chance(.4):
            name = self.name()
            built_in, ty = ("vertex_index", "u32") if word == "vertex" else self.pick(("position", ("vec", 4, "f32")), ("front_facing", "bool"))
            self.declare(name, ty, "let")
            arguments.append(f"    @builtin({built_in}) {name}: {spell(ty)},")
        result = "@builtin(position) " if word == "vertex" else "@location(0) "
        if self.errs("result"):
            result = self.pick("", "@location(0) @location(1) ", "@builtin(frag_depth) ", "@builtin(vertex_index) ", "@location(99999) ")
        lines = [*self.block(self.dice.randrange(1, 6), 2, 1), f"    return {self.expression(('vec', 4, 'f32'))};"]
        self.scopes.pop()
        return "\n".join([f"@{word}", f"fn {self.name()}(", *arguments, f") -> {result}vec4<f32> {{", *lines, "}"])

    def write(self):
        """The text of the shader."""
        head = ["enable f16;"] if self.half else []
        first = [self.constant() for _ in range(self.dice.randrange(4))] + [self.override() for _ in range(self.dice.randrange(3))]
        first += [self.structure(self.chance(.8)) for _ in range(self.dice.randrange(4))]
        first += [self.variable(at) for at in range(self.dice.randrange(2, 10))]
        last = [self.function() for _ in range(self.dice.randrange(4))]
        for _ in range(self.dice.randrange(1, 3)):
            last.append(self.pick(self.compute, self.compute, lambda: self.stage("vertex"), lambda: self.stage("fragment"))())
        if self.chance(.2):
            last.append(f"const_assert {self.pick('true ||', 'true &&', 'false !=')} {self.expression('bool', 2, 'const')};")
        if self.chance(.3):
            self.dice.shuffle(last)
        if self.errs("declared twice"):
            first.append(self.pick(first or ["const a = 1; const a = 2;"]))
        return "\n".join(head) + "\n\n".join(["", *first, *last]) + "\n"


def right(seed):
    return Shader(seed).write()


def wrong(seed):
    """A shader with one mistake."""
    shader = Shader(seed)
    shader.write()
    at = random.Random(f"{seed} mistake").randint(1, shader.points)
    return Shader(seed, at).write()


def mutant(dice, texts):
    """A text with one token changed."""
    tokens, other = TOKEN.findall(dice.choice(texts)), TOKEN.findall(dice.choice(texts))
    real = [at for at, it in enumerate(tokens) if not it.isspace() and not it.startswith("//")]
    at, to = dice.choice(real), dice.choice(real)
    how = dice.randrange(6)
    if how == 0:
        del tokens[at]
    elif how == 1:
        tokens.insert(at, tokens[at])
    elif how == 2:
        tokens[at], tokens[to] = tokens[to], tokens[at]
    elif how == 3:
        tokens[at] = tokens[to]
    elif how == 4:
        tokens[at] = dice.choice([it for it in other if not it.isspace() and not it.startswith("//")])
    else:
        near = [it for it in real if it > at]
        if near:
            tokens[at], tokens[near[0]] = tokens[near[0]], tokens[at]
    return "".join(tokens)


def texts(count, seed=1):
    """Named texts, a third of each kind."""
    dice = random.Random(seed)
    bases = [it.read_text() for it in sorted((TOP / "examples/wgsl").glob("*.wgsl"))]
    for at in range(count):
        kind = ("right", "wrong", "mutant")[at % 3]
        if kind == "mutant":
            yield f"mutant/{at}", mutant(dice, bases + [right(f"{seed} {at}")])
        else:
            yield f"{kind}/{at}", (right if kind == "right" else wrong)(f"{seed} {at}")


def main():
    for name, text in texts(int(sys.argv[1]), int((sys.argv[2:] or ["1"])[0])):
        print(json.dumps({"name": name, "text": text}))


if __name__ == "__main__":
    main()

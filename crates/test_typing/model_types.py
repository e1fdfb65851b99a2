"""The types of a module and of the expressions of a function, worked out from their rules apart from the program."""
from make_types import SCALARS

WORDS = {s: w for w, s in SCALARS.items()}
I32, U32, F32, BOOL = (SCALARS[w] for w in ("i32", "u32", "f32", "bool"))
INTEGERS, NUMBERS = ("Sint", "Uint"), ("Sint", "Uint", "Float")
NUMERIC = NUMBERS + ("AbstractInt", "AbstractFloat")
COMPARISONS = ("Equal", "NotEqual", "Less", "LessEqual", "Greater", "GreaterEqual")


class NoType(Exception):
    """An expression has no type."""


# ---- types


def space_of(s):
    return s if isinstance(s, str) else ("Storage", frozenset(s[1]))


def access_of(space):
    if space[0] == "Storage":
        return space[1]
    return {"LOAD"} if space in ("Uniform", "Handle", "Immediate") else {"LOAD", "STORE"}


def class_of(c):
    return (c[0], c[1], frozenset(c[2])) if c[0] == "Storage" else tuple(c)


class Types:
    """The types of a module, by their forms."""

    def __init__(self, written):
        self.inner = [t[1] for t in written]
        self.forms = [self.form(t) for t in range(len(written))]

    def form(self, t):
        """The canonical form of a type."""
        kind, *parts = self.inner[t]
        if kind == "Struct":
            return ("Struct", t)
        if kind == "Pointer":
            return self.pointer(parts[0], space_of(parts[1]))
        if kind == "ValuePointer":
            return (kind, parts[0], SCALARS[parts[1]], space_of(parts[2]))
        if kind == "Image":
            return (kind, parts[0], parts[1], class_of(parts[2]))
        if kind in ("Array", "BindingArray"):
            return (kind, parts[0], tuple(parts[1]), *parts[2:])
        return (kind, *(SCALARS[p] if isinstance(p, str) and p in SCALARS else p for p in parts))

    def pointer(self, base, space):
        kind, *parts = self.inner[base]
        if kind == "Scalar":
            return ("ValuePointer", None, SCALARS[parts[0]], space)
        if kind == "Vector":
            return ("ValuePointer", parts[0], SCALARS[parts[1]], space)
        return ("Pointer", base, space)

    def flags(self, t):
        """What a type may be used for, a letter each: D, Z, K and A."""
        kind, *parts = self.inner[t]
        if kind in ("Scalar", "Vector", "Matrix", "CooperativeMatrix"):
            return set("DZKA")
        if kind in ("Pointer", "ValuePointer"):
            return set("ZA") if parts[-1] in ("Function", "Private") else set("Z")
        if kind == "Array":
            return self.flags(parts[0]) & set({"Constant": "DZKA", "Pending": "DZA", "Dynamic": "D"}[parts[1][0]])
        if kind == "Struct":
            return set("DZKA").intersection(*(self.flags(m[1]) for m in parts[0]))
        return set({"Atomic": "DZ", "RayQuery": "DZK", "BindingArray": ""}.get(kind, "A"))


def scalar_of(form):
    """The scalar of what is made of scalars."""
    return form[-1] if form[0] in ("Scalar", "Vector", "Matrix") else form[3] if form[0] == "CooperativeMatrix" else None


def is_value(form, kinds=None):
    return form[0] in ("Scalar", "Vector") and (kinds is None or form[-1][0] in kinds)


def is_scalar(form, kinds):
    return form[0] == "Scalar" and form[1][0] in kinds


def with_scalar(form, scalar):
    """The same shape of another scalar."""
    return (form[0], *form[1:-1], scalar)


def along(dim, scalar):
    size = {"D1": None, "D2": 2, "D3": 3, "Cube": 3}[dim]
    return ("Scalar", scalar) if size is None else ("Vector", size, scalar)


# ---- functions on numbers

CONVERSIONS = {"afloat": "f32 f16 f64".split(), "aint": "i32 u32 i16 u16 i64 u64 afloat f32 f16 f64".split()}
N = "aint i32 u32 i16 u16 i64 u64 afloat f32 f16 f64".split()
F = "afloat f32 f16 f64".split()
X = "i32 u32 i16 u16 i64 u64".split()
SHAPES, ROWS = (None, 2, 3, 4), (2, 3, 4)
SAME = {1: {}, 2: {}, 3: {}}
SAME[1].update({w: F for w in "Saturate Cos Cosh Sin Sinh Tan Tanh Acos Asin Atan Asinh Acosh Atanh Radians Degrees Ceil Floor "
               "Round Fract Trunc Exp Exp2 Log Log2 Sqrt InverseSqrt".split()})
SAME[1].update({w: X for w in "CountTrailingZeros CountLeadingZeros CountOneBits ReverseBits FirstTrailingBit "
               "FirstLeadingBit".split()})
SAME[1].update(Abs=N, Sign=[w for w in N if w[0] != "u"], QuantizeToF16=["f32"])
SAME[2].update(Min=N, Max=N, Atan2=F, Pow=F, Step=F)
SAME[3].update(Clamp=N, Fma=F, SmoothStep=F)
PACKED = {"Pack4x8snorm": (4, "f32"), "Pack4x8unorm": (4, "f32"), "Pack2x16snorm": (2, "f32"), "Pack2x16unorm": (2, "f32"),
          "Pack2x16float": (2, "f32"), "Pack4xI8": (4, "i32"), "Pack4xI8Clamp": (4, "i32"), "Pack4xU8": (4, "u32"),
          "Pack4xU8Clamp": (4, "u32")}


def shaped(n, word):
    return ("Scalar", SCALARS[word]) if n is None else ("Vector", n, SCALARS[word])


def matrix(columns, rows, word):
    return ("Matrix", columns, rows, SCALARS[word])


def each(words, shapes, rule):
    return [rule(n, w) for n in shapes for w in words]


def rules(fun):
    """The rules of a function in order: what it takes, and what it gives."""
    for count, rows in SAME.items():
        if fun in rows:
            return each(rows[fun], SHAPES, lambda n, w: ([shaped(n, w)] * count, shaped(n, w)))
    if fun == "Mix":
        return each(F, SHAPES, lambda n, w: ([shaped(n, w)] * 3, shaped(n, w))) + \
            each(F, ROWS, lambda n, w: ([shaped(n, w)] * 2 + [shaped(None, w)], shaped(n, w)))
    if fun == "Dot":
        return each(N, ROWS, lambda n, w: ([shaped(n, w)] * 2, shaped(None, w)))
    if fun in ("Normalize", "Reflect", "FaceForward"):
        count = {"Normalize": 1, "Reflect": 2, "FaceForward": 3}[fun]
        return each(F, ROWS, lambda n, w: ([shaped(n, w)] * count, shaped(n, w)))
    if fun == "Refract":
        return each(F, ROWS, lambda n, w: ([shaped(n, w)] * 2 + [shaped(None, w)], shaped(n, w)))
    if fun == "Cross":
        return each(F, (3,), lambda n, w: ([shaped(n, w)] * 2, shaped(n, w)))
    if fun in ("Length", "Distance"):
        return each(F, SHAPES, lambda n, w: ([shaped(n, w)] * (1 + (fun == "Distance")), shaped(None, w)))
    if fun in ("Modf", "Frexp"):
        return each(F, SHAPES, lambda n, w: ([shaped(n, w)], [fun + "Result", n, w]))
    if fun == "Ldexp":
        return each(F, SHAPES, lambda n, w: ([shaped(n, w), shaped(n, "i32")], shaped(n, w)))
    if fun in ("ExtractBits", "InsertBits"):
        return each(X, SHAPES, lambda n, w: ([shaped(n, w)] * (1 + (fun == "InsertBits")) + [shaped(None, "u32")] * 2, shaped(n, w)))
    if fun == "Outer":
        return [([shaped(c, w), shaped(r, w)], matrix(c, r, w)) for c in ROWS for r in ROWS for w in F]
    if fun == "Transpose":
        return [([matrix(c, r, w)], matrix(r, c, w)) for c in ROWS for r in ROWS for w in F]
    if fun in ("Determinant", "Inverse"):
        return [([matrix(c, c, w)], shaped(None, w) if fun == "Determinant" else matrix(c, c, w)) for c in ROWS for w in F]
    if fun in PACKED:
        return [([shaped(*PACKED[fun])], shaped(None, "u32"))]
    if fun.startswith("Unpack"):
        return [([shaped(None, "u32")], shaped(*PACKED["P" + fun[3:]]))]
    assert fun in ("Dot4I8Packed", "Dot4U8Packed"), fun
    return [([shaped(None, "u32")] * 2, shaped(None, "i32" if fun == "Dot4I8Packed" else "u32"))]


def takes(wanted, given):
    """Whether a rule takes what is given in the place of what it names."""
    if given == wanted:
        return True
    if given[0] != wanted[0] or given[0] not in ("Scalar", "Vector", "Matrix") or given[1:-1] != wanted[1:-1]:
        return False
    return WORDS.get(wanted[-1]) in CONVERSIONS.get(WORDS.get(given[-1]), ())


def preferred(fun, given):
    """What the first rule gives that takes these."""
    for wanted, found in rules(fun):
        if len(wanted) == len(given) and all(map(takes, wanted, given)):
            return found
    raise NoType


# ---- parts of values


def format_scalar(format):
    if format == "R64Uint":
        return SCALARS["u64"]
    return U32 if format.endswith("Uint") else I32 if format.endswith("Sint") else F32


def one_of(count, index, found):
    """A part by an index, computed where there is none."""
    if index is not None and index >= count:
        raise NoType
    return found


def part_of(types, form, index):
    """An element of a value, or a member where the index is written; through a pointer, a pointer to it."""
    kind, *parts = form
    if kind == "Vector":
        return one_of(parts[0], index, ("Scalar", parts[1]))
    if kind == "Matrix":
        return one_of(parts[0], index, ("Vector", parts[1], parts[2]))
    if kind in ("Array", "BindingArray"):
        return types.forms[parts[0]]
    if kind == "ValuePointer" and parts[0] is not None:
        return one_of(parts[0], index, ("ValuePointer", None, parts[1], parts[2]))
    if kind == "Struct" and index is not None:
        members = types.inner[parts[0]][1]
        return one_of(len(members), index, index < len(members) and types.forms[members[index][1]])
    if kind == "Pointer":
        return pointed_part(types, types.inner[parts[0]], parts[1], index)
    raise NoType


def pointed_part(types, inner, space, index):
    kind, *parts = inner
    if kind == "Matrix":
        return one_of(parts[0], index, ("ValuePointer", parts[1], SCALARS[parts[2]], space))
    if kind in ("Array", "BindingArray"):
        return types.pointer(parts[0], space)
    if kind == "Struct" and index is not None:
        return one_of(len(parts[0]), index, index < len(parts[0]) and types.pointer(parts[0][index][1], space))
    raise NoType


def loaded(types, form):
    """What is loaded from where a pointer leads."""
    if form[0] == "ValuePointer":
        return along_size(form[1], form[2])
    if form[0] != "Pointer":
        raise NoType
    inner = types.inner[form[1]]
    return ("Scalar", SCALARS[inner[1]]) if inner[0] == "Atomic" else types.forms[form[1]]


def along_size(size, scalar):
    return ("Scalar", scalar) if size is None else ("Vector", size, scalar)


def pointed_scalar(types, form):
    """The scalar of what a pointer leads to, if that is made of scalars."""
    if form[0] == "ValuePointer":
        return form[2]
    return scalar_of(types.forms[form[1]]) if form[0] == "Pointer" else None


def pointed_inner(types, form):
    return types.inner[form[1]] if form[0] == "Pointer" else [None]


# ---- expressions


def product(left, right):
    kinds = left[0], right[0]
    if kinds == ("Matrix", "Vector"):
        return ("Vector", left[2], left[3])
    if kinds == ("Vector", "Matrix"):
        return ("Vector", right[1], right[3])
    if kinds == ("Matrix", "Matrix"):
        return ("Matrix", right[1], left[2], left[3])
    if left[0] == "Scalar":
        return right
    if right[0] == "Scalar" or kinds == ("Vector", "Vector"):
        return left
    raise NoType


def of_truth(form):
    """The same shape of truth values."""
    if not is_value(form):
        raise NoType
    return with_scalar(form, BOOL)


class Typing:
    """The types of the expressions of a function in order, up to the first that has none."""

    def __init__(self, document, types, function):
        self.document, self.types, self.function = document, types, function
        self.forms, self.untyped = [], None
        for e, expression in enumerate(function[4]):
            try:
                self.forms.append(getattr(self, expression[0])(*expression[1:]))
            except NoType:
                self.untyped = e
                break

    def Literal(self, word, value):
        return ("Scalar", SCALARS[word])

    def Constant(self, constant):
        return self.types.forms[self.document[8][constant][1]]

    def Override(self, override):
        return self.types.forms[self.document[9][override][2]]

    def ZeroValue(self, ty):
        return self.types.forms[ty]

    def Compose(self, ty, parts):
        return self.types.forms[ty]

    def Access(self, base, index):
        return part_of(self.types, self.forms[base], None)

    def AccessIndex(self, base, index):
        return part_of(self.types, self.forms[base], index)

    def Splat(self, size, value):
        if self.forms[value][0] != "Scalar":
            raise NoType
        return ("Vector", size, self.forms[value][1])

    def Swizzle(self, size, vector, pattern):
        if self.forms[vector][0] != "Vector":
            raise NoType
        return ("Vector", size, self.forms[vector][2])

    def FunctionArgument(self, number):
        if number >= len(self.function[1]):
            raise NoType
        return self.types.forms[self.function[1][number][1]]

    def GlobalVariable(self, variable):
        _, space, _, ty = self.document[11][variable][:4]
        return self.types.forms[ty] if space == "Handle" else self.types.pointer(ty, space_of(space))

    def LocalVariable(self, local):
        return self.types.pointer(self.function[3][local][1], "Function")

    def Load(self, pointer):
        return loaded(self.types, self.forms[pointer])

    def texel(self, image, storage):
        if self.forms[image][0] != "Image":
            raise NoType
        kind, *parts = self.forms[image][3]
        if kind == "Storage" and not storage:
            raise NoType
        scalar = {"Sampled": lambda: (parts[0], 4), "Storage": lambda: format_scalar(parts[0])}.get(kind, lambda: F32)()
        return kind, ("Vector", 4, scalar)

    def ImageSample(self, image, sampler, gather, *others):
        kind, texel = self.texel(image, False)
        return ("Scalar", F32) if kind == "Depth" and gather is None else texel

    def ImageLoad(self, image, *others):
        kind, texel = self.texel(image, True)
        return ("Scalar", F32) if kind == "Depth" else texel

    def ImageQuery(self, image, query):
        if query[0] != "Size":
            return ("Scalar", U32)
        if self.forms[image][0] != "Image":
            raise NoType
        dim = self.forms[image][1]
        return along("D2" if dim == "Cube" else dim, U32)

    def Unary(self, op, value):
        return self.forms[value]

    def Binary(self, op, left, right):
        if op in COMPARISONS:
            return of_truth(self.forms[left])
        return product(self.forms[left], self.forms[right]) if op == "Multiply" else self.forms[left]

    def Select(self, condition, accept, reject):
        return self.forms[accept]

    def Derivative(self, axis, control, value):
        return self.forms[value]

    def Relational(self, fun, value):
        return ("Scalar", BOOL) if fun in ("All", "Any") else of_truth(self.forms[value])

    def Math(self, fun, *operands):
        given = [self.forms[e] for e in operands if e is not None]
        if operands[len(given):] != (None,) * (4 - len(given)):
            raise NoType
        found = preferred(fun, given)
        if isinstance(found, tuple):
            return found
        key = [part for part in found if part is not None or found[0] != "Scalar"]
        for there, ty in self.document[6][3]:
            if there == key:
                return self.types.forms[ty]
        raise NoType

    def As(self, value, kind, width):
        form = self.forms[value]
        if form[0] not in ("Scalar", "Vector", "Matrix"):
            raise NoType
        return with_scalar(form, (kind, form[-1][1] if width is None else width))

    def CallResult(self, function):
        answer = self.document[12][function][2]
        if answer is None:
            raise NoType
        return self.types.forms[answer[0]]

    def AtomicResult(self, ty, comparison):
        return self.types.forms[ty]

    def WorkGroupUniformLoadResult(self, ty):
        return self.types.forms[ty]

    def ArrayLength(self, array):
        return ("Scalar", U32)

    def special(self, place):
        if self.document[6][place] is None:
            raise NoType
        return self.types.forms[self.document[6][place]]

    def RayQueryVertexPositions(self, query, committed):
        return self.special(2)

    def RayQueryProceedResult(self):
        return ("Scalar", BOOL)

    def RayQueryGetIntersection(self, query, committed):
        return self.special(1)

    def SubgroupBallotResult(self):
        return ("Vector", 4, U32)

    def SubgroupOperationResult(self, ty):
        return self.types.forms[ty]

    def CooperativeLoad(self, columns, rows, role, pointer, stride, row_major):
        scalar = pointed_scalar(self.types, self.forms[pointer])
        if scalar is None:
            raise NoType
        return ("CooperativeMatrix", columns, rows, scalar, role)

    def CooperativeMultiplyAdd(self, a, b, c):
        return self.forms[c]

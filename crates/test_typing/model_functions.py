"""What is asked of functions, worked out from their rules apart from the program, and every error that may be told.

An error is told as its name and then what it holds, in order: handles and places as numbers, what is not there as `-`, sets as
the number of their bits, an error inside it in the same way. Types that are told whole, names of items, and what makes control
flow differ are left out; a fault of an expression is told as `Typing`, `Literal`, `Compose`, `ExpectedGlobalOrArgument` or
`Other`.
"""
from make_infos import CAPABILITIES
from make_types import ACCESS, SCALARS
from model_types import (BOOL, COMPARISONS, F32, I32, INTEGERS, NUMBERS, NUMERIC, U32, WORDS, Types, Typing, access_of, along,
                         format_scalar, is_scalar, is_value, pointed_inner, pointed_scalar, scalar_of)

SUBGROUP_WORDS = "BASIC VOTE ARITHMETIC BALLOT SHUFFLE SHUFFLE_RELATIVE QUAD".split()
PRE_EMITTED = ("Literal", "Constant", "Override", "ZeroValue", "FunctionArgument", "GlobalVariable", "LocalVariable")
RESULTS = ("CallResult", "AtomicResult", "WorkGroupUniformLoadResult", "RayQueryProceedResult", "SubgroupBallotResult",
           "SubgroupOperationResult")
PAYLOADS = ("RayPayload", "IncomingRayPayload")
NEEDS = dict.fromkeys(("All", "Any"), "VOTE") | dict.fromkeys("Add Mul Min Max And Or Xor".split(), "ARITHMETIC") | {
    "BroadcastFirst": "BALLOT", "Broadcast": "BALLOT", "Shuffle": "SHUFFLE", "ShuffleXor": "SHUFFLE",
    "ShuffleUp": "SHUFFLE_RELATIVE", "ShuffleDown": "SHUFFLE_RELATIVE", "QuadBroadcast": "QUAD", "QuadSwap": "QUAD"}
WIDTHS = {"i16": "SHADER_INT16", "u16": "SHADER_INT16", "i64": "SHADER_INT64", "u64": "SHADER_INT64", "f16": "SHADER_FLOAT16",
          "f64": "FLOAT64", "bool": None, "i32": None, "u32": None, "f32": None}


def capability(*words):
    return sum(1 << CAPABILITIES.index(word) for word in words)


def told(*parts):
    return " ".join("-" if part is None else str(part) for part in parts)


SETS = {
    "MissingCapability": ("Capabilities", CAPABILITIES), "UnsupportedOperation": ("SubgroupOperationSet", SUBGROUP_WORDS),
    "InvalidImageStorageAccess": ("StorageAccess", ACCESS),
    "NonUniformControlFlow": ("UniformityRequirements", ("WORK_GROUP_BARRIER", "DERIVATIVE", "IMPLICIT_LEVEL", "COOP_OPS"))}
MAY_BE_MISSING = ("InvalidReturnType", "ExpressionMismatch", "Exchange")


def shown(error):
    """An error as the program shows it: a set by its name and its words, and what may be missing as `Some` or `None`."""
    parts, kind = [], None
    for part in error.split():
        if part[0].isupper():
            kind = part
            parts.append(part)
        elif kind in SETS:
            name, words = SETS[kind]
            parts += [name, *(word for place, word in enumerate(words) if int(part) >> place & 1)]
            kind = None
        elif kind in MAY_BE_MISSING:
            parts += ["None"] if part == "-" else ["Some", part]
        else:
            parts.append(part)
    return " ".join(parts)


def places(block):
    """All statements of a block, at any depth."""
    for statement in block:
        yield statement
        for part in blocks_of(statement):
            yield from places(part)


def blocks_of(statement):
    kind, *parts = statement
    if kind == "Switch":
        return [case[1] for case in parts[1]]
    return {"Block": parts[:1], "If": parts[1:3], "Loop": parts[:2]}.get(kind, [])


def returned(block):
    """A body with the returns that are put in."""
    if not block:
        return [["Return", None]]
    *front, last = block
    kind, *parts = last
    if kind == "Block":
        return front + [[kind, returned(parts[0])]]
    if kind == "If":
        return front + [[kind, parts[0], returned(parts[1]), returned(parts[2])]]
    if kind == "Switch":
        return front + [[kind, parts[0], [[v, b if falls else returned(b), falls] for v, b, falls in parts[1]]]]
    return block if kind in ("Break", "Continue", "Return", "Kill") else block + [["Return", None]]


class Function:
    """A function of a module whose functions before are accepted, and its faults."""

    def __init__(self, module, written, entry):
        self.module, self.entry, self.document, self.types = module, entry, module.document, module.types
        self.flags, self.capabilities = set(self.document[1]), set(self.document[2])
        _, self.arguments, self.answer, self.locals, self.expressions, body, self.leaf = written
        self.body = returned(body) if self.document[4] else body
        self.typing = Typing(self.document, self.types, written)
        self.forms = self.typing.forms
        self.statements = list(places(self.body))

    def kind_of(self, e):
        """Whether an expression is known as the module is written (0), by the overrides (1), or neither (2)."""
        kind, *parts = self.expressions[e]
        if kind in ("Literal", "Constant", "ZeroValue"):
            return 0
        operands = parts[1] if kind == "Compose" else {
            "Splat": parts[1:2], "Access": parts[:2], "AccessIndex": parts[:1], "Swizzle": parts[1:2], "Unary": parts[1:],
            "Binary": parts[1:], "Select": parts, "Relational": parts[1:], "Math": parts[1:], "As": parts[:1]}.get(kind)
        if operands is None:
            return 1 if kind == "Override" else 2
        return max((self.kind_of(o) for o in operands if o is not None), default=0)

    # ---- steps in order

    def faults(self):
        """The errors of which one is told: those of the first part that has any."""
        steps = [self.arity, self.analysis, self.variables, self.interface, self.result]
        if "EXPRESSIONS" in self.flags:
            steps.append(self.checks)
        if "BLOCKS" in self.flags:
            steps.append(self.block_faults)
            if "EXPRESSIONS" in self.flags:
                steps.append(self.unanswered)
        for step in steps:
            found = set(step())
            if found:
                return found
        return set()

    def arity(self):
        for kind, *parts in self.statements:
            if kind == "Call" and len(parts[1]) != len(self.document[12][parts[0]][1]):
                yield told("InvalidCall", parts[0], "ArgumentCount", len(self.document[12][parts[0]][1]), len(parts[1]))

    # ---- the analysis

    def part(self, e):
        """What an image or a sampler stands for; None where it is of a wrong form."""
        kind, *parts = self.expressions[e]
        if kind in ("GlobalVariable", "FunctionArgument"):
            return kind, parts[0]
        if kind in ("Access", "AccessIndex") and self.expressions[parts[0]][0] == "GlobalVariable":
            return "GlobalVariable", self.expressions[parts[0]][1]
        return None

    def sampled(self):
        """The expressions that have to be of such a form, each with where it is told."""
        for e, (kind, *parts) in enumerate(self.expressions):
            if kind == "ImageSample":
                yield from ((e, parts[0]), (e, parts[1]))
        for kind, *parts in self.statements:
            if kind == "Call":
                for number in self.module.functions[parts[0]].sampled_arguments():
                    yield parts[1][number], parts[1][number]

    def sampled_arguments(self):
        found = (self.part(e) for _, e in self.sampled())
        return {number for word, number in filter(None, found) if word == "FunctionArgument"}

    def analysis(self):
        if self.typing.untyped is not None:
            return [told("Expression", self.typing.untyped, "Typing")]
        wrong = [told("Expression", at, "ExpectedGlobalOrArgument") for at, e in self.sampled() if self.part(e) is None]
        if wrong or "CONTROL_FLOW_UNIFORMITY" not in self.flags:
            return wrong
        self.apart, self.found = [], []
        for e in range(len(self.expressions)):
            self.apart.append(self.differs(e))
        self.walk(self.body, False)
        return self.found

    def differs(self, e):
        """Whether invocations may find it different."""
        kind, *parts = self.expressions[e]
        if kind == "FunctionArgument":
            binding = self.arguments[parts[0]][2]
            return not (binding and binding[0] == "BuiltIn" and binding[1] in ("WorkGroupId", "NumWorkGroups", "WorkGroupSize"))
        if kind == "GlobalVariable":
            return self.global_differs(*self.document[11][parts[0]][1:4])
        if kind in RESULTS:
            return kind != "WorkGroupUniformLoadResult"
        return kind == "LocalVariable" or any(self.apart[o] for o in operands(kind, parts))

    def global_differs(self, space, binding, ty):
        form = self.types.forms[ty]
        if form[0] == "Image" and form[3][0] == "Storage" and "STORE" in form[3][2]:
            return True
        return "STORE" in space[1] if space[0] == "Storage" else space in ("Private", "WorkGroup", "TaskPayload") + PAYLOADS

    def severity(self):
        filters, top = self.document[7]
        for start in (self.leaf, top):
            while start is not None:
                severity, rule, start = filters[start]
                if rule == ["Standard", "DerivativeUniformity"]:
                    return severity
        return "Error"

    def walk(self, block, disrupted):
        """Notes what may not stand where invocations may differ; answers whether some may have left at its end."""
        left = False
        for statement in block:
            kind, *parts = statement
            within = disrupted or left
            if kind == "Emit" and within:
                self.found += [told("NonUniformControlFlow", bits, e) for e in range(*parts) for bits in [self.asks(e)] if bits]
            if kind == "WorkGroupUniformLoad" and within:
                self.found.append(told("NonUniformControlFlow", 1, parts[1]))
            if kind in ("Return", "Kill"):
                left = left or within
            inside = within or (kind in ("If", "Switch") and self.apart[parts[0]])
            exits = False
            for part in blocks_of(statement):
                # a loop's continuing part stands behind its body
                exits = self.walk(part, inside or (kind == "Loop" and exits)) or exits
            left = left or exits
        return left

    def asks(self, e):
        kind, *parts = self.expressions[e]
        if kind in ("CooperativeLoad", "CooperativeMultiplyAdd"):
            return 8
        bits = 2 if kind == "Derivative" else 4 if kind == "ImageSample" and parts[6][0] in ("Auto", "Bias") else 0
        return bits if self.severity() == "Error" else 0

    # ---- variables, arguments and the answer

    def variables(self):
        for place, (_, ty, init) in enumerate(self.locals):
            found = [] if "K" in self.types.flags(ty) else [("InvalidType", ty)]
            if init is not None:
                found += [] if self.forms[init] == self.types.forms[ty] else [("InitializerType",)]
                found += [] if self.kind_of(init) < 2 else [("NonConstOrOverrideInitializer",)]
            if found:
                return [told("LocalVariable", place, *f) for f in found]
        return []

    def interface(self):
        for place, (_, ty, binding) in enumerate(self.arguments):
            form, found = self.types.forms[ty], []
            if form[0] in ("Pointer", "ValuePointer") and form[-1] not in ("Function", "Private"):
                space = form[-1]
                found.append(told("InvalidArgumentPointerSpace", place, space if isinstance(space, str) else space[0]))
            if "A" not in self.types.flags(ty):
                found.append(told("InvalidArgumentType", place))
            if binding is not None and not self.entry:
                found.append("PipelineInputRegularFunction")
            if found:
                return found
        return []

    def result(self):
        if self.answer is not None:
            if "K" not in self.types.flags(self.answer[0]):
                yield "NonConstructibleReturnType"
            if self.answer[1] is not None and not self.entry:
                yield "PipelineOutputRegularFunction"

    # ---- expressions

    def checks(self):
        for e, (kind, *parts) in enumerate(self.expressions):
            check = getattr(self, "check_" + kind, None)
            if check and not check(*parts):
                return [told("Expression", e, kind if kind in ("Literal", "Compose") else "Other")]
        return []

    def width(self, scalar):
        word = WORDS.get(scalar)
        return word in WIDTHS and (WIDTHS[word] is None or WIDTHS[word] in self.capabilities)

    def is_form(self, e, form):
        return e is not None and self.forms[e] == form

    def is_integer(self, e):
        return is_scalar(self.forms[e], INTEGERS)

    def check_Literal(self, word, value):
        return self.width(SCALARS[word])

    def check_ZeroValue(self, ty):
        return "K" in self.types.flags(ty)

    def check_Compose(self, ty, parts):
        kind, *inner = self.types.inner[ty]
        forms, form = [self.forms[p] for p in parts], self.types.forms[ty]
        if kind == "Vector":
            fit = all(is_value(f) and f[-1] == form[2] for f in forms)
            return fit and sum(1 if f[0] == "Scalar" else f[1] for f in forms) == inner[0]
        if kind == "Matrix":
            return forms == [("Vector", inner[1], form[3])] * inner[0]
        if kind == "Array" and inner[1][0] == "Constant":
            return len(forms) == inner[1][1] and all(f == self.types.forms[inner[0]] for f in forms)
        return kind == "Struct" and forms == [self.types.forms[m[1]] for m in inner[0]]

    def known_length(self, form):
        kind, *parts = form
        if kind == "Pointer":
            kind, *parts = self.types.inner[parts[0]]
        if kind in ("Vector", "Matrix") or (kind == "ValuePointer" and parts[0] is not None):
            return parts[0]
        return parts[1][1] if kind in ("Array", "BindingArray") and parts[1][0] == "Constant" else None

    def check_Access(self, base, index):
        expression, length = self.expressions[index], self.known_length(self.forms[base])
        if expression[0] == "Literal" and expression[1] in ("i32", "u32"):
            return expression[2] >= 0 and (length is None or expression[2] < length)
        return self.is_integer(index)

    def check_AccessIndex(self, base, index):
        length = self.known_length(self.forms[base])
        return length is None or index < length

    def check_Swizzle(self, size, vector, pattern):
        return all("xyzw".index(letter) < self.forms[vector][1] for letter in pattern[:size])

    def check_Load(self, pointer):
        form = self.forms[pointer]
        return form[0] == "ValuePointer" or self.types.flags(form[1]) >= set("DZ")

    def image_of(self, e):
        form = self.forms[e]
        return form[1:] if form[0] == "Image" else (None, None, (None,))

    def layer(self, arrayed, e):
        return arrayed == (e is not None) and (e is None or self.is_integer(e))

    def check_ImageSample(self, image, sampler, gather, coordinate, layer, offset, level, depth_ref, clamp):
        dim, arrayed, (kind, *parts) = self.image_of(image)
        if dim is None or self.forms[sampler][0] != "Sampler" or parts[-1:] == [True]:
            return False
        floats = kind != "Sampled" or parts[0] == "Float"
        fits = [
            self.forms[sampler][1] == (depth_ref is not None),
            depth_ref is None or (kind == "Depth" and self.is_form(depth_ref, ("Scalar", F32))),
            floats or gather is not None,
            self.is_form(coordinate, along(dim, F32)),
            self.layer(arrayed, layer),
            offset is None or (dim != "Cube" and self.kind_of(offset) == 0 and self.is_form(offset, along(dim, I32))),
            gather is None or (dim in ("D2", "Cube") and level[0] == "Zero" and (kind != "Depth" or gather == "x")),
            self.level(kind, coordinate, *level),
            clamp if kind == "External" else not clamp or (kind == "Sampled" and floats and dim == "D2" and not arrayed),
            kind != "External" or (level[0] == "Zero" and gather is None and offset is None),
        ]
        return all(fits)

    def level(self, kind, coordinate, word, *parts):
        if word == "Exact":
            return self.is_form(parts[0], ("Scalar", F32)) or (kind == "Depth" and self.is_integer(parts[0]))
        if word == "Gradient":
            return all(self.forms[p] == self.forms[coordinate] for p in parts)
        return word != "Bias" or self.is_form(parts[0], ("Scalar", F32))

    def texel(self, dim, coordinate):
        scalar = scalar_of(self.forms[coordinate])
        return dim != "Cube" and scalar is not None and scalar[0] in INTEGERS and self.forms[coordinate] == along(dim, scalar)

    def check_ImageLoad(self, image, coordinate, layer, sample, level):
        dim, arrayed, (kind, *parts) = self.image_of(image)
        several = kind in ("Sampled", "Depth") and parts[-1]
        return dim is not None and self.texel(dim, coordinate) and self.layer(arrayed, layer) and self.layer(several, sample) \
            and self.layer(kind in ("Sampled", "Depth") and not several, level) and (kind != "Storage" or "LOAD" in parts[1])

    def check_ImageQuery(self, image, query):
        dim, arrayed, (kind, *parts) = self.image_of(image)
        if dim is None:
            return False
        several = kind in ("Sampled", "Depth") and parts[-1]
        mipmapped = kind in ("Sampled", "Depth") and not several
        if query[0] == "Size":
            return query[1] is None or (mipmapped and self.is_integer(query[1]))
        return {"NumLevels": mipmapped, "NumLayers": arrayed, "NumSamples": several}[query[0]]

    def check_Unary(self, op, value):
        kind = (scalar_of(self.forms[value]) or (None,))[0]
        if op == "LogicalNot":
            return is_value(self.forms[value], ("Bool",))
        return kind in (("Sint", "Float") if op == "Negate" else INTEGERS)

    def check_Binary(self, op, left, right):
        a, b = self.forms[left], self.forms[right]
        kind = (scalar_of(a) or (None,))[0]
        if op in ("ShiftLeft", "ShiftRight"):
            return kind in INTEGERS and is_value(a) and b == (*a[:-1], U32)
        if op == "Multiply":
            return self.is_product(a, b)
        return a == b and {
            "Add": is_value(a, NUMERIC) or a[0] in ("Matrix", "CooperativeMatrix"),
            "Subtract": is_value(a, NUMERIC) or a[0] in ("Matrix", "CooperativeMatrix"),
            "Divide": is_value(a, NUMERIC), "Modulo": is_value(a, NUMERIC), "Equal": is_value(a), "NotEqual": is_value(a),
            "LogicalAnd": is_scalar(a, ("Bool",)), "LogicalOr": is_scalar(a, ("Bool",)), "And": kind in ("Bool",) + INTEGERS,
            "InclusiveOr": kind in ("Bool",) + INTEGERS, "ExclusiveOr": kind in INTEGERS,
        }.get(op, op in COMPARISONS and is_value(a, NUMERIC))

    def is_product(self, a, b):
        kinds = a[0], b[0]
        if scalar_of(a) is None or scalar_of(a) != scalar_of(b):
            return False
        fits = {("Scalar", "Scalar"): True, ("Vector", "Vector"): a == b, ("Matrix", "Vector"): a[1] == b[1],
                ("Vector", "Matrix"): a[1] == b[-2], ("Matrix", "Matrix"): a[1] == b[-2]}
        return "Scalar" in kinds or fits.get(kinds, False)

    def check_Select(self, condition, accept, reject):
        a, test = self.forms[accept], self.forms[condition]
        return a == self.forms[reject] and is_value(a) and is_value(test, ("Bool",)) and test[:-1] in (a[:-1], ("Scalar",))

    def check_Derivative(self, axis, control, value):
        return is_value(self.forms[value], ("Float",))

    def check_Relational(self, fun, value):
        form = self.forms[value]
        return form[0] == "Vector" and form[2][0] == "Bool" if fun in ("All", "Any") else is_value(form, ("Float",))

    def check_As(self, value, kind, width):
        scalar = self.forms[value][-1]
        return self.width((kind, width)) if width is not None else "Bool" not in (kind, scalar[0])

    def is_atomic(self, scalar):
        if scalar == F32:
            return "SHADER_FLOAT32_ATOMIC" in self.capabilities
        wide = {"SHADER_INT64_ATOMIC_MIN_MAX", "SHADER_INT64_ATOMIC_ALL_OPS"} & self.capabilities
        return scalar in (I32, U32) or (WORDS.get(scalar) in ("i64", "u64") and bool(wide))

    def exchanged(self, ty):
        """The form of the old value of what an exchange answers."""
        kind, *parts = self.types.inner[ty]
        members = parts[0] if kind == "Struct" else []
        if [m[0] for m in members] != ["old_value", "exchanged"] or not is_scalar(self.types.forms[members[1][1]], ("Bool",)):
            return (None,)
        return self.types.forms[members[0][1]]

    def check_AtomicResult(self, ty, comparison):
        form = self.exchanged(ty) if comparison else self.types.forms[ty]
        return form[0] == "Scalar" and self.is_atomic(form[1])

    def check_WorkGroupUniformLoadResult(self, ty):
        return self.types.flags(ty) >= set("ZK")

    def check_ArrayLength(self, array):
        inner = pointed_inner(self.types, self.forms[array])
        return inner[0] == "Array" and inner[2][0] == "Dynamic"

    def check_RayQueryVertexPositions(self, query, committed):
        return pointed_inner(self.types, self.forms[query]) == ["RayQuery", True]

    def check_RayQueryGetIntersection(self, query, committed):
        return pointed_inner(self.types, self.forms[query])[0] == "RayQuery"

    def check_CooperativeLoad(self, columns, rows, role, pointer, stride, row_major):
        return self.is_form(stride, ("Scalar", U32))

    def check_CooperativeMultiplyAdd(self, *operands):
        a, b, c = (self.forms[o] for o in operands)
        return [f[0] for f in (a, b, c)] == ["CooperativeMatrix"] * 3 and [f[4] for f in (a, b, c)] == ["A", "B", "C"] \
            and a[1] == b[2] and a[2] == c[2] and b[1] == c[1] and a[3] == b[3]

    # ---- the body

    def block_faults(self):
        self.found = []
        self.answers = [s[-1] for s in self.statements if s[0] in ("Call", "Atomic") and s[-1] is not None]
        self.payload = self.module.payload
        self.scope = {e for e, x in enumerate(self.expressions) if x[0] in PRE_EMITTED}
        self.block(self.body, ("Return",))
        return self.found

    def unanswered(self):
        for e, expression in enumerate(self.expressions):
            if expression[0] in ("CallResult", "AtomicResult") and e not in self.answers:
                return [told("UnvisitedExpression", e)]
        return []

    def fault(self, *parts):
        self.found.append(told(*parts))

    def use(self, *operands):
        for e in operands:
            if e is not None and e not in self.scope:
                self.fault("Expression", e, "NotInScope")

    def bring(self, e):
        if e in self.scope:
            self.fault("ExpressionAlreadyInScope", e)
        self.scope = self.scope | {e}

    def block(self, block, may):
        """A block from whose end nothing is seen."""
        scope = self.scope
        self.along(block, may)
        self.scope = scope

    def along(self, block, may):
        for statement in block:
            self.may = may
            getattr(self, "on_" + statement[0])(*statement[1:])

    def on_Emit(self, first, end):
        for e in range(first, end):
            if self.expressions[e][0] in RESULTS:
                self.fault("EmitResult", e)
            self.bring(e)

    def on_Block(self, block):
        self.block(block, self.may)

    def condition(self, e):
        self.use(e)
        if not is_scalar(self.forms[e], ("Bool",)):
            self.fault("InvalidIfType", e)

    def on_If(self, condition, accept, reject):
        may = self.may
        self.condition(condition)
        self.block(accept, may)
        self.block(reject, may)

    def on_Switch(self, selector, cases):
        may = {"Return", "Continue"}.intersection(self.may) | {"Break"}
        self.use(selector)
        kind = (scalar_of(self.forms[selector]) or (None,))[0]
        if kind not in INTEGERS:
            self.fault("InvalidSwitchType", selector)
        else:
            self.cases({"Sint": "I32", "Uint": "U32"}[kind], [case[0] for case in cases])
            if cases and cases[-1][2]:
                self.fault("LastCaseFallTrough")
        for _, body, _ in cases:
            self.block(body, may)

    def cases(self, word, values):
        if any(value[0] not in (word, "Default") for value in values):
            self.fault("ConflictingCaseType")
        for place, value in enumerate(values):
            if value in values[:place]:
                self.fault(*(["MultipleDefaultCases"] if value == ["Default"] else ["ConflictingSwitchCase", *value]))
        if ["Default"] not in values:
            self.fault("MissingDefaultCase")

    def on_Loop(self, body, continuing, condition):
        scope, may = self.scope, {"Return"}.intersection(self.may) | {"Break", "Continue"}
        self.along(body, may)
        self.along(continuing, ())
        if condition is not None:
            self.condition(condition)
        self.scope = scope

    def on_Break(self):
        if "Break" not in self.may:
            self.fault("BreakOutsideOfLoopOrSwitch")

    def on_Continue(self):
        if "Continue" not in self.may:
            self.fault("ContinueOutsideOfLoop")

    def on_Return(self, value):
        if "Return" not in self.may:
            self.fault("InvalidReturnSpot")
        self.use(value)
        declared = None if self.answer is None else self.answer[0]
        if (value is None) != (declared is None) or (value is not None and self.forms[value] != self.types.forms[declared]):
            self.fault("InvalidReturnType", value, declared)

    def on_Kill(self):
        pass

    def on_ControlBarrier(self, words):
        if "SUB_GROUP" in words:
            if not {"SUBGROUP", "SUBGROUP_BARRIER"} <= self.capabilities:
                self.fault("MissingCapability", capability("SUBGROUP", "SUBGROUP_BARRIER"))
            self.supported("BASIC")

    on_MemoryBarrier = on_ControlBarrier

    def supported(self, operation):
        if operation not in self.document[3][1]:
            self.fault("InvalidSubgroup", "UnsupportedOperation", 1 << SUBGROUP_WORDS.index(operation))

    def start(self, e):
        while self.expressions[e][0] in ("Access", "AccessIndex"):
            e = self.expressions[e][1]
        return e

    def on_Store(self, pointer, value):
        self.use(value)
        start, form, at = self.start(pointer), self.forms[value], self.forms[pointer]
        if self.expressions[start][0] not in ("LocalVariable", "GlobalVariable", "FunctionArgument"):
            self.fault("InvalidStorePointer", start)
        if form[0] in ("Image", "Sampler"):
            self.fault("InvalidStoreTexture", value)
        if at[0] not in ("Pointer", "ValuePointer") or form != self.stored(at):
            self.fault("InvalidStoreTypes", pointer, value)
        if at[0] in ("Pointer", "ValuePointer") and "STORE" not in access_of(at[-1]):
            self.fault("InvalidStorePointer", pointer)

    def stored(self, at):
        if at[0] == "ValuePointer":
            return ("Scalar", at[2]) if at[1] is None else ("Vector", at[1], at[2])
        form = self.types.forms[at[1]]
        return ("Scalar", form[1]) if form[0] == "Atomic" else form

    def variable(self, e):
        """The global variable that an expression is, by the type that it is declared with."""
        return self.document[11][self.expressions[e][1]] if self.expressions[e][0] == "GlobalVariable" else None

    def accessed(self, e):
        return self.variable(self.expressions[e][1]) if self.expressions[e][0] in ("Access", "AccessIndex") else None

    def on_ImageStore(self, image, coordinate, layer, value):
        self.use(coordinate, layer, value)
        whole, part = self.variable(image), self.accessed(image)
        if whole is None and part is None:
            return self.fault("InvalidImageStore", "ExpectedGlobalVariable")
        ty = (whole or part)[3]
        form = self.types.forms[ty]
        if part:
            if form[0] != "BindingArray":
                return self.fault("InvalidImageStore", "ExpectedBindingArrayType", ty)
            form = self.types.forms[form[1]]
        if form[0] != "Image":
            return self.fault("InvalidImageStore", "ExpectedImageType", ty)
        self.texel_faults("InvalidImageStore", form, coordinate, layer)
        if form[3][0] != "Storage":
            return self.fault("InvalidImageStore", "InvalidImageClass")
        if self.forms[value] != ("Vector", 4, format_scalar(form[3][1])):
            self.fault("InvalidStoreValue", value)

    def texel_faults(self, name, image, coordinate, layer):
        if not self.texel(image[1], coordinate):
            self.fault(name, "InvalidImageCoordinateType", image[1], coordinate)
        if image[2] != (layer is not None):
            self.fault(name, "InvalidImageArrayIndex")
        if layer is not None and not self.is_integer(layer):
            self.fault(name, "InvalidImageArrayIndexType", layer)

    def on_ImageAtomic(self, image, coordinate, layer, fun, value):
        self.use(coordinate, layer, value)
        variable = self.variable(image) or self.accessed(image)
        if variable is None:
            return self.fault("InvalidImageAtomic", "ExpectedGlobalVariable")
        form = self.types.forms[variable[3]]
        if form[0] == "BindingArray":
            form = self.types.forms[form[1]]
        if form[0] != "Image":
            return self.fault("InvalidImageAtomic", "ExpectedImageType", variable[3])
        self.texel_faults("InvalidImageAtomic", form, coordinate, layer)
        if form[3][0] != "Storage":
            return self.fault("InvalidImageAtomic", "InvalidImageClass")
        _, format, access = form[3]
        if "ATOMIC" not in access:
            self.fault("InvalidImageAtomic", "InvalidImageStorageAccess", sum(1 << ACCESS.index(word) for word in access))
        self.format_faults(format, fun)
        if self.forms[value] != ("Scalar", format_scalar(format)):
            self.fault("InvalidImageAtomicValue", value)

    def format_faults(self, format, fun):
        wide = format == "R64Uint"
        if not wide and format not in ("R32Uint", "R32Sint"):
            return self.fault("InvalidImageAtomic", "InvalidImageFormat", format)
        needed = "TEXTURE_INT64_ATOMIC" if wide else "TEXTURE_ATOMIC"
        if needed not in self.capabilities:
            self.fault("MissingCapability", capability(needed))
        if fun[0] not in ("Min", "Max") if wide else fun[0] in ("Subtract", "Exchange"):
            self.fault("InvalidImageAtomicFunction", *fun)

    def on_Call(self, function, arguments, result):
        callee = self.document[12][function]
        for place, (e, argument) in enumerate(zip(arguments, callee[1])):
            if e not in self.scope:
                self.fault("InvalidCall", function, "Argument", place, "NotInScope")
            if self.forms[e] != self.types.forms[argument[1]]:
                self.fault("InvalidCall", function, "ArgumentType", place, argument[1], e)
        declared = callee[2] is not None
        if declared != (result is not None) or (declared and self.expressions[result] != ["CallResult", function]):
            self.fault("InvalidCall", function, "ExpressionMismatch", result)
        if result is not None:
            if result in self.scope:
                self.fault("InvalidCall", function, "ResultAlreadyInScope", result)
            if self.populated(result):
                self.fault("InvalidCall", function, "ResultAlreadyPopulated", result)
            self.scope = self.scope | {result}

    def populated(self, e):
        return "EXPRESSIONS" not in self.flags or self.answers.count(e) > 1

    def atomic_fault(self, *parts):
        self.fault("InvalidAtomic", *parts)

    def on_Atomic(self, pointer, fun, value, result):
        compare = fun[1] if fun[0] == "Exchange" else None
        self.use(pointer, value, compare if result is not None else None)
        inner = pointed_inner(self.types, self.forms[pointer])
        if inner[0] != "Atomic":
            self.atomic_fault("InvalidPointer", pointer)
        else:
            self.atomic(self.types.forms[self.forms[pointer][1]][1], self.forms[pointer][2], fun, compare, value, result)
        if result is not None:
            if self.populated(result):
                self.atomic_fault("ResultAlreadyPopulated", result)
            self.bring(result)

    def atomic(self, scalar, space, fun, compare, value, result):
        if self.forms[value] != ("Scalar", scalar):
            self.atomic_fault("InvalidOperand", value)
        stored = space[0] == "Storage"
        if WORDS.get(scalar) in ("i64", "u64") and "SHADER_INT64_ATOMIC_ALL_OPS" not in self.capabilities:
            kept = fun[0] in ("Min", "Max") and stored and result is None
            needed = "SHADER_INT64_ATOMIC_MIN_MAX" if kept else "SHADER_INT64_ATOMIC_ALL_OPS"
            if needed not in self.capabilities:
                self.atomic_fault("MissingCapability", capability(needed))
        if scalar == F32:
            self.float_faults(space, stored, fun)
        if result is None:
            if fun == ["Exchange", None]:
                self.atomic_fault("MissingReturnValue")
        elif self.expressions[result][0] != "AtomicResult":
            self.atomic_fault("InvalidResultExpression", result)
        else:
            self.answered(scalar, compare, result, *self.expressions[result][1:])

    def float_faults(self, space, stored, fun):
        if "SHADER_FLOAT32_ATOMIC" not in self.capabilities:
            self.atomic_fault("MissingCapability", capability("SHADER_FLOAT32_ATOMIC"))
        if fun not in (["Add"], ["Subtract"], ["Exchange", None]):
            self.atomic_fault("InvalidOperator", *fun)
        if not stored:
            self.atomic_fault("InvalidAddressSpace", space)

    def answered(self, scalar, compare, result, ty, comparison):
        form = ("Scalar", scalar)
        if compare is not None and self.forms[compare] != form:
            self.atomic_fault("InvalidOperand", compare)
        if (self.types.forms[ty] if compare is None else self.exchanged(ty)) != form:
            self.atomic_fault("ResultTypeMismatch", result)
        if comparison != (compare is not None):
            self.atomic_fault("ResultExpressionExchange" if comparison else "ResultExpressionNotExchange", result)

    def on_WorkGroupUniformLoad(self, pointer, result):
        self.use(pointer)
        at, expression = self.forms[pointer], self.expressions[result]
        if expression[0] != "WorkGroupUniformLoadResult":
            self.fault("WorkgroupUniformLoadExpressionMismatch", result)
        if at[0] not in ("Pointer", "ValuePointer") or at[-1] != "WorkGroup" or (
                expression[0] == "WorkGroupUniformLoadResult" and not self.leads_to(at, expression[1])):
            self.fault("WorkgroupUniformLoadInvalidPointer", pointer)
        self.bring(result)

    def leads_to(self, at, ty):
        inner = self.types.forms[at[1]] if at[0] == "Pointer" else (None,)
        return at == self.types.pointer(ty, "WorkGroup") or (inner[0] == "Atomic" and self.types.forms[ty] == ("Scalar", inner[1]))

    def is_descriptor(self, e):
        declared, form = self.document[6][0], self.forms[e]
        if declared is None:
            return False
        if form[0] == "Struct":
            return self.types.inner[form[1]] == self.types.inner[declared]
        return form == self.types.forms[declared]

    def ray(self, structure, descriptor):
        self.use(structure, descriptor)
        if self.forms[structure][0] != "AccelerationStructure":
            self.fault("InvalidAccelerationStructure", structure)
        if not self.is_descriptor(descriptor):
            self.fault("InvalidRayDescriptor", descriptor)

    def on_RayQuery(self, query, fun):
        word, *parts = fun
        kind, *of = self.expressions[query]
        inner = self.types.inner[self.locals[of[0]][1]] if kind == "LocalVariable" else [None]
        if word == "Proceed":
            self.bring(parts[0])
        else:
            self.use(*parts)
        if kind != "LocalVariable":
            return self.fault("InvalidRayQueryExpression", query)
        if inner[0] != "RayQuery":
            return self.fault("InvalidRayQueryType", self.locals[of[0]][1])
        if word == "Initialize":
            self.start_query(query, inner[1], *parts)
        elif word == "GenerateIntersection" and not is_scalar(self.forms[parts[0]], ("Float",)):
            self.fault("InvalidHitDistanceType", parts[0])

    def start_query(self, query, vertices, structure, descriptor):
        form = self.forms[structure]
        if form[0] != "AccelerationStructure":
            self.fault("InvalidAccelerationStructure", structure)
        elif vertices and not form[1]:
            self.fault("MissingAccelerationStructureVertexReturn", structure, query)
        if not self.is_descriptor(descriptor):
            self.fault("InvalidRayDescriptor", descriptor)

    def on_RayPipelineFunction(self, fun):
        _, structure, descriptor, payload = fun
        self.use(payload)
        self.ray(structure, descriptor)
        variable, at = self.variable(payload), self.forms[payload]
        if variable is not None and variable[1] in PAYLOADS:
            self.payload = variable[3] if self.payload is None else self.payload
            if variable[3] != self.payload:
                self.fault("MismatchedPayloadType", variable[3], self.payload)
        elif at[0] not in ("Pointer", "ValuePointer"):
            self.fault("InvalidPayloadType")
        elif at[-1] in PAYLOADS:
            self.fault("PayloadPointerNotGlobal")
        else:
            self.fault("InvalidPayloadAddressSpace", at[-1] if isinstance(at[-1], str) else at[-1][0])

    def subgroup_fault(self, *parts):
        self.fault("InvalidSubgroup", *parts)

    def needs(self, operation):
        if "SUBGROUP" not in self.capabilities:
            self.fault("MissingCapability", capability("SUBGROUP"))
        self.supported(operation)

    def on_SubgroupBallot(self, result, predicate):
        self.needs("BALLOT")
        self.use(predicate)
        if predicate is not None and self.forms[predicate] != ("Scalar", BOOL):
            self.subgroup_fault("InvalidOperand", predicate)
        self.bring(result)

    def answers_as(self, result, argument):
        expression = self.expressions[result]
        if expression[0] != "SubgroupOperationResult" or self.types.forms[expression[1]] != self.forms[argument]:
            self.subgroup_fault("ResultTypeMismatch", result)
        self.bring(result)

    def on_SubgroupCollectiveOperation(self, operation, collective, argument, result):
        self.needs(NEEDS[operation])
        self.use(argument)
        form = self.forms[argument]
        if operation in ("All", "Any"):
            fits = is_scalar(form, ("Bool",))
        elif operation in ("And", "Or", "Xor"):
            fits = is_value(form, INTEGERS) and form[-1][1] >= 4
        else:
            fits = is_value(form, NUMBERS)
        if not fits:
            self.subgroup_fault("InvalidOperand", argument)
        if collective != "Reduce" and operation not in ("Add", "Mul"):
            self.subgroup_fault("UnknownOperation")
        self.answers_as(result, argument)

    def on_SubgroupGather(self, mode, argument, result):
        word, *parts = mode
        self.needs(NEEDS[word])
        if word not in ("BroadcastFirst", "QuadSwap"):
            self.use(parts[0])
            if self.forms[parts[0]] != ("Scalar", U32):
                self.subgroup_fault("InvalidOperand", parts[0])
            if word in ("Broadcast", "QuadBroadcast") and self.kind_of(parts[0]) != 0:
                self.subgroup_fault("InvalidInvocationIdExprType", parts[0])
        self.use(argument)
        if not is_value(self.forms[argument], NUMBERS):
            self.subgroup_fault("InvalidOperand", argument)
        self.answers_as(result, argument)

    def on_CooperativeStore(self, target, pointer, stride, row_major):
        self.use(target)
        form, at = self.forms[target], self.forms[pointer]
        if form[0] != "CooperativeMatrix":
            self.fault("InvalidCooperativeStoreTarget", target)
        elif pointed_scalar(self.types, at) != form[3]:
            self.fault("InvalidCooperativeDataPointer", pointer)
        if at[0] not in ("Pointer", "ValuePointer") or "STORE" not in access_of(at[-1]):
            self.fault("InvalidStorePointer", pointer)


def operands(kind, parts):
    """The operands of an expression."""
    if kind in ("Literal", "Constant", "Override", "ZeroValue", "FunctionArgument", "GlobalVariable", "LocalVariable", *RESULTS):
        return []
    if kind == "Compose":
        return parts[1]
    if kind == "ImageSample":
        return [o for o in (*parts[:2], *parts[3:6], *parts[6][1:], parts[7]) if o is not None]
    if kind == "ImageQuery":
        return [o for o in (parts[0], *parts[1][1:]) if o is not None]
    at = {"AccessIndex": parts[:1], "Splat": parts[1:], "Swizzle": parts[1:2], "Unary": parts[1:], "Binary": parts[1:],
          "Derivative": parts[2:], "Relational": parts[1:], "Math": parts[1:], "As": parts[:1],
          "RayQueryVertexPositions": parts[:1], "RayQueryGetIntersection": parts[:1], "CooperativeLoad": parts[3:5]}
    return [o for o in at.get(kind, parts) if o is not None]


class Module:
    """The functions of a module in order, as far as they are accepted."""

    def __init__(self, document):
        self.document, self.types = document, Types(document[5])
        self.functions, self.payload = [], None

    def refused(self):
        """The first function that is refused, and the errors of which one is told; None where all are accepted."""
        for place, written in enumerate(self.document[12]):
            function = Function(self, written, False)
            found = function.faults()
            if found:
                return place, found
            self.take(function)
        return None

    def take(self, function):
        self.functions.append(function)
        if "BLOCKS" in function.flags:
            self.payload = function.payload

#!/usr/bin/env python3
"""Writes the cases of why documents are refused: make_names.py [OUT].

Each document was worked out by hand, so that what is told is wrong with it and nothing else is; beside it stands one in which
that is taken away, and which is accepted. OUT is where the file of cases goes, data/ of test_cases where none is given.

The answer is `accepted`, or the verdict, a colon, a space, and the error of the item that the verdict names, as the program
prints it: of a type a `TypeError`, of a global expression a `ConstExpressionError`, of a global variable a
`GlobalVariableError`, of an entry point an `EntryPointError`, and so on. A case has two answers where two errors stand; what
the program looks at first is the first. Of two variables with one binding either could be told, and the later one is.

These stand beside another error always:

- `InvalidBindingArray`: a binding array holds structs or what goes by a handle, and for structs `InvalidType` stands too
- `Alignment` by `NonHostShareable`: storage and uniform buffers ask for what is missing, so that `MissingTypeFlags` stands too
- `InvalidPerVertexSampling`: values of each vertex go with no place, so `InvalidInterpolationSamplingCombination` stands too
- `UnsupportedCapability` of an entry point for `MESH_SHADER`: a payload of a task needs it before, and so does what names the
  vertices of a primitive; `ExpectedTaskPayload`, `ExpectedMeshShaderAttributes` or a fault of what is given stands too
- `InvalidMeshOutputType`: of vertices `MissingVertexOutputPosition` stands too; of primitives `BadMeshOutputVariableType` where
  another type is said than the output's, and else `InvalidMeshPrimitiveOutputType`
- `UnexpectedMeshShaderAttributes`, but for vertex shaders: elsewhere what a mesh gives with a vertex has no position

No document has these:

- `InvalidType` of a built-in value: its type would have to be missing, and the handles are refused then
- `BindingCollisionBlendSrc`, `InvalidBlendSrcIndex`, `IncompleteBlendSrcUsage`, `InvalidBlendSrcWithOtherBindings` and
  `BlendSrcOutputTypeMismatch` of entry points: they stand at the type, as `InvalidBlendSrc`, which is refused before
- `NonPowerOfTwoWidth`, `UnresolvedOverride`, `UninitializedOverride`, and `InitializerExprType` of overrides: no document has
  such a width or resolves overrides, and an expression that runs is refused before the override is asked
"""
import json
import sys
from pathlib import Path

from make_data import SIX
from make_infos import capability
from make_types import form, handle, scalar

PARTS, LIMIT = 14, 150000
# the flags under which these are asked; all six else
STATED, DECLARED = ["CONSTANTS"], ["STRUCT_LAYOUTS", "CONSTANTS", "BINDINGS"]
LINKED, ENTERED = ["BINDINGS"], ["EXPRESSIONS", "BLOCKS", "BINDINGS"]

# the words of sets, by their bits
FLAGS = "DATA SIZED COPY IO_SHAREABLE HOST_SHAREABLE CREATION_RESOLVED ARGUMENT CONSTRUCTIBLE".split()
USES = "READ WRITE QUERY ATOMIC".split()


def words(name, all_of_it, bits):
    """A set as it is printed."""
    held = [word for place, word in enumerate(all_of_it) if bits >> place & 1]
    return "%s(%s)" % (name, " | ".join(held) or "0x0")


# ---- types

BOOL, U16, U32, I32, F16, F32, F64 = ([None, ["Scalar", word]] for word in "bool u16 u32 i32 f16 f32 f64".split())
V2, V3, V4 = ([None, ["Vector", size, "f32"]] for size in (2, 3, 4))
U2, U3, U4 = ([None, ["Vector", size, "u32"]] for size in (2, 3, 4))
ATOMIC, SAMPLER, STRUCTURE = [None, ["Atomic", "u32"]], [None, ["Sampler", False]], [None, ["AccelerationStructure", False]]
SAMPLED = [None, ["Image", "D2", False, ["Sampled", "Float", False]]]
DYNAMIC, PENDING = ["Dynamic"], ["Pending", 0]


def array(base, size, stride):
    return [None, ["Array", base, ["Constant", size] if isinstance(size, int) else size, stride]]


def bindings(base, size=2):
    return [None, ["BindingArray", base, ["Constant", size]]]


def struct(span, *members):
    """A struct of members, each with its type, its offset and its binding."""
    return [None, ["Struct", [[None, ty, binding, offset] for ty, offset, binding in members], span]]


def sixteens(*members, behind=0):
    """A struct whose members begin at multiples of sixteen, with their types and bindings, and so many bytes behind them."""
    return struct(16 * len(members) + behind, *((ty, 16 * place, binding) for place, (ty, binding) in enumerate(members)))


def texels(format, *access):
    return [None, ["Image", "D2", False, ["Storage", format, list(access)]]]


def without(word, flags):
    return [flag for flag in flags if flag != word]


# ---- bindings


def at(location, interpolation=None, sampling=None, source=None, primitive=False):
    return ["Location", location, interpolation, sampling, source, primitive]


def is_(word, *more):
    return ["BuiltIn", word, *more]


POSITION, INVARIANT = is_("Position", False), is_("Position", True)

# ---- items and documents


def variable(space, ty, binding=None, init=None, decorations=()):
    return [None, space, binding, ty, init, list(decorations)]


def storage(*access):
    return ["Storage", list(access)]


def f(expressions=(), body=(), arguments=(), result=None, locals=(), leaf=None):
    return [None, [[None, ty, binding] for ty, binding in arguments], result, list(locals), list(expressions), list(body), leaf]


def entry(stage, name="main", size=None, early=None, mesh=None, payload=None, **function):
    workgroups = stage in ("Compute", "Task", "Mesh")
    return [stage, name, early, size or [int(workgroups)] * 3, mesh, payload, f(**function)]


def document(types=(), variables=(), functions=(), entries=(), flags=SIX, capabilities=(), subgroups=((), ()), constants=(),
             overrides=(), expressions=(), filters=((), None), returns=False):
    return [1, list(flags), list(capabilities), [list(words) for words in subgroups], returns, list(types),
            [None, None, None, []], [list(filters[0]), filters[1]], list(constants), list(overrides), list(expressions),
            list(variables), list(functions), list(entries)]


def case(name, answers, **parts):
    text = json.dumps(document(**parts), separators=(",", ":"))
    return [name, "refusal", text, *([answers] if isinstance(answers, str) else answers)]


def refused(verdict, errors):
    """The answers where each of these errors is right at the item of a verdict."""
    if errors is None:
        return "accepted"
    return ["refused %s: %s" % (verdict, error) for error in ([errors] if isinstance(errors, str) else errors)]


# ---- errors, as they are printed


def lacks(*words):
    return "UnsupportedCapability(%s)" % capability(*words)


def found(text):
    """An error in which what stands in braces are handles."""
    return "".join(handle(int(part)) if part.isdigit() else part for part in text.replace("}}", "{{").split("{{"))


# ---- handles


def handles(name, error, **parts):
    return case("handles/" + name, refused("handles", error), flags=[], **parts)


def bad(kind, index):
    return 'BadHandle(BadHandle { kind: "%s", index: %d })' % (kind, index)


def forward(kind, subject, depends_on):
    return 'ForwardDependency(FwdDepError { subject: %d, subject_kind: "%s", depends_on: %d, depends_on_kind: "%s" })' % (
        subject, kind, depends_on, kind)


def out(first, end):
    return 'BadRange(BadRangeError { kind: "expression", range: Range { first: %d, end: %d, marker: PhantomData<_> } })' % (
        first, end)


TRUTHS = [["Literal", "bool", True], ["Unary", "LogicalNot", 0]]
ZERO = ["Literal", "u32", 0]
OFF = ["Off", ["Standard", "DerivativeUniformity"]]
CALL = ["Call", 0, [], None]
HANDLES = [
    handles("type of a variable is not there", bad("type", 1), types=[U32], variables=[variable("Private", 1)]),
    handles("types and variables are there", None, types=[U32], variables=[variable("Private", 0)],
            functions=[f([["GlobalVariable", 0], ["LocalVariable", 0]], locals=[["x", 0, None]])]),
    handles("variable is not there", bad("global", 3), functions=[f([["GlobalVariable", 3]])]),
    handles("local variable is not there", bad("local", 0), functions=[f([["LocalVariable", 0]])]),
    handles("function of a call is not there", bad("function", 0), entries=[entry("Compute", body=[CALL])]),
    handles("function of a call is there", None, functions=[f()], entries=[entry("Compute", body=[CALL])]),
    handles("constant is not there", bad("constant", 7), expressions=[["Constant", 7]]),
    handles("override of a length is not there", bad("override", 2), types=[U32, array(0, ["Pending", 2], 4)]),
    handles("override of a length is there", None, types=[U32, array(0, PENDING, 4)], overrides=[["n", None, 0, None]]),
    handles("filter is not there", bad("filter", 4), filters=([], 4)),
    handles("value of a constant is not there", bad("expression", 3), types=[U32], constants=[["c", 0, 3]]),
    handles("array of itself", forward("type", 0, 0), types=[array(0, 4, 4)]),
    handles("operand comes later", forward("expression", 0, 1), functions=[f([["Unary", "LogicalNot", 1], TRUTHS[0]])]),
    handles("function calls a later one", forward("function", 0, 1), functions=[f([], [["Call", 1, [], None]]), f()]),
    handles("filter in itself", forward("filter", 0, 0), filters=([OFF + [0]], None)),
    handles("filters in order", None, filters=([OFF + [None], OFF + [0]], 1)),
    handles("constant by itself", forward("expression", 0, 0), types=[U32], constants=[["c", 0, 0]],
            expressions=[["Constant", 0]]),
    handles("range ends too late", out(1, 3), functions=[f(TRUTHS, [["Emit", 1, 3]])]),
    handles("range ends before it begins", out(2, 1), functions=[f(TRUTHS, [["Emit", 2, 1]])]),
    handles("range of one", None, functions=[f(TRUTHS, [["Emit", 1, 2]])]),
]

# ---- the steps up to overrides


def step(name, verdict, error, flags=STATED, **parts):
    return case("steps/" + name, refused(verdict, error), flags=flags, **parts)


def first(offset, ty=0):
    return (ty, offset, at(0, source=0))


def second(offset, ty=0, location=0, source=1):
    return (ty, offset, at(location, source=source))


def blend(name, error, *members, types=(V4,), capabilities=("DUAL_SOURCE_BLENDING",)):
    """A struct whose members are sources of a blend, or should be."""
    verdict = "type %d" % len(types)
    return step(name, verdict, error, types=[*types, struct(16 * len(members), *members)], capabilities=capabilities)


def unblended(name, fields):
    return "InvalidBlendSrc(%s { %s })" % (name, found(fields))


HALF = ["Literal", "f32", 1056964608]
SLOPE = ["Derivative", "X", "None", 0]
LACKS_F64 = "MissingCapability(%s)" % capability("FLOAT64")
STEPS = [
    step("too large", "layout 1", "TooLarge", types=[F32, struct(2147483648, (0, 0, None))]),
    step("as large as it may be", None, None, types=[F32, struct(2147483647, (0, 0, None))]),
    step("struct of nothing", "type 0", "EmptyStruct", types=[struct(4)]),
    step("wide float", "type 0", "WidthError(%s)" % LACKS_F64, types=[F64]),
    step("wide float that there is", None, None, types=[F64], capabilities=["FLOAT64"]),
    blend("two sources", None, first(0), second(16)),
    blend("two sources of no capability", "MissingCapability(%s)" % capability("DUAL_SOURCE_BLENDING"), first(0), second(16),
          capabilities=()),
    blend("first source twice", unblended("BindingCollisionBlendSrc", "blend_src: 0"), first(0), second(16), first(32)),
    blend("source at another location", unblended("InvalidBlendSrcIndex", "location: 1, blend_src: 1"), first(0),
          second(16, location=1)),
    blend("third source", unblended("InvalidBlendSrcIndex", "location: 0, blend_src: 2"), first(0), second(16),
          second(32, source=2)),
    blend("first source alone", unblended("IncompleteBlendSrcUsage", "present_blend_src: 0"), first(0)),
    blend("second source alone", unblended("IncompleteBlendSrcUsage", "present_blend_src: 1"), second(0)),
    blend("location beside sources", unblended("InvalidBlendSrcWithOtherBindings", "location: 3"), first(0), second(16),
          (0, 32, at(3))),
    blend("sources of two types", unblended("BlendSrcOutputTypeMismatch", "blend_src_0_type: {{1}}, blend_src_1_type: {{0}}"),
          first(0, 1), second(16), types=[V4, U4]),
    blend("sources that go nowhere", "InvalidBlendSrc(NotIOShareableType(%s))" % handle(0), first(0), second(16), types=[BOOL]),
    step("spread of a vector", "typing 1", found("Typing(InvalidScalar({{0}}))"), types=[V4],
         expressions=[["ZeroValue", 0], ["Splat", 4, 0]]),
    step("argument of no function", "typing 0", "Typing(FunctionArgumentNotFound(0))", expressions=[["FunctionArgument", 0]]),
    step("global expression that runs", "expression 1", "NonConstOrOverride", expressions=[HALF, SLOPE]),
    step("global expression that runs and is not asked", None, None, expressions=[HALF, SLOPE], flags=[]),
    step("sum that was not worked out", "expression 1", "NonFullyEvaluatedConst", expressions=[HALF, ["Binary", "Add", 0, 0]]),
    step("sum that waits for an override", None, None, types=[F32], overrides=[["x", None, 0, None]],
         expressions=[["Override", 0], ["Binary", "Add", 0, 0]]),
    step("wide literal", "expression 0", "Literal(Width(%s))" % LACKS_F64, expressions=[["Literal", "f64", 0]]),
    step("vector of two numbers of two types", "expression 2", "Compose(ComponentType { index: 1 })", types=[V2],
         expressions=[HALF, ZERO, ["Compose", 0, [0, 1]]]),
    step("constant of another type", "constant 0", "InvalidType", types=[F32], constants=[["c", 0, 0]], expressions=[ZERO]),
    step("constant by an override", "constant 0", "InitializerExprType", types=[U32], constants=[["c", 0, 0]],
         overrides=[["n", None, 0, None]], expressions=[["Override", 0]]),
    step("constant of its type", None, None, types=[U32], constants=[["c", 0, 0]], expressions=[ZERO]),
    step("override without name and number", "override 0", "MissingNameAndID", types=[U32], overrides=[[None, None, 0, None]]),
    step("two overrides of one number", "override 1", "DuplicateID", types=[U32],
         overrides=[["n", 7, 0, None], ["m", 7, 0, None]]),
    step("override of another type", "override 0", "InvalidType", types=[F32], overrides=[["n", None, 0, 0]],
         expressions=[ZERO]),
    step("override of two bytes", "override 0", "TypeNotScalar", types=[U16], overrides=[["n", None, 0, None]],
         capabilities=["SHADER_INT16"]),
    step("two overrides", None, None, types=[U32], overrides=[["n", 7, 0, None], ["m", 8, 0, 0]], expressions=[ZERO]),
]

# ---- functions


def function(name, index, error, **parts):
    return case("functions/" + name, refused("function %d" % index, error), **parts)


NUMBERED = [None, [["x", 0, is_("VertexIndex")]], None, [], [], [], None]
TAKING = [None, [["x", 0, None]], None, [], [], [], None]
FUNCTIONS = [
    function("break in no loop", 0, "BreakOutsideOfLoopOrSwitch", functions=[f(body=[["Break"]])]),
    function("break in a loop", 0, None, functions=[f(body=[["Loop", [["Break"]], [], None]])]),
    function("argument that is bound", 0, 'PipelineInputRegularFunction { name: "x" }', types=[U32], functions=[NUMBERED]),
    function("answer that is bound", 0, "PipelineOutputRegularFunction", types=[U32],
             functions=[f(result=[0, at(0)])]),
    function("argument of a type that none has", 0, 'InvalidArgumentType { index: 1, name: "" }', types=[U32, ATOMIC],
             functions=[f(arguments=[(0, None), (1, None)])]),
    function("argument", 0, None, types=[U32], functions=[TAKING]),
    function("answer of a type that none has", 0, "NonConstructibleReturnType", types=[ATOMIC],
             functions=[f(result=[0, None])]),
    function("local variable of a type that none has", 0,
             found('LocalVariable { handle: {{1}}, name: "sum", source: InvalidType({{0}}) }'), types=[ATOMIC, U32],
             functions=[f(locals=[["n", 1, None], ["sum", 0, None]])]),
    function("return without a value", 0, found("InvalidReturnType { expression: None, expected_ty: Some({{0}}) }"),
             types=[U32], functions=[f(body=[["Return", None]], result=[0, None])]),
    function("return with a value", 0, None, types=[U32], functions=[f([ZERO], [["Return", 0]], result=[0, None])]),
    function("too few arguments", 1, found("InvalidCall { function: {{0}}, error: ArgumentCount { required: 1, seen: 0 } }"),
             types=[U32], functions=[TAKING, f(body=[CALL])]),
    function("used behind its block", 0, found("Expression { handle: {{1}}, source: NotInScope }"),
             functions=[f(TRUTHS, [["Block", [["Emit", 1, 2]]], ["If", 1, [], []]])]),
]

# ---- global variables

BOUND = [0, 0]
LOADED, SINGLE = storage("LOAD"), struct(4, (0, 0, None))


def told(name, errors, types, *variables, flags=DECLARED, **more):
    """The last of these variables is refused."""
    verdict = "global %d" % (len(variables) - 1)
    return case("globals/" + name, refused(verdict, errors), types=types, variables=variables, flags=flags, **more)


def unfit(required, seen):
    return "MissingTypeFlags { required: %s, seen: %s }" % (words("TypeFlags", FLAGS, required), words("TypeFlags", FLAGS, seen))


def unaligned(space, ty, fault):
    printed = "Storage { access: StorageAccess(LOAD) }" if space == LOADED else space
    return "Alignment(%s, %s, %s)" % (printed, handle(ty), fault)


def aligned(bytes):
    return "alignment: Alignment { bytes: %d }" % bytes


def resources(name, word, types, more=(), space="Handle"):
    """A binding array without its capability, and with it."""
    held = [variable(space, len(types) - 1, BOUND)]
    return [told("array of " + name + " without its capability", lacks(word), types, *held, capabilities=more),
            told("array of " + name, None, types, *held, capabilities=[*more, word])]


OVERRIDDEN = [U32, array(0, PENDING, 4)]
LENGTH = [["n", None, 0, None]]
STORED = texels("R32Uint", "LOAD")
NORM = "STORAGE_TEXTURE_16BIT_NORM_FORMATS"
GLOBALS = [
    told("variable of functions", "InvalidUsage(Function)", [U32], variable("Function", 0)),
    told("private number", None, [U32], variable("Private", 0)),
    told("private binding array", "InvalidUsage(Private)", [U32, SINGLE, bindings(1)], variable("Private", 2)),
    told("binding array of a workgroup", "InvalidUsage(WorkGroup)", [U32, SINGLE, bindings(1)], variable("WorkGroup", 2)),
    told("private struct", None, [U32, SINGLE], variable("Private", 1)),
    told("number by a handle", "InvalidType(Handle)", [U32], variable("Handle", 0, BOUND)),
    told("struct by a handle", "InvalidType(Handle)", [U32, SINGLE], variable("Handle", 1, BOUND)),
    told("sampler by a handle", None, [SAMPLER], variable("Handle", 0, BOUND)),
    told("binding array of structs by a handle", ["InvalidType(Handle)", found("InvalidBindingArray({{1}})")],
         [U32, SINGLE, bindings(1)], variable("Handle", 2, BOUND)),
    # what the type may be used for
    told("private atomic", unfit(160, 51), [ATOMIC], variable("Private", 0)),
    told("private array of an override's length", unfit(160, 87), OVERRIDDEN, variable("Private", 1), overrides=LENGTH),
    told("array of an override's length in a workgroup", None, OVERRIDDEN, variable("WorkGroup", 1), overrides=LENGTH),
    told("array without length in a workgroup", unfit(3, 53), [U32, array(0, DYNAMIC, 4)], variable("WorkGroup", 1)),
    told("sampler in a workgroup", unfit(3, 96), [SAMPLER], variable("WorkGroup", 0)),
    told("atomic in a workgroup", None, [ATOMIC], variable("WorkGroup", 0)),
    told("uniform atomic", unfit(55, 51), [ATOMIC], variable("Uniform", 0, BOUND)),
    told("uniform array without length", unfit(55, 53), [V4, array(0, DYNAMIC, 16)], variable("Uniform", 1, BOUND)),
    told("uniform array", None, [V4, array(0, 2, 16)], variable("Uniform", 1, BOUND)),
    told("stored array of an override's length", unfit(49, 87), OVERRIDDEN, variable(LOADED, 1, BOUND), overrides=LENGTH),
    told("stored array without length", None, [U32, array(0, DYNAMIC, 4)], variable(LOADED, 1, BOUND)),
    told("stored truth value", [unaligned(LOADED, 0, "NonHostShareable"), unfit(49, 231)], [BOOL], variable(LOADED, 0, BOUND)),
    told("stored truth value, layouts not asked", unfit(49, 231), [BOOL], variable(LOADED, 0, BOUND),
         flags=without("STRUCT_LAYOUTS", DECLARED)),
    told("stored number, layouts not asked", None, [U32], variable(LOADED, 0, BOUND),
         flags=without("STRUCT_LAYOUTS", DECLARED)),
    told("immediate atomic", unfit(23, 51), [ATOMIC], variable("Immediate", 0), capabilities=["IMMEDIATES"]),
    told("immediate truth value", unfit(23, 231), [BOOL], variable("Immediate", 0), capabilities=["IMMEDIATES"]),
    told("immediate with members in one place", unfit(23, 231), [U32, struct(4, (0, 0, None), (0, 0, None))],
         variable("Immediate", 1), capabilities=["IMMEDIATES"]),
    told("immediate with members in order", None, [U32, struct(8, (0, 0, None), (0, 4, None))], variable("Immediate", 1),
         capabilities=["IMMEDIATES"]),
    told("task payload without length", unfit(3, 53), [U32, array(0, DYNAMIC, 4)], variable("TaskPayload", 1),
         capabilities=["MESH_SHADER"]),
    told("ray payload that is a sampler", unfit(3, 96), [SAMPLER], variable("RayPayload", 0),
         capabilities=["RAY_TRACING_PIPELINE"]),
    told("incoming ray payload without length", unfit(3, 53), [U32, array(0, DYNAMIC, 4)], variable("IncomingRayPayload", 1),
         capabilities=["RAY_TRACING_PIPELINE"]),
    # capabilities
    told("immediate without its capability", lacks("IMMEDIATES"), [U32], variable("Immediate", 0)),
    told("immediate", None, [U32], variable("Immediate", 0), capabilities=["IMMEDIATES"]),
    told("task payload without its capability", lacks("MESH_SHADER"), [U32], variable("TaskPayload", 0)),
    told("task payload", None, [U32], variable("TaskPayload", 0), capabilities=["MESH_SHADER"]),
    told("ray payload without its capability", lacks("RAY_TRACING_PIPELINE"), [U32], variable("RayPayload", 0)),
    told("incoming ray payload without its capability", lacks("RAY_TRACING_PIPELINE"), [U32],
         variable("IncomingRayPayload", 0)),
    told("two ray payloads", None, [U32], variable("RayPayload", 0), variable("IncomingRayPayload", 0),
         capabilities=["RAY_TRACING_PIPELINE"]),
    told("image of 16 bits a channel without its capability", lacks(NORM), [texels("R16Unorm", "LOAD")],
         variable("Handle", 0, BOUND)),
    told("images of 16 bits a channel without their capability", lacks(NORM), [texels("Rgba16Snorm", "STORE"), bindings(0)],
         variable("Handle", 1, BOUND), capabilities=["STORAGE_TEXTURE_BINDING_ARRAY"]),
    told("image of 16 bits a channel", None, [texels("R16Unorm", "LOAD")], variable("Handle", 0, BOUND), capabilities=[NORM]),
    *resources("storage buffers", "STORAGE_BUFFER_BINDING_ARRAY", [U32, SINGLE, bindings(1)], space=LOADED),
    *resources("uniform buffers", "BUFFER_BINDING_ARRAY", [U32, SINGLE, bindings(1)], space="Uniform"),
    *resources("images", "TEXTURE_AND_SAMPLER_BINDING_ARRAY", [SAMPLED, bindings(0)]),
    *resources("samplers", "TEXTURE_AND_SAMPLER_BINDING_ARRAY", [SAMPLER, bindings(0)]),
    *resources("storage images", "STORAGE_TEXTURE_BINDING_ARRAY", [STORED, bindings(0)]),
    *resources("acceleration structures", "ACCELERATION_STRUCTURE_BINDING_ARRAY", [STRUCTURE, bindings(0)], ["RAY_QUERY"]),
    # bindings
    told("storage buffer without a binding", "InvalidBinding", [U32], variable(LOADED, 0)),
    told("uniform buffer without a binding", "InvalidBinding", [U32], variable("Uniform", 0)),
    told("sampler without a binding", "InvalidBinding", [SAMPLER], variable("Handle", 0)),
    told("private number with a binding", "InvalidBinding", [U32], variable("Private", 0, BOUND)),
    told("second variable without a binding", "InvalidBinding", [U32], variable(LOADED, 0, BOUND), variable(LOADED, 0)),
    told("bindings that are not asked", None, [U32], variable(LOADED, 0), variable("Private", 0, BOUND),
         flags=without("BINDINGS", DECLARED)),
    # layouts
    told("stored array with a stride of six", unaligned(LOADED, 1, "ArrayStride { stride: 6, %s }" % aligned(4)),
         [U32, array(0, 2, 6)], variable(LOADED, 1, BOUND)),
    told("stored array of arrays with a stride of six", unaligned(LOADED, 1, "ArrayStride { stride: 6, %s }" % aligned(4)),
         [U32, array(0, 2, 6), array(1, 2, 12)], variable(LOADED, 2, BOUND)),
    told("stored array with a stride of eight", None, [U32, array(0, 2, 8)], variable(LOADED, 1, BOUND)),
    told("stored struct with a span of ten", unaligned(LOADED, 1, "StructSpan { span: 10, %s }" % aligned(4)),
         [U32, struct(10, (0, 0, None), (0, 4, None))], variable(LOADED, 1, BOUND)),
    told("stored vector behind a number", unaligned(LOADED, 2, "MemberOffset { index: 1, offset: 4, %s }" % aligned(16)),
         [F32, V4, struct(32, (0, 0, None), (1, 4, None))], variable(LOADED, 2, BOUND)),
    told("layouts that are not asked", None, [F32, V4, struct(32, (0, 0, None), (1, 4, None))], variable(LOADED, 2, BOUND),
         flags=without("STRUCT_LAYOUTS", DECLARED)),
    told("stored vector at sixteen", None, [F32, V4, struct(32, (0, 0, None), (1, 16, None))], variable(LOADED, 2, BOUND)),
    told("uniform array of numbers", unaligned("Uniform", 1, "ArrayStride { stride: 4, %s }" % aligned(16)),
         [U32, array(0, 4, 4)], variable("Uniform", 1, BOUND)),
    told("stored array of numbers", None, [U32, array(0, 4, 4)], variable(LOADED, 1, BOUND)),
    told("uniform struct with a span of ten", unaligned("Uniform", 1, "StructSpan { span: 10, %s }" % aligned(4)),
         [U32, struct(10, (0, 0, None), (0, 4, None))], variable("Uniform", 1, BOUND)),
    told("uniform struct behind a number", unaligned("Uniform", 2, "MemberOffset { index: 1, offset: 4, %s }" % aligned(16)),
         [U32, SINGLE, struct(8, (0, 0, None), (1, 4, None))], variable("Uniform", 2, BOUND)),
    told("uniform number near behind a struct",
         unaligned("Uniform", 2, "MemberOffsetAfterStruct { index: 1, offset: 4, expected: 16 }"),
         [U32, SINGLE, struct(8, (1, 0, None), (0, 4, None))], variable("Uniform", 2, BOUND)),
    told("uniform number behind a struct", None, [U32, SINGLE, struct(20, (1, 0, None), (0, 16, None))],
         variable("Uniform", 2, BOUND)),
    # what a variable begins as
    told("begins as what runs", "InitializerExprType", [F32], variable("Private", 0, init=1), expressions=[HALF, SLOPE],
         flags=without("CONSTANTS", DECLARED)),
    told("begins as a number of another type", "InitializerType", [U32], variable("Private", 0, init=0), expressions=[HALF]),
    told("begins as a number", None, [F32], variable("Private", 0, init=0), expressions=[HALF]),
    told("begins as an override", None, [F32], variable("Private", 0, init=0), expressions=[["Override", 0]], overrides=LENGTH),
    told("variable of a workgroup begins as a number", "InitializerNotAllowed(WorkGroup)", [F32],
         variable("WorkGroup", 0, init=0), expressions=[HALF]),
    told("storage buffer begins as a number", "InitializerNotAllowed(Storage { access: StorageAccess(LOAD | STORE) })", [F32],
         variable(storage("STORE", "LOAD"), 0, BOUND, init=0), expressions=[HALF]),
    # what a space asks besides
    told("storage buffer that is written alone", "StorageAddressSpaceWriteOnlyNotSupported", [U32],
         variable(storage("STORE"), 0, BOUND)),
    told("storage buffer that is read and written", None, [U32], variable(storage("STORE", "LOAD"), 0, BOUND)),
    told("storage buffer that is neither read nor written", None, [U32], variable(storage(), 0, BOUND)),
    told("immediate of two bytes", "InvalidImmediateType(InvalidScalar(%s))" % scalar("f16"), [F16], variable("Immediate", 0),
         capabilities=["IMMEDIATES", "SHADER_FLOAT16"]),
    told("immediate with two bytes inside", "InvalidImmediateType(InvalidScalar(%s))" % scalar("u16"),
         [U16, U32, struct(8, (1, 0, None), (0, 4, None))], variable("Immediate", 2),
         capabilities=["IMMEDIATES", "SHADER_INT16"]),
    told("task payload of no byte", "ZeroSizedTaskPayload", [U32, array(0, 4, 0)], variable("TaskPayload", 1),
         capabilities=["MESH_SHADER"]),
    told("task payload that is a ray query", "ZeroSizedTaskPayload", [[None, ["RayQuery", False]]], variable("TaskPayload", 0),
         capabilities=["MESH_SHADER", "RAY_QUERY"]),
    # what is said of the memory
    told("coherent private number", "InvalidMemoryDecorationsAddressSpace", [U32],
         variable("Private", 0, decorations=["COHERENT"]), capabilities=["MEMORY_DECORATION_COHERENT"]),
    told("volatile uniform number", "InvalidMemoryDecorationsAddressSpace", [U32],
         variable("Uniform", 0, BOUND, decorations=["VOLATILE"]), capabilities=["MEMORY_DECORATION_VOLATILE"]),
    told("coherent storage without its capability", "CoherentNotSupported", [U32],
         variable(LOADED, 0, BOUND, decorations=["COHERENT"])),
    told("volatile storage without its capability", "VolatileNotSupported", [U32],
         variable(LOADED, 0, BOUND, decorations=["COHERENT", "VOLATILE"]), capabilities=["MEMORY_DECORATION_COHERENT"]),
    told("coherent and volatile storage", None, [U32], variable(LOADED, 0, BOUND, decorations=["COHERENT", "VOLATILE"]),
         capabilities=["MEMORY_DECORATION_COHERENT", "MEMORY_DECORATION_VOLATILE"]),
]

# ---- what an entry point is given and gives


def entered(name, errors, entries, **parts):
    """The last of these entry points is refused."""
    return case(name, refused("entry %d" % (len(entries) - 1), errors), entries=entries, **parts)


def each(errors, wrapped):
    if errors is None:
        return None
    return [wrapped % error for error in ([errors] if isinstance(errors, str) else errors)]


def given(name, errors, types, *arguments, stage="Fragment", size=None, flags=LINKED, **more):
    """An entry point of a stage with arguments, of which the last is refused. A vertex shader gives a position, of the first
    type."""
    last = len(arguments) - 1
    result = [0, POSITION] if stage == "Vertex" else None
    single = entry(stage, size=size, arguments=arguments, result=result)
    return entered("varyings/" + name, each(errors, "Argument(%d, %%s)" % last), [single], types=types, flags=flags, **more)


def answered(name, errors, types, ty, binding=None, stage="Fragment", **more):
    single = entry(stage, result=[ty, binding])
    return entered("varyings/" + name, each(errors, "Result(%s)"), [single], types=types, flags=LINKED, **more)


def vertex(name, errors, types, *members, **more):
    """A vertex shader that gives a struct: a position, which is of the first type, and these members."""
    return answered(name, errors, [*types, sixteens((0, POSITION), *members, behind=32)], len(types), stage="Vertex", **more)


def combined(interpolation, sampling):
    return "InvalidInterpolationSamplingCombination { interpolation: %s, sampling: %s }" % (interpolation, sampling)


def mistyped(word, inner):
    return "InvalidBuiltInType(%s, %s)" % (word, form(inner[1]))


def needing(word, built_in, ty, stage="Fragment", **more):
    """A built-in value without its capability, and with it; of a vertex shader it is the second type."""
    types, place = ([V4, ty], 1) if stage == "Vertex" else ([ty], 0)
    name = built_in[1] + " at " + stage
    return [given(name + " without its capability", lacks(word), types, (place, built_in), stage=stage, **more),
            given(name, None, types, (place, built_in), stage=stage, capabilities=[word], **more)]


def stray(built_in, ty, stage, **more):
    """A built-in value that the stage is not given."""
    types, place = ([V4, ty], 1) if stage == "Vertex" else ([ty], 0)
    printed = built_in[1] if len(built_in) == 2 else "%s { %s: %s }" % (
        built_in[1], "invariant" if built_in[1] == "Position" else "perspective", str(built_in[2]).lower())
    return given("%s at %s, which is not given it" % (built_in[1], stage), "InvalidBuiltInStage(%s)" % printed, types,
                 (place, built_in), stage=stage, **more)


BLENDED = struct(32, first(0), second(16))
BLENDING = ["DUAL_SOURCE_BLENDING"]
OF_EACH = ["PER_VERTEX"]
VARYINGS = [
    # types
    answered("sources of a blend at a location", found("InvalidType({{1}})"), [V4, BLENDED], 1, at(0), capabilities=BLENDING),
    given("sources of a blend as an argument at a location", found("InvalidType({{1}})"), [V4, BLENDED],
          (1, at(0, "Perspective")), capabilities=BLENDING),
    answered("sources of a blend", None, [V4, BLENDED], 1, capabilities=BLENDING),
    answered("truth value at a location", found("NotIOShareableType({{0}})"), [BOOL], 0, at(0)),
    given("two truth values at a location", found("NotIOShareableType({{2}})"), [V4, U32, [None, ["Vector", 2, "bool"]]],
          (1, at(0)), (2, at(1)), stage="Vertex"),
    given("truth value of each vertex", found("NotIOShareableType({{0}})"), [BOOL, array(0, 3, 1)], (1, at(0, "PerVertex")),
          capabilities=OF_EACH),
    answered("matrix at a location", [found("NotIOShareableType({{0}})"), found("InvalidType({{0}})")],
             [[None, ["Matrix", 2, 2, "f32"]]], 0, at(0)),
    answered("number at a location", None, [U32], 0, at(0)),
    # how a value between vertices is found
    given("number of each vertex", None, [F32, array(0, 3, 4)], (1, at(0, "PerVertex")), capabilities=OF_EACH),
    given("number of each vertex as an input of one", "InvalidInterpolationInStage(PerVertex, Fragment)",
          [V4, F32, array(1, 3, 4)], (2, at(0, "PerVertex")), stage="Vertex", capabilities=OF_EACH),
    vertex("number of each vertex out of one", "InvalidInterpolationInStage(PerVertex, Fragment)", [V4, F32, array(1, 3, 4)],
           (2, at(0, "PerVertex")), capabilities=OF_EACH),
    answered("number of each vertex out of a fragment", None, [F32, array(0, 3, 4)], 1, at(0, "PerVertex"),
             capabilities=OF_EACH),
    given("perspective at the first vertex", combined("Perspective", "First"), [F32], (0, at(0, "Perspective", "First"))),
    given("flat at the centre", combined("Flat", "Center"), [U32], (0, at(0, "Flat", "Center"))),
    given("of each vertex at the centre", combined("PerVertex", "Center"), [F32, array(0, 3, 4)],
          (1, at(0, "PerVertex", "Center")), capabilities=OF_EACH),
    given("of each vertex at the centroid", ["InvalidPerVertexSampling", combined("PerVertex", "Centroid")],
          [F32, array(0, 3, 4)], (1, at(0, "PerVertex", "Centroid")), capabilities=OF_EACH),
    given("perspective at the centre, flat at the first vertex", None, [F32, U32], (0, at(0, "Perspective", "Center")),
          (1, at(1, "Flat", "First"))),
    given("integer in perspective", "InvalidInterpolationForInteger", [U32], (0, at(0, "Perspective"))),
    given("second argument an integer in no way", "InvalidInterpolationForInteger", [F32, I32], (0, at(0, "Linear")),
          (1, at(1))),
    vertex("integer in a line out of a vertex", "InvalidInterpolationForInteger", [V4, I32], (1, at(0, "Linear"))),
    given("number in no way", "MissingInterpolation", [F32], (0, at(0))),
    vertex("vector in no way out of a vertex", "MissingInterpolation", [V4], (0, at(0))),
    given("number in no way as an input of a vertex", None, [V4, F32], (1, at(0)), stage="Vertex"),
    vertex("vectors out of a vertex", None, [V4, I32], (0, at(0, "Perspective")), (1, at(1, "Flat"))),
    # built-in values
    stray(is_("VertexIndex"), U32, "Fragment"),
    stray(is_("FragDepth"), F32, "Fragment"),
    stray(is_("FrontFacing"), BOOL, "Vertex"),
    stray(INVARIANT, V4, "Compute"),
    stray(is_("Barycentric", True), V3, "Vertex", capabilities=["SHADER_BARYCENTRICS"]),
    stray(is_("SubgroupSize"), U32, "Vertex", capabilities=["SUBGROUP"]),
    stray(is_("RayInvocationId"), U3, "Compute"),
    stray(is_("InstanceIndex"), U32, "Miss", capabilities=["RAY_TRACING_PIPELINE"]),
    stray(is_("CullPrimitive"), BOOL, "Fragment", capabilities=["MESH_SHADER"]),
    stray(is_("VertexCount"), U32, "Compute", capabilities=["MESH_SHADER"]),
    answered("position out of a fragment", "InvalidBuiltInStage(Position { invariant: false })", [V4], 0, POSITION),
    answered("depth out of a fragment", None, [F32], 0, is_("FragDepth")),
    answered("size for meshes out of a computation", "InvalidBuiltInStage(MeshTaskSize)", [U3], 0, is_("MeshTaskSize"),
             stage="Compute", capabilities=["MESH_SHADER"]),
    answered("ray's origin out of a hit", None, [V3], 0, is_("WorldRayOrigin"), stage="AnyHit",
             capabilities=["RAY_TRACING_PIPELINE"]),
    given("signed index of a vertex", mistyped("VertexIndex", I32), [V4, I32], (1, is_("VertexIndex")), stage="Vertex"),
    given("second index of a vertex is a float", mistyped("InstanceIndex", F32), [V4, U32, F32], (1, is_("VertexIndex")),
          (2, is_("InstanceIndex")), stage="Vertex"),
    given("position of three", mistyped("Position { invariant: true }", V3), [V3], (0, INVARIANT)),
    given("struct for an index", "InvalidBuiltInType(LocalInvocationIndex, Struct { members: [StructMember { name: None, ty: "
          "%s, binding: None, offset: 0 }], span: 4 })" % handle(0), [U32, SINGLE], (1, is_("LocalInvocationIndex")),
          stage="Compute"),
    given("three columns of four rows for a map", mistyped("ObjectToWorld", [None, ["Matrix", 3, 4, "f32"]]),
          [[None, ["Matrix", 3, 4, "f32"]]], (0, is_("ObjectToWorld")), stage="ClosestHit",
          capabilities=["RAY_TRACING_PIPELINE"]),
    given("four columns of three rows for a map", None, [[None, ["Matrix", 4, 3, "f32"]]], (0, is_("ObjectToWorld")),
          stage="ClosestHit", capabilities=["RAY_TRACING_PIPELINE"]),
    vertex("nine distances", mistyped("ClipDistances", array(1, 9, 4)), [V4, F32, array(1, 9, 4)], (2, is_("ClipDistances")),
           capabilities=["CLIP_DISTANCES"]),
    vertex("eight distances", None, [V4, F32, array(1, 8, 4)], (2, is_("ClipDistances")), capabilities=["CLIP_DISTANCES"]),
    given("indices of a vertex", None, [V4, U32], (1, is_("VertexIndex")), (1, is_("InstanceIndex")), stage="Vertex"),
    # what is not bound
    given("argument that is not bound", "MissingBinding", [U32], (0, is_("SampleMask")), (0, None)),
    answered("answer that is not bound", "MissingBinding", [U32], 0),
    given("second member that is not bound", "MemberMissingBinding(1)", [U32, struct(8, (0, 0, at(0, "Flat")), (0, 4, None))],
          (1, None)),
    vertex("third member of an answer that is not bound", "MemberMissingBinding(2)", [V4], (0, at(0, "Linear")), (0, None)),
    given("nothing bound and nothing asked", None, [U32, struct(8, (0, 0, at(0, "Flat")), (0, 4, None))], (1, None), (0, None),
          flags=[]),
    # what is taken twice
    given("location of two arguments", "BindingCollision { location: 3 }", [F32], (0, at(3, "Linear")), (0, at(3, "Linear"))),
    given("location of a member and an argument", "BindingCollision { location: 1 }",
          [U32, struct(8, (0, 0, at(0, "Flat")), (0, 4, at(1, "Flat")))], (1, None), (0, at(2, "Flat")), (0, at(1, "Flat"))),
    vertex("location of two members", "BindingCollision { location: 0 }", [V4], (0, at(0, "Linear")), (0, at(0, "Flat"))),
    given("location twice and not asked", None, [F32], (0, at(3, "Linear")), (0, at(3, "Linear")), flags=[]),
    given("index of a vertex twice", "DuplicateBuiltIn(VertexIndex)", [V4, U32], (1, is_("VertexIndex")), (1, at(0)),
          (1, is_("VertexIndex")), stage="Vertex"),
    given("position twice", "DuplicateBuiltIn(Position { invariant: true })", [V4], (0, POSITION), (0, INVARIANT)),
    given("barycentric coordinates twice", "DuplicateBuiltIn(Barycentric { perspective: false })", [V3],
          (0, is_("Barycentric", True)), (0, is_("Barycentric", False)), capabilities=["SHADER_BARYCENTRICS"]),
    vertex("size of a point twice", "DuplicateBuiltIn(PointSize)", [V4, F32], (1, is_("PointSize")), (1, is_("PointSize"))),
    # capabilities
    *needing("PRIMITIVE_INDEX", is_("PrimitiveIndex"), U32),
    given("PrimitiveIndex at AnyHit", None, [U32], (0, is_("PrimitiveIndex")), stage="AnyHit",
          capabilities=["RAY_TRACING_PIPELINE"]),
    *needing("MULTIVIEW", is_("ViewIndex"), U32, stage="Vertex"),
    *needing("DRAW_INDEX", is_("DrawIndex"), U32, stage="Vertex"),
    *needing("SHADER_BARYCENTRICS", is_("Barycentric", False), V3),
    *needing("MULTISAMPLED_SHADING", is_("SampleIndex"), U32),
    *needing("SUBGROUP", is_("SubgroupSize"), U32),
    *needing("SUBGROUP", is_("NumSubgroups"), U32, stage="Compute"),
    vertex("distances to clip by without their capability", lacks("CLIP_DISTANCES"), [V4, F32, array(1, 1, 4)],
           (2, is_("ClipDistances"))),
    vertex("distances to cull by without their capability", lacks("CULL_DISTANCE"), [V4, F32, array(1, 1, 4)],
           (2, is_("CullDistance"))),
    vertex("distance to cull by", None, [V4, F32, array(1, 1, 4)], (2, is_("CullDistance")), capabilities=["CULL_DISTANCE"]),
    given("each sample without its capability", lacks("MULTISAMPLED_SHADING"), [F32], (0, at(0, "Linear", "Sample"))),
    given("each sample", None, [F32], (0, at(0, "Linear", "Sample")), capabilities=["MULTISAMPLED_SHADING"]),
    given("number of each vertex without its capability", lacks("PER_VERTEX"), [F32, array(0, 3, 4)], (1, at(0, "PerVertex"))),
    given("number of a primitive without its capability", lacks("MESH_SHADER"), [F32], (0, at(0, primitive=True))),
    given("number of a primitive", None, [F32], (0, at(0, primitive=True)), capabilities=["MESH_SHADER"]),
    # sources of a blend
    given("sources of a blend into a fragment", 'InvalidInputAttributeInStage("blend_src", Fragment)', [V4, BLENDED], (1, None),
          capabilities=BLENDING),
    answered("sources of a blend out of a computation", 'InvalidAttributeInStage("blend_src", Compute)', [V4, BLENDED], 1,
             stage="Compute", capabilities=BLENDING),
    answered("source of a blend in no struct", "BlendSrcNotOnStructMember", [V4], 0, at(0, source=0)),
    given("source of a blend as an argument", "BlendSrcNotOnStructMember", [V4], (0, at(0, "Linear", source=1))),
    # subgroups
    given("subgroup of a deep workgroup", "InvalidMultiDimensionalSubgroupBuiltIn", [U32], (0, is_("SubgroupId")),
          stage="Compute", size=[4, 2, 1], capabilities=["SUBGROUP"]),
    given("invocation in a subgroup of a deep workgroup", "InvalidMultiDimensionalSubgroupBuiltIn", [U32],
          (0, is_("NumSubgroups")), (0, is_("SubgroupInvocationId")), stage="Compute", size=[4, 1, 2],
          capabilities=["SUBGROUP"]),
    given("subgroup of a row", None, [U32], (0, is_("SubgroupId")), (0, is_("SubgroupInvocationId")), stage="Compute",
          size=[4, 1, 1], capabilities=["SUBGROUP"]),
    # primitives
    vertex("number of a primitive out of a vertex", "InvalidPerPrimitive", [V4], (0, at(0, "Flat", primitive=True)),
           capabilities=["MESH_SHADER"]),
    given("number of a primitive into a vertex", "InvalidPerPrimitive", [V4], (0, at(0, primitive=True)), stage="Vertex",
          capabilities=["MESH_SHADER"]),
    answered("number of a primitive out of a fragment", "InvalidPerPrimitive", [V4], 0, at(0, primitive=True),
             capabilities=["MESH_SHADER"]),
    # values of each vertex
    given("two numbers of each vertex", "PerVertexNotArrayOfThree", [F32, array(0, 2, 4)], (1, at(0, "PerVertex")),
          capabilities=OF_EACH),
    given("vector of each vertex", "PerVertexNotArrayOfThree", [V3], (0, at(0, "PerVertex")), capabilities=OF_EACH),
]

# ---- entry points


def main(name, errors, *entries, flags=ENTERED, **parts):
    return entered("entries/" + name, errors, entries, flags=flags, **parts)


def using(name, errors, stage, variables, types=(U32,), **more):
    """An entry point that names each of these variables."""
    named = [["GlobalVariable", place] for place in range(len(variables))]
    return main(name, errors, entry(stage, expressions=named), types=types, variables=variables, **more)


def task(name, errors, *variables, types=(U32, U3), payload=0, result=(1, is_("MeshTaskSize")), expressions=(),
         capabilities=("MESH_SHADER",)):
    """A task shader that hands on its payload, the first of the variables."""
    single = entry("Task", payload=payload, result=result and list(result), expressions=expressions)
    return main(name, errors, single, types=types, variables=variables, capabilities=capabilities)


def wrong_use(place, bits):
    return "InvalidGlobalUsage(%s, %s)" % (handle(place), words("GlobalUse", USES, bits))


def texel_put(*access):
    return {"types": [U2, U4, texels("R32Uint", *access)], "variables": [variable("Handle", 2, BOUND)]}


RAYS = ["RAY_TRACING_PIPELINE"]
PUT = {"expressions": [["GlobalVariable", 0], ["ZeroValue", 0], ["ZeroValue", 1]], "body": [["ImageStore", 0, 1, None, 2]]}
LOAD = {"expressions": [["GlobalVariable", 0], ["Load", 0]], "body": [["Emit", 1, 2]]}
STORE = {"expressions": [["GlobalVariable", 0], ZERO], "body": [["Store", 0, 1]]}
ADD = {"expressions": [["GlobalVariable", 0], ZERO], "body": [["Atomic", 0, ["Add"], 1, None]]}
HANDED = variable("TaskPayload", 0)
KILL = {"body": [["Kill"]]}
BALLOT = {"expressions": [["SubgroupBallotResult"]], "body": [["SubgroupBallot", 0, None]]}
VOTES = {"capabilities": ["SUBGROUP"], "subgroups": (["COMPUTE"], ["BALLOT"])}
ENTRIES = [
    main("two of one name", "Conflict", entry("Compute"), entry("Compute")),
    main("third has the name of the first", "Conflict", entry("Fragment", "a"), entry("Compute", "a"), entry("Fragment", "a")),
    main("one name at two stages", None, entry("Compute"), entry("Fragment")),
    # vertices
    main("vertex without an answer", "MissingVertexOutputPosition", entry("Vertex")),
    main("vertex without a position", "MissingVertexOutputPosition", entry("Vertex", result=[0, at(0, "Linear")]), types=[V4]),
    main("vertex with a position", None, entry("Vertex", result=[0, INVARIANT]), types=[V4]),
    # what stages ask
    main("early test of depth without its capability", "Result(%s)" % lacks("EARLY_DEPTH_TEST"),
         entry("Fragment", early=["Force"])),
    main("early test of depth of a computation", "UnexpectedEarlyDepthTest", entry("Compute", early=["Allow", "Unchanged"]),
         capabilities=["EARLY_DEPTH_TEST"]),
    main("early test of depth", None, entry("Fragment", early=["Force"]), capabilities=["EARLY_DEPTH_TEST"]),
    main("workgroup of fragments", "UnexpectedWorkgroupSize", entry("Fragment", size=[1, 1, 1])),
    main("workgroup of nothing one way", "OutOfRangeWorkgroupSize", entry("Compute", size=[1, 0, 1])),
    main("workgroup of too many", "OutOfRangeWorkgroupSize", entry("Compute", size=[1, 1, 16385])),
    main("workgroup of as many as there may be", None, entry("Compute", size=[16384, 1, 16384])),
    main("generation of rays without its capability", lacks("RAY_TRACING_PIPELINE"), entry("RayGeneration")),
    main("miss without its capability", lacks("RAY_TRACING_PIPELINE"), entry("Miss")),
    main("four stages of rays", None, *map(entry, ("RayGeneration", "AnyHit", "ClosestHit", "Miss")), capabilities=RAYS),
    main("task without its capability", [lacks("MESH_SHADER"), "ExpectedTaskPayload"], entry("Task", result=[0, at(0)]),
         types=[U3]),
    main("mesh without its capability", [lacks("MESH_SHADER"), "ExpectedMeshShaderAttributes"], entry("Mesh")),
    # what stages may run
    main("kill in a computation", "ForbiddenStageOperations", entry("Compute", **KILL)),
    main("kill in what a computation calls", "ForbiddenStageOperations", entry("Compute", body=[CALL]),
         functions=[f(**KILL)]),
    main("kill in what a fragment calls", None, entry("Fragment", body=[CALL]), functions=[f(**KILL)]),
    main("slope in a computation", "ForbiddenStageOperations",
         entry("Compute", expressions=[HALF, SLOPE], body=[["Emit", 1, 2]])),
    main("slope in a fragment", None, entry("Fragment", expressions=[HALF, SLOPE], body=[["Emit", 1, 2]])),
    main("barrier in a fragment", "ForbiddenStageOperations", entry("Fragment", body=[["ControlBarrier", ["STORAGE"]]])),
    main("barrier in a computation", None, entry("Compute", body=[["ControlBarrier", ["STORAGE"]]])),
    main("ballot at a stage that has none", "ForbiddenStageOperations", entry("Fragment", **BALLOT), **VOTES),
    main("ballot", None, entry("Compute", **BALLOT), **VOTES),
    # the function
    main("break in no loop", "Function(BreakOutsideOfLoopOrSwitch)", entry("Compute", body=[["Break"]])),
    main("too many arguments of a call",
         found("Function(InvalidCall { function: {{0}}, error: ArgumentCount { required: 0, seen: 1 } })"),
         entry("Compute", expressions=[ZERO], body=[["Call", 0, [0], None]]), functions=[f()]),
    main("store of another type", found("Function(InvalidStoreTypes { pointer: {{0}}, value: {{1}} })"),
         entry("Compute", **STORE), types=[F32], variables=[variable("Private", 0)]),
    main("store", None, entry("Compute", **STORE), types=[U32], variables=[variable("Private", 0)]),
    # global variables
    main("texel put where it is read", wrong_use(0, 2), entry("Compute", **PUT), **texel_put("LOAD")),
    main("texel put", None, entry("Compute", **PUT), **texel_put("STORE")),
    main("texel put by a function where it is read", wrong_use(0, 2), entry("Fragment", body=[CALL]), functions=[f(**PUT)],
         **texel_put()),
    main("number loaded where none is read", wrong_use(0, 1), entry("Compute", **LOAD), types=[U32],
         variables=[variable(storage(), 0, BOUND)]),
    main("number loaded", None, entry("Compute", **LOAD), types=[U32], variables=[variable(LOADED, 0, BOUND)]),
    main("atomic changed where it is read", wrong_use(0, 3), entry("Compute", **ADD), types=[U32, ATOMIC],
         variables=[variable(LOADED, 1, BOUND)]),
    main("atomic changed", None, entry("Compute", **ADD), types=[U32, ATOMIC],
         variables=[variable(storage("LOAD", "STORE"), 1, BOUND)]),
    using("two immediates", "MoreThanOneImmediateUsed", "Compute", [variable("Immediate", 0)] * 2, capabilities=["IMMEDIATES"]),
    using("one immediate", None, "Compute", [variable("Immediate", 0)], capabilities=["IMMEDIATES"]),
    using("one binding of two", found("BindingCollision({{1}})"), "Compute", [variable(LOADED, 0, [1, 2])] * 2),
    using("one binding of the first and the third", found("BindingCollision({{2}})"), "Fragment",
          [variable("Uniform", 0, BOUND), variable(LOADED, 0, [0, 1]), variable(LOADED, 0, BOUND)]),
    using("two bindings", None, "Compute", [variable(LOADED, 0, [1, 2]), variable(LOADED, 0, [2, 1])]),
    using("one binding of two and not asked", None, "Compute", [variable(LOADED, 0, [1, 2])] * 2,
          flags=without("BINDINGS", ENTERED)),
    using("ray payload of a computation", "RayPayloadInInvalidStage(Compute)", "Compute", [variable("RayPayload", 0)],
          capabilities=RAYS),
    using("ray payload of any hit", "RayPayloadInInvalidStage(AnyHit)", "AnyHit", [variable("RayPayload", 0)],
          capabilities=RAYS),
    using("incoming ray payload of a fragment", "IncomingRayPayloadInInvalidStage(Fragment)", "Fragment",
          [variable("IncomingRayPayload", 0)], capabilities=RAYS),
    using("incoming ray payload where rays begin", "IncomingRayPayloadInInvalidStage(RayGeneration)", "RayGeneration",
          [variable("IncomingRayPayload", 0)], capabilities=RAYS),
    using("ray payloads of the closest hit", None, "ClosestHit",
          [variable("RayPayload", 0), variable("IncomingRayPayload", 0)], capabilities=RAYS),
    # tasks
    task("task", None, HANDED),
    task("task without a payload", "ExpectedTaskPayload", payload=None),
    task("private payload of a task", "TaskPayloadWrongAddressSpace", variable("Private", 0)),
    task("payload of two bytes", "TaskPayloadTooSmall(2)", HANDED, types=[U16, U3],
         capabilities=["MESH_SHADER", "SHADER_INT16"]),
    task("payload of one byte", "TaskPayloadTooSmall(1)", HANDED, types=[BOOL, U3]),
    task("another payload of a task", "WrongTaskPayloadUsed", HANDED, HANDED, expressions=[["GlobalVariable", 1]]),
    task("own payload of a task", None, HANDED, HANDED, expressions=[["GlobalVariable", 0]]),
    task("task without an answer", "WrongTaskShaderEntryResult", HANDED, result=None),
    task("task that answers a number", "WrongTaskShaderEntryResult", HANDED, result=(0, at(0))),
    using("payload of no task", "WrongTaskPayloadUsed", "Compute", [HANDED], capabilities=["MESH_SHADER"]),
    main("computation with a payload", "UnexpectedTaskPayload", entry("Compute", payload=0), types=[U32], variables=[HANDED],
         capabilities=["MESH_SHADER"]),
]

# ---- mesh shaders

CORNERS = is_("TriangleIndices")
COUNTS = ((0, is_("VertexCount")), (0, is_("PrimitiveCount")), (6, is_("Vertices")), (7, is_("Primitives")))
PLACED, NAMED = (1, POSITION), (2, CORNERS)
VARIED, OWN = (1, at(0, "Perspective")), (1, at(0, "Flat", primitive=True))
SPARE, VERTEX, PRIMITIVE, OUTPUT, BEHIND = 3, 4, 5, 8, 9
SAID = ["Triangles", 3, None, 2, None, VERTEX, PRIMITIVE, 0]


def told_of(place, value):
    return [value if place == at_ else said for at_, said in enumerate(SAID)]


def mesh(name, errors, vertex=(PLACED,), primitive=(NAMED,), output=COUNTS, said=SAID, space="WorkGroup", spare=I32, more=(),
         others=(), most=(3, 2), stage="Mesh", capabilities=(), held=OUTPUT, flags=LINKED, overrides=(), numbers=(), **given):
    """A mesh shader with an output of three vertices and two triangles. What is given of each is a type or its members; more
    types begin behind all others, and other variables at 1."""
    elements = [array(VERTEX, most[0], 64), array(PRIMITIVE, most[1], 64)]
    shapes = [whole if whole[0] is None else sixteens(*whole) for whole in (vertex, primitive)]
    offsets = (0, 4, 16, 208, 336, 352)
    held_by = struct(368, *((ty, offset, binding) for (ty, binding), offset in zip(output, offsets)))
    types = [U32, V4, U3, spare, *shapes, *elements, held_by, *more]
    single = entry(stage, mesh=said, **given)
    return entered("meshes/" + name, errors, [single], types=types, variables=[variable(space, held), *others], flags=flags,
                   capabilities=["MESH_SHADER", *capabilities], overrides=overrides, expressions=numbers)


SIZED = {"overrides": LENGTH, "most": (PENDING, 2)}
MESHES = [
    mesh("mesh", None),
    mesh("mesh with varyings", None, vertex=[PLACED, VARIED], primitive=[NAMED, OWN]),
    mesh("mesh that says nothing", "ExpectedMeshShaderAttributes", said=None),
    mesh("vertex that says what a mesh gives", "UnexpectedMeshShaderAttributes", stage="Vertex", result=[1, POSITION]),
    mesh("vertex that says nothing", None, stage="Vertex", said=None, result=[1, POSITION]),
    mesh("mesh with an answer", "UnexpectedMeshShaderEntryResult", result=[1, POSITION]),
    # the output
    mesh("private output", "WrongMeshOutputAddressSpace", space="Private"),
    mesh("output that is a number", "BadMeshOutputVariableType", held=0),
    mesh("output without a count", "BadMeshOutputVariableType", output=[COUNTS[0], (0, None), *COUNTS[2:]]),
    mesh("output with a count twice", "BadMeshOutputVariableType", output=[*COUNTS, (0, is_("VertexCount"))]),
    mesh("another topology", "BadMeshOutputVariableType", said=told_of(0, "Lines")),
    mesh("another most of vertices", "BadMeshOutputVariableType", said=told_of(1, 4)),
    mesh("another type of vertices", "BadMeshOutputVariableType", said=told_of(5, BEHIND), more=[sixteens(PLACED, VARIED)]),
    mesh("override of a number that is written", "BadMeshOutputVariableType", said=told_of(2, 0), overrides=LENGTH,
         numbers=[["Override", 0]]),
    mesh("another override of vertices", "BadMeshOutputVariableType", said=["Triangles", 0, 0, *SAID[3:]], most=(PENDING, 2),
         overrides=LENGTH + [["m", None, 0, None]], numbers=[["Override", 1]]),
    mesh("override of vertices", None, said=["Triangles", 0, 0, *SAID[3:]], numbers=[["Override", 0]], **SIZED),
    mesh("literal beside an override", None, said=["Triangles", 0, 0, *SAID[3:]], numbers=[ZERO], **SIZED),
    mesh("signed count", "BadMeshOutputVariableField", output=[(SPARE, COUNTS[0][1]), *COUNTS[1:]]),
    mesh("count of primitives by a vector", "BadMeshOutputVariableField", output=[COUNTS[0], (2, COUNTS[1][1]), *COUNTS[2:]]),
    mesh("vertices in no array", "BadMeshOutputVariableField", output=[*COUNTS[:2], (VERTEX, COUNTS[2][1]), COUNTS[3]]),
    # vertices
    mesh("vertices without a position", "MissingVertexOutputPosition", vertex=[VARIED]),
    mesh("vertices that are no structs", ["InvalidMeshOutputType", "MissingVertexOutputPosition"], vertex=U4,
         flags=[]),
    mesh("vertices with a vector in no way", "Result(MissingInterpolation)", vertex=[PLACED, (1, at(0))]),
    mesh("vertices with one location twice", "Result(BindingCollision { location: 0 })",
         vertex=[PLACED, VARIED, (1, at(0, "Flat"))]),
    mesh("vertices with two positions", "Result(DuplicateBuiltIn(Position { invariant: true }))",
         vertex=[PLACED, (1, INVARIANT)]),
    mesh("vertices with a member that is not bound", "Result(MemberMissingBinding(1))", vertex=[PLACED, (1, None)]),
    mesh("vertices with the index of a primitive", "Result(InvalidBuiltInStage(TriangleIndices))",
         vertex=[PLACED, (2, CORNERS)]),
    # primitives
    mesh("primitives without an index", "InvalidMeshPrimitiveOutputType", primitive=[OWN]),
    mesh("primitives that are no structs", ["InvalidMeshPrimitiveOutputType", "InvalidMeshOutputType"], primitive=U4,
         flags=[]),
    mesh("primitives with two indices", "InvalidMeshPrimitiveOutputType", primitive=[NAMED, (0, is_("PointIndex"))]),
    mesh("primitives with a vector that is none of them", "Result(MissingPerPrimitive)", primitive=[NAMED, (1, at(0, "Flat"))]),
    mesh("primitives with indices of two", "Result(%s)" % mistyped("TriangleIndices", U2), primitive=[(SPARE, CORNERS)],
         spare=U2),
    mesh("primitives with their index without its capability", "Result(%s)" % lacks("PRIMITIVE_INDEX"),
         primitive=[NAMED, (0, is_("PrimitiveIndex"))]),
    mesh("primitives with their index", None, primitive=[NAMED, (0, is_("PrimitiveIndex"))], capabilities=["PRIMITIVE_INDEX"]),
    mesh("points without their capability", lacks("MESH_SHADER_POINT_TOPOLOGY"), primitive=[(0, is_("PointIndex"))],
         said=told_of(0, "Points")),
    mesh("points", None, primitive=[(0, is_("PointIndex"))], said=told_of(0, "Points"),
         capabilities=["MESH_SHADER_POINT_TOPOLOGY"]),
    # behind a task
    mesh("mesh with a payload", None, payload=1, others=[HANDED], expressions=[["GlobalVariable", 1]]),
    mesh("mesh that uses a payload which is not its own", "WrongTaskPayloadUsed", others=[HANDED],
         expressions=[["GlobalVariable", 1]]),
    mesh("mesh that writes its payload", wrong_use(1, 3), payload=1, others=[HANDED],
         expressions=[["GlobalVariable", 1], ZERO], body=[["Store", 0, 1]]),
    mesh("index of a draw behind a task", "Argument(0, InvalidBuiltInStage(DrawIndex))", payload=1, others=[HANDED],
         arguments=[(0, is_("DrawIndex"))], capabilities=["DRAW_INDEX"]),
    mesh("index of a draw", None, arguments=[(0, is_("DrawIndex"))], capabilities=["DRAW_INDEX"]),
]

CASES = HANDLES + STEPS + FUNCTIONS + GLOBALS + VARYINGS + ENTRIES + MESHES

# ---- the file


def check(cases):
    """That each line has a name of its own, a document of the parts that the form has, and answers of the form that is told."""
    names, texts = set(), set()
    for name, asked, text, *answers in cases:
        assert name not in names, name
        assert text not in texts, name
        assert asked == "refusal" and 1 <= len(answers) <= 2 and len(set(answers)) == len(answers), name
        parts = json.loads(text)
        assert len(parts) == PARTS and parts[0] == 1, name
        assert answers == ["accepted"] or all(": " in answer and answer.startswith("refused ") for answer in answers), name
        names.add(name)
        texts.add(text)


def run():
    out = Path(sys.argv[1]) if len(sys.argv) > 1 else Path(__file__).resolve().parent.parent / "test_cases/data"
    check(CASES)
    lines = "".join(json.dumps(it, ensure_ascii=False, separators=(",", ":")) + "\n" for it in CASES)
    assert len(lines.encode()) < LIMIT, len(lines.encode())
    (out / "names.jsonl").write_text(lines, encoding="utf-8")
    print(f"names.jsonl: {len(CASES)} cases, {len(lines.encode())} bytes")


if __name__ == "__main__":
    run()

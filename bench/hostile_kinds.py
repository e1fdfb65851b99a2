"""Documents that are made to take long: each kind is a function from a number to a document, which grows with it.

A document is the list that `docs/FORMAT.md` tells of. `KINDS` has them all by name; what a kind is made of stands in its doc
comment.
"""
SIX = ["EXPRESSIONS", "BLOCKS", "CONTROL_FLOW_UNIFORMITY", "STRUCT_LAYOUTS", "CONSTANTS", "BINDINGS"]
U32 = [None, ["Scalar", "u32"]]
F32 = [None, ["Scalar", "f32"]]
BOOL = [None, ["Scalar", "bool"]]
VEC2 = [None, ["Vector", 2, "f32"]]
VEC4 = [None, ["Vector", 4, "f32"]]
IMAGE = [None, ["Image", "D2", False, ["Sampled", "Float", False]]]
SAMPLER = [None, ["Sampler", False]]
RAYS = [None, ["AccelerationStructure", False]]
KINDS = {}
# kinds whose answer, or what every caller is given, is itself larger than linear, or for which docs/PERFORMANCE.md tells a bound
# that is: a word for 64 locations, a strip for 4096 pairs
HELD = set()


def kind(make):
    KINDS[make.__name__] = make
    return make


def held(make):
    HELD.add(make.__name__)
    return kind(make)


def document(*, types=(U32,), functions=(), entries=(), globals=(), constants=(), overrides=(), expressions=(),
             special=(None, None, None, ()), filters=((), None), capabilities=(), flags=SIX, returns=False):
    return [1, flags, capabilities, [[], []], returns, types, special, filters, constants, overrides, expressions, globals,
            functions, entries]


def function(expressions=(), body=(), arguments=(), result=None, variables=(), filters=None):
    given = [[None, ty, None] for ty in arguments]
    return [None, given, result and [result, None], variables, expressions, body, filters]


def entry(name="main", stage="Compute", arguments=(), result=None, mesh=None, expressions=(), body=()):
    size = [1, 1, 1] if stage in ("Compute", "Mesh", "Task") else [0, 0, 0]
    return [stage, name, None, size, mesh, None, [None, arguments, result, (), expressions, body, None]]


def struct(types, span=4, bindings=None):
    members = [[None, ty, bindings and bindings(at), span * at] for at, ty in enumerate(types)]
    return [None, ["Struct", members, span * len(members)]]


def array_of(base, count=1, stride=4):
    return [None, ["Array", base, ["Constant", count], stride]]


def buffer(binding, ty=0, uniform=False):
    return [None, "Uniform" if uniform else ["Storage", ["LOAD", "STORE"]], [0, binding], ty, None, []]


def resource(binding, ty):
    return [None, "Handle", binding, ty, None, []]


def call(callee, arguments=()):
    return ["Call", callee, arguments, None]


def location(at, per_primitive=False):
    return ["Location", at, "Flat", None, None, per_primitive]


def sample(image, sampler, at):
    return ["ImageSample", image, sampler, None, at, None, None, ["Zero"], None, False]


def negations(count):
    return [["Unary", "BitwiseNot", 0]] * count


def uses(global_count):
    return [["GlobalVariable", at] for at in range(global_count)]


def given(count):
    return [["FunctionArgument", at] for at in range(count)]


# ---- types and layouts

@kind
def arrays_of_arrays(n):
    """Arrays of one another, with a chain of accesses down to the innermost."""
    chain = uses(1) + [["AccessIndex", at, 0] for at in range(n)] + [["Load", n]]
    return document(types=[U32] + [array_of(at) for at in range(n)], globals=[buffer(0, n)],
                    entries=[entry(expressions=chain, body=[["Emit", 1, n + 2]])])


@kind
def one_chain_of_accesses_loaded_again(n):
    """The same chain, from whose end four loads are made for each of its accesses."""
    chain = uses(1) + [["AccessIndex", at, 0] for at in range(n)] + [["Load", n]] * (4 * n)
    body = [["Emit", 1, n + 1]] + [["Emit", at, at + 1] for at in range(n + 1, 5 * n + 1)]
    return document(types=[U32] + [array_of(at) for at in range(n)], globals=[buffer(0, n)],
                    entries=[entry(expressions=chain, body=body)])


@kind
def wide_struct(n):
    """A buffer of one struct, and an access of each of its members."""
    return document(types=[U32, struct([0] * n)], globals=[buffer(0, 1)],
                    entries=[entry(expressions=uses(1) + [["AccessIndex", 0, at] for at in range(n)])])


@kind
def wide_struct_of_wide_structs(n):
    """Buffers of both kinds of a struct of structs of a hundred members."""
    return document(types=[U32, struct([0] * 100), struct([1] * n, 400)],
                    globals=[buffer(0, 2), buffer(1, 2, uniform=True)])


@kind
def values_of_a_wide_struct(n):
    """Zero values of a struct of a thousand members, each stored and passed."""
    body = [["Store", 0, at + 1] for at in range(n)] + [call(0, [at + 1]) for at in range(n)]
    made = function([["LocalVariable", 0]] + [["ZeroValue", 1]] * n, body, variables=[[None, 1, None]])
    return document(types=[U32, struct([0] * 1000)], functions=[function(arguments=[1]), made])


@kind
def uses_of_a_deep_array(n):
    """Arrays of one another, with variables and zero values of the outermost."""
    made = function([["ZeroValue", n]] * n, variables=[[None, n, None]] * n)
    return document(types=[U32] + [array_of(at) for at in range(n)], functions=[made],
                    globals=[[None, "Private", None, n, None, []]] * n)


def doubled(count):
    """Structs of which each holds the one before twice, and takes no bytes."""
    pair = lambda at: [None, ["Struct", [["a", at, None, 0], ["b", at, None, 0]], 0]]
    return [U32, array_of(0, 1, 0)] + [pair(at + 1) for at in range(count)]


@kind
def doubled_structs_as_variables(n):
    """Structs of which each holds the one before twice, as variables and as values."""
    made = function([["LocalVariable", 0], ["ZeroValue", n + 1], ["Load", 0]], [["Emit", 2, 3], ["Store", 0, 2]],
                    variables=[[None, n + 1, None]])
    return document(types=doubled(n), functions=[made],
                    globals=[[None, space, None, n + 1, None, []] for space in ("Private", "WorkGroup")])


@kind
def doubled_structs_as_buffers(n):
    """The same as buffers of each kind, loaded."""
    return document(types=doubled(n), capabilities=["IMMEDIATES"],
                    globals=[buffer(0, n + 1), buffer(1, n + 1, uniform=True), [None, "Immediate", None, n + 1, None, []]],
                    entries=[entry(expressions=[["GlobalVariable", 0], ["GlobalVariable", 2], ["Load", 0], ["Load", 1]])])


@kind
def doubled_compositions(n):
    """Constants, each composed of the one before twice."""
    return document(types=[U32] + [array_of(at, 2, 0) for at in range(n)],
                    expressions=[["Literal", "u32", 1]] + [["Compose", at + 1, [at, at]] for at in range(n)],
                    constants=[[None, at, at] for at in range(n)])


@kind
def structs_alike(n):
    """Structs of forty members that differ in the last one alone."""
    def one(at):
        return [None, ["Struct", [[None, 0, None, 4 * m] for m in range(40)] + [[None, 0, None, 160 + 4 * at]], 164 + 4 * n]]
    return document(types=[U32] + [one(at) for at in range(n)])


@kind
def named_types(n):
    """One type under many names."""
    return document(types=[[f"T{at}", ["Scalar", "u32"]] for at in range(n)])


@kind
def long_words_of_access(n):
    """Pointers whose kinds of access are named again and again."""
    return document(types=[U32] + [[f"P{at}", ["Pointer", 0, ["Storage", ["LOAD", "STORE", "ATOMIC"] * 20]]] for at in range(n)])


@kind
def arrays_of_overrides(n):
    """Arrays, each as long as an override of its own tells."""
    return document(types=[U32] + [[None, ["Array", 0, ["Pending", at], 4]] for at in range(n)],
                    overrides=[[f"o{at}", None, 0, n - 1] for at in range(n)],
                    expressions=[["Literal", "u32", at] for at in range(n)])


@kind
def predeclared_types(n):
    """All predeclared types there are, looked up again and again."""
    made = [[[key, size, scalar], 0] for key in ("ModfResult", "FrexpResult") for size in (None, 2, 3, 4)
            for scalar in ("f32", "f64", "f16", "afloat", "u32", "i32", "i64", "u64", "i16", "u16", "bool", "aint")]
    return document(types=[U32, F32], special=[0, 0, 0, made],
                    functions=[function([["ZeroValue", 1]] + [["Math", "Modf", 0, None, None, None]] * n)])


# ---- expressions, constants and overrides

@kind
def variables_loaded(n):
    """A function of many variables, each loaded."""
    loads = [it for at in range(n) for it in (["LocalVariable", at], ["Load", 2 * at])]
    return document(functions=[function(loads, variables=[[None, 0, None]] * n)])


@kind
def variables_with_values(n):
    """Variables, each with a sum of all before as its value."""
    sums = [["Literal", "u32", 1]] + [["Binary", "Add", at, at] for at in range(n)]
    return document(functions=[function(sums, variables=[[None, 0, at] for at in range(n)])])


@kind
def doubled_sums(n):
    """Sums of the one before with itself, in a function and among the expressions of overrides."""
    sums = [["Binary", "Add", at, at] for at in range(n)]
    return document(expressions=[["Override", 0]] + sums, overrides=[["o", None, 0, None]],
                    functions=[function([["Literal", "u32", 1]] + sums, [["Emit", 1, n + 1]])])


@kind
def one_long_composition(n):
    """A composition of many parts, as a constant and in a function."""
    parts = [["Literal", "u32", 1], ["Compose", 1, [0] * n]]
    return document(types=[U32, array_of(0, n)], expressions=parts, constants=[[None, 1, 1]],
                    functions=[function(parts, [["Emit", 1, 2]])])


@kind
def overrides_in_a_chain(n):
    """Overrides with numbers, each with the one before as its value."""
    made = [["o", at * 40503 % 65536 if at < 65536 else None, 0, at - 1 if at else None] for at in range(n)]
    return document(overrides=made, expressions=[["Override", at] for at in range(n)])


@kind
def selections_not_uniform(n):
    """Selections of the one before, none of them uniform, each of which decides a branch."""
    values = [["LocalVariable", 0], ["Load", 0]] + [["Select", at + 1] + [at + 1] * 2 for at in range(n)]
    body = [["Emit", 1, n + 2]] + [["If", n + 1 - at, [], []] for at in range(n)]
    return document(types=[BOOL], functions=[function(values, body, variables=[[None, 0, None]])])


# ---- statements

@kind
def cases_of_one_switch(n):
    """Cases whose values fall, every other of which falls through."""
    cases = [[["I32", -at], [["Break"]], at % 2 == 0] for at in range(n)] + [[["Default"], [], False]]
    return document(functions=[function([["Literal", "i32", 0]], [["Switch", 0, cases]])])


@kind
def deep_blocks(n):
    """Branches sixty blocks deep, each of which brings an expression into scope."""
    def down(depth, first):
        if depth == 58:
            return []
        return [["Emit", first + depth, first + depth + 1], ["Block", down(depth + 1, first)]]
    body = [["Block", down(0, 58 * at + 1)] for at in range(n)]
    return document(functions=[function([["Literal", "u32", 1]] + negations(58 * n), body)])


@kind
def ranges_one_by_one(n):
    """Expressions emitted one by one, and all of them at once before."""
    body = [["Block", [["Emit", 1, n + 1]]]] * max(1, n // 2000) + [["Block", [["Emit", at, at + 1]]] for at in range(1, n + 1)]
    return document(functions=[function([["Literal", "u32", 1]] + negations(n), body)])


def emitted_again(n, flags):
    return document(flags=flags, functions=[function([["Literal", "u32", 1]] + negations(n),
                                                     [["Block", [["Emit", 1, n + 1]]]] * n)])


@kind
def one_range_in_every_block(n):
    """One long range that is emitted in each of many blocks."""
    return emitted_again(n, SIX)


@held
def one_range_in_every_block_strict(n):
    """The same under the flag for strict scope."""
    return emitted_again(n, SIX + ["strict-scope"])


STRICT = SIX + ["strict-scope"]


def in_blocks(expressions, outer, inner):
    """Under strict scope, what is emitted at the top of a body, and in each of many blocks."""
    emits = lambda ranges: [["Emit", first, end] for first, end in ranges]
    blocks = [["Block", emits(ranges)] for ranges in inner]
    return document(flags=STRICT, functions=[function(expressions, emits(outer) + blocks)])


def negations_of(operands):
    return [["Unary", "BitwiseNot", at] for at in operands]


@held
def one_range_of_operands_strict(n):
    """Each of many blocks emits one long range, of which each expression names another operand before it."""
    values = [["Literal", "u32", 1]] + negations(n) + negations_of(range(1, n + 1))
    return in_blocks(values, [(1, n + 1)], [[(n + 1, 2 * n + 1)]] * n)


@held
def two_ranges_in_every_block_strict(n):
    """Each of many blocks emits two long ranges, of which the second names each expression of the first."""
    values = [["Literal", "u32", 1]] + negations(n) + negations_of(1 + (at * 7919) % n for at in range(n))
    return in_blocks(values, [], [[(1, n + 1), (n + 1, 2 * n + 1)]] * n)


@held
def parts_of_a_range_strict(n):
    """Blocks that emit parts of one long range, all from other places on and to other places."""
    values = [["Literal", "u32", 1]] + negations(n) + negations_of(range(1, n + 1))
    return in_blocks(values, [(1, n + 1)], [[(n + 1 + at // 2, 2 * n + 1 - at // 3)] for at in range(n)])


@held
def operands_one_by_one_strict(n):
    """Operands with gaps between them that are emitted one by one, and many blocks that emit one more and then all that name them."""
    values = [["Literal", "u32", 1]] + negations(2 * n) + [["Binary", "Add", 1 + 2 * at, 1] for at in range(n)]
    return in_blocks(values, [(at, at + 1) for at in range(3, 2 * n, 2)], [[(1, 2), (2 * n + 1, 3 * n + 1)]] * n)


@held
def graph_of_operands_strict(n):
    """Blocks that each emit many of some operands, and then ranges that name some of these: a question about triangles."""
    side = max(2, round(n ** 0.5))
    values = [["Literal", "u32", 1]] + negations(side) + [x for row in range(side) for x in negations_of(1 + (row * 31 + at * 17) % side for at in range(side))]
    rows = [(side + 1 + row * side, side + 1 + (row + 1) * side) for row in range(side)]
    blocks = [["Block", [["Emit", 1 + at, 2 + at] for at in range(side)] + [["Block", [["Emit", *row]]] for row in rows]] for _ in range(side)]
    return document(flags=STRICT, functions=[function(values, blocks)])


@kind
def one_range_in_uniform_branches(n):
    """One long range of derivatives that is emitted in each of many branches on what is uniform."""
    values = [["Literal", "bool", True], ["Literal", "f32", 1]] + [["Derivative", "X", "None", 1]] * n
    return document(types=[BOOL], functions=[function(values, [["If", 0, [["Emit", 2, n + 2]], []]] * n)])


@kind
def exits_in_branches(n):
    """Returns under branches on what is not uniform, after one another."""
    step = [["If", 1, [["Return", None]], [["If", 1, [], [["Return", None]]]]]]
    return document(types=[BOOL], functions=[function([["LocalVariable", 0], ["Load", 0]], [["Emit", 1, 2]] + step * n,
                                                      variables=[[None, 0, None]])])


@kind
def ends_without_returns(n):
    """Cases that end in branches, into all of which returns are put."""
    inner = [["If", 1, [["If", 1, [], []]], []]]
    cases = [[["I32", at], inner, False] for at in range(n)] + [[["Default"], [], False]]
    made = function([["Literal", "i32", 1], ["Literal", "bool", True]], [["Switch", 0, cases]])
    return document(types=[BOOL], returns=True, functions=[made])


# ---- filters of diagnostics

def chain_of_filters(count):
    """Filters behind one another of which the first alone tells of derivatives."""
    return [["Off", ["Standard", "DerivativeUniformity"], None]] + [["Error", ["Unknown", "x"], at] for at in range(count)]


@kind
def filters_of_functions(n):
    """A chain of filters that say nothing of derivatives, and functions that each ask for the one that does."""
    values = [["Literal", "bool", True], ["Literal", "f32", 1], ["Derivative", "X", "None", 1], ["LocalVariable", 0], ["Load", 3]]
    body = [["Emit", 4, 5], ["If", 4, [["Emit", 2, 3]], []]]
    made = [function(values, body, variables=[[None, 0, None]], filters=n if at % 2 else None) for at in range(n // 4)]
    return document(types=[BOOL], filters=[chain_of_filters(n), n], functions=made)


@kind
def filters_of_the_module(n):
    """A chain of filters that say nothing of derivatives as the module's own, and empty functions."""
    made = [["Off", ["Unknown", "x"], at - 1 if at else None] for at in range(n)]
    return document(filters=[made, n - 1], functions=[function()] * n)


@kind
def filters_of_one_function(n):
    """The first chain, and one function that asks in each of many branches."""
    values = [["Literal", "f32", 1], ["LocalVariable", 0], ["Load", 1]] + [["Derivative", "X", "None", 0]] * n
    body = [["Emit", 2, 3]] + [["If", 2, [["Emit", at, at + 1]], []] for at in range(3, n + 3)]
    return document(types=[BOOL], filters=[chain_of_filters(n), n],
                    functions=[function(values, body, variables=[[None, 0, None]], filters=n)])


# ---- calls and what functions use

@kind
def arguments_of_one_call(n):
    """A call that passes many arguments."""
    return document(functions=[function(arguments=[0] * n),
                               function([["Literal", "u32", at] for at in range(n)], [call(0, list(range(n)))])])


@kind
def bindings_of_one_entry(n):
    """Buffers of one entry point whose bindings fall."""
    made = [[None, ["Storage", ["LOAD"]], [n - at, at * 40503 % 65536], 0, None, []] for at in range(n)]
    return document(globals=made, entries=[entry(expressions=uses(n))])


@held
def entries_that_use_all(n):
    """Entry points that each call a function which loads all buffers: the report names each buffer for each of them."""
    loads = function(uses(n) + [["Load", at] for at in range(n)])
    return document(globals=[buffer(at) for at in range(n)], functions=[loads],
                    entries=[entry(f"e{at}", body=[call(0)]) for at in range(n)])


@held
def functions_that_use_none(n):
    """Functions and buffers that none of them uses: each function tells its use of each buffer."""
    return document(globals=[buffer(at) for at in range(n)], functions=[function()] * n)


@held
def functions_that_use_one_each(n):
    """A chain of functions that each load a buffer of their own: each function tells its use of each buffer."""
    def one(at):
        return function([["GlobalVariable", at], ["Load", 0]], [call(at - 1)] if at else [])
    return document(globals=[buffer(at) for at in range(n)], functions=[one(at) for at in range(n)])


def pairs_of_globals(count):
    """A function that samples so many images, all of them globals, with one sampler."""
    return function(uses(count + 1) + [["ZeroValue", 2]] + [sample(at, count, count + 1) for at in range(count)])


def images_and_a_sampler(count):
    return [resource([0, at], 0) for at in range(count)] + [resource([1, 0], 1)]


def chain_over(images, functions):
    return document(types=[IMAGE, SAMPLER, VEC2], globals=images_and_a_sampler(images),
                    functions=[pairs_of_globals(images)] + [function(body=[call(at)]) for at in range(functions)])


@held
def chain_over_pairs(n):
    """A chain of functions over one that samples many images: each function tells its use of each image."""
    return chain_over(n, 8 * n)


@kind
def chain_over_forty_pairs(n):
    """A chain of functions over one that samples forty images."""
    return chain_over(40, n)


@kind
def chain_over_square_pairs(n):
    """A chain of functions over one that samples every image with every sampler."""
    values = uses(2 * n) + [["ZeroValue", 2]] + [sample(i, n + s, 2 * n) for i in range(n) for s in range(n)]
    return document(types=[IMAGE, SAMPLER, VEC2],
                    globals=[resource([0, at], 0) for at in range(n)] + [resource([1, at], 1) for at in range(n)],
                    functions=[function(values)] + [function(body=[call(at)]) for at in range(n * n)])


@kind
def calls_over_pairs(n):
    """Many calls, in one function, of one that samples many images."""
    return document(types=[IMAGE, SAMPLER, VEC2], globals=images_and_a_sampler(n),
                    functions=[pairs_of_globals(n), function(body=[call(0)] * (100 * n))])


@held
def arguments_sampled(n):
    """A function that samples the images it is given, called with one sampler after another; a chain that passes all on."""
    first = function(given(n + 1) + [["ZeroValue", 2]] + [sample(at, n, n + 1) for at in range(n)], arguments=[0] * n + [1])
    images, samplers = list(range(n)), list(range(n, 2 * n))
    second = function(given(2 * n), [call(0, images + [at]) for at in samplers], [0] * n + [1] * n)
    chain = [function(given(2 * n), [call(at + 1, images + samplers)], [0] * n + [1] * n) for at in range(n)]
    return document(types=[IMAGE, SAMPLER, VEC2], functions=[first, second] + chain)


@kind
def arguments_exchanged(n):
    """A chain of functions that pass two images and two samplers on, as they come and exchanged."""
    pairs = [sample(i, s, 4) for i in (0, 1) for s in (2, 3)]
    first = function(given(4) + [["ZeroValue", 2]] + pairs, [["Emit", 5, 9]], [0, 0, 1, 1])
    chain = [function(given(4), [call(at, [1, 0, 3, 2]), call(at, [0, 1, 2, 3])], [0, 0, 1, 1]) for at in range(n)]
    return document(types=[IMAGE, SAMPLER, VEC2], globals=[resource([0, at], at // 2) for at in range(4)],
                    functions=[first] + chain, entries=[entry(expressions=uses(4), body=[call(n, [0, 1, 2, 3])])])


def samples_its_arguments(images):
    """A function that samples each of so many images that it is given with the sampler that comes last."""
    at = images + 1
    return function(given(at) + [["ZeroValue", 2]] + [sample(image, images, at) for image in range(images)],
                    [["Emit", at + 1, at + 1 + images]], [0] * images + [1])


@kind
def calls_with_one_pair(n):
    """Calls that pass one image and one sampler, again and again."""
    return document(types=[IMAGE, SAMPLER, VEC2], globals=[resource([0, at], at) for at in range(2)],
                    functions=[samples_its_arguments(1)], entries=[entry(expressions=uses(2), body=[call(0, [0, 1])] * n)])


@kind
def calls_with_other_pairs(n):
    """Calls that each pass another two of many images."""
    images = max(2, n // 300)
    body = [call(0, [at % images, at // images % images, images]) for at in range(n)]
    return document(types=[IMAGE, SAMPLER, VEC2], globals=images_and_a_sampler(images),
                    functions=[samples_its_arguments(2)], entries=[entry(expressions=uses(images + 1), body=body)])


# ---- rays

def traced(types, functions):
    return document(types=[U32, RAYS] + types, special=[2, None, None, []], capabilities=["RAY_TRACING_PIPELINE"],
                    globals=[resource([0, 0], 1), [None, "RayPayload", None, 0, None, []]], functions=functions)


TRACED = [["GlobalVariable", 0], ["GlobalVariable", 1]]


@kind
def payloads_of_rays(n):
    """Functions that each trace a ray with one payload."""
    made = function(TRACED + [["ZeroValue", 2]], [["RayPipelineFunction", ["TraceRay", 0, 2, 1]]])
    return traced([["RayDesc", struct([0])[1]]], [made] * n)


@kind
def descriptors_of_rays(n):
    """Descriptors of a hundred members that differ in their names, each traced again and again."""
    many, made = max(1, n // 20), struct([0] * 100)[1]
    body = [["RayPipelineFunction", ["TraceRay", 0, 2 + at % many, 1]] for at in range(n)]
    return traced([[f"D{at}", made] for at in range(many)],
                  [function(TRACED + [["ZeroValue", 2 + at] for at in range(many)], body)])


@kind
def one_wide_descriptor_of_rays(n):
    """A descriptor of many members that has another name than the declared one, traced again and again."""
    made = struct([0] * n)[1]
    return traced([["D", made], ["E", made]],
                  [function(TRACED + [["ZeroValue", 3]], [["RayPipelineFunction", ["TraceRay", 0, 2, 1]]] * n)])


# ---- entry points and what they are given

@kind
def names_of_entries(n):
    """Entry points with long names that differ at the end."""
    return document(entries=[entry("x" * 1000 + str(at)) for at in range(n)])


@kind
def locations_of_arguments(n):
    """Arguments of one entry point at locations far from one another."""
    given_at = [[None, 0, location(at * 2654435761 % 2**32)] for at in range(n)]
    return document(entries=[entry(stage="Fragment", arguments=given_at)])


@kind
def locations_of_one_struct(n):
    """Entry points that are all given one struct of many locations."""
    return document(types=[U32, struct([0] * n, bindings=location)],
                    entries=[entry(f"e{at}", "Fragment", [[None, 1, None]]) for at in range(n)])


@held
def locations_of_two_structs(n):
    """Entry points that are all given two structs, one with the even locations and one with the odd."""
    return document(types=[U32, struct([0] * n, bindings=lambda at: location(2 * at)),
                           struct([0] * n, bindings=lambda at: location(2 * at + 1))],
                    entries=[entry(f"e{at}", "Fragment", [[None, 1, None], [None, 2, None]]) for at in range(n)])


@held
def locations_of_struct_and_arguments(n):
    """Entry points that are given one struct of many locations, a location of its own, and a built-in value."""
    given_at = [[None, 1, None], [None, 0, location(2**32 - 1)], [None, 2, ["BuiltIn", "Position", False]]]
    return document(types=[U32, struct([0] * n, bindings=location), VEC4],
                    entries=[entry(f"e{at}", "Fragment", given_at) for at in range(n)])


@held
def locations_of_pairs_of_structs(n):
    """Entry points that are given two of many structs each, no two entry points the same two."""
    count = 2 + int((2 * n) ** 0.5)
    pairs = [(one, other) for other in range(count) for one in range(other)][:n]
    made = [struct([0] * (n // count), bindings=lambda at, of=of: location(at * count + of)) for of in range(count)]
    return document(types=[U32, *made], entries=[entry(f"e{one}x{other}", "Fragment",
                                                       [[None, 1 + one, None], [None, 1 + other, None]])
                                                 for one, other in pairs])


@held
def locations_of_scattered_structs(n):
    """A struct of many locations, and entry points that are given 16 structs, each of which has one of each 64 of these."""
    count = n // 64
    made = [struct([0] * count, bindings=lambda at, of=of: location(64 * at + of)) for of in range(16)]
    return document(types=[U32, struct([0] * (64 * count), bindings=location), *made],
                    entries=[entry("all", "Fragment", [[None, 1, None], [None, 0, location(2**32 - 1)]])]
                    + [entry(f"e{at}", "Fragment", [[None, 2 + of, None] for of in range(16)]) for at in range(n // 16)])


@kind
def one_struct_both_ways(n):
    """Vertex shaders that give one struct of many locations, and fragment shaders that are given it."""
    made = struct([1] + [0] * n, 16, lambda at: location(at) if at else ["BuiltIn", "Position", False])
    return document(types=[U32, VEC4, made],
                    entries=[entry(f"v{at}", "Vertex", result=[2, None], expressions=[["ZeroValue", 2]], body=[["Return", 0]])
                             for at in range(n // 2)]
                    + [entry(f"f{at}", "Fragment", [[None, 2, None]]) for at in range(n // 2)])


def meshes(locations, entries):
    """Mesh shaders of one output, whose vertices and primitives have so many locations each."""
    size = 16 * (locations + 4)
    vertex = [["p", 2, ["BuiltIn", "Position", False], 0]]
    vertex += [[None, 0, location(7 * at + 1), 16 + 4 * at] for at in range(locations)]
    primitive = [["p", 0, ["BuiltIn", "PointIndex"], 0]]
    primitive += [[None, 0, location(2**31 - at, True), 16 + 4 * at] for at in range(locations)]
    output = [["a", 0, ["BuiltIn", "VertexCount"], 0], ["b", 0, ["BuiltIn", "PrimitiveCount"], 4],
              ["c", 5, ["BuiltIn", "Vertices"], 16], ["d", 6, ["BuiltIn", "Primitives"], 16 + 2 * size]]
    types = [U32, F32, VEC4, [None, ["Struct", vertex, size]], [None, ["Struct", primitive, size]],
             array_of(3, 2, size), array_of(4, 2, size), [None, ["Struct", output, 32 + 4 * size]]]
    made = [entry(f"m{at}", "Mesh", mesh=["Points", 2, None, 2, None, 3, 4, 0]) for at in range(entries)]
    return document(types=types, globals=[[None, "WorkGroup", None, 7, None, []]], entries=made,
                    capabilities=["MESH_SHADER", "MESH_SHADER_POINT_TOPOLOGY"])


@kind
def locations_of_meshes(n):
    """Three mesh shaders whose vertices and primitives have many locations."""
    return meshes(n, 3)


@kind
def one_output_of_meshes(n):
    """Mesh shaders of one output of many locations."""
    return meshes(n, n)

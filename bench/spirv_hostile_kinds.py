"""Modules of SPIR-V that nest, repeat or refer as no compiler would, for spirv_hostile.py: a function of a size for each kind."""
import struct

MAGIC = 0x07230203


class Module:
    """A module that is being written: instructions as words, ids in order."""

    def __init__(self):
        self.words, self.bound = [], 1

    def id(self):
        self.bound += 1
        return self.bound - 1

    def op(self, number, *words):
        self.words += [(len(words) + 1) << 16 | number, *words]

    def typed(self, number, ty, *words):
        made = self.id()
        self.op(number, ty, made, *words)
        return made

    def plain(self, number, *words):
        made = self.id()
        self.op(number, made, *words)
        return made

    def bytes(self):
        return struct.pack("<%dI" % (5 + len(self.words)), MAGIC, 0x10000, 0, self.bound, 0, *self.words)


def text(string):
    raw = string.encode() + b"\0"
    raw += b"\0" * (-len(raw) % 4)
    return struct.unpack("<%dI" % (len(raw) // 4), raw)


def shader(m):
    """A compute shader's beginning: answers the ids of its function, of void, of its type, of u32 and of bool."""
    main = m.id()
    m.op(17, 1)
    m.op(14, 0, 1)
    m.op(15, 5, main, *text("main"))
    m.op(16, main, 17, 1, 1, 1)
    return main


def types(m):
    void = m.plain(19)
    function = m.plain(33, void)
    word = m.plain(21, 32, 0)
    truth = m.plain(20)
    return void, function, word, truth


def begin(m, main, void, function):
    m.op(54, void, main, 0, function)
    return m.plain(248)


def end(m):
    m.op(253)
    m.op(56)
    return m.bytes()


def nested_ifs(n):
    m = Module()
    main = shader(m)
    void, function, word, truth = types(m)
    yes = m.typed(41, truth)
    begin(m, main, void, function)
    merges = []
    for _ in range(n):
        inner, merge = m.id(), m.id()
        m.op(247, merge, 0)
        m.op(250, yes, inner, merge)
        m.op(248, inner)
        merges.append(merge)
    for merge in reversed(merges):
        m.op(249, merge)
        m.op(248, merge)
    return end(m)


def long_switch(n):
    m = Module()
    main = shader(m)
    void, function, word, truth = types(m)
    zero = m.typed(43, word, 0)
    begin(m, main, void, function)
    merge = m.id()
    labels = [m.id() for _ in range(n)]
    m.op(247, merge, 0)
    pairs = [x for k, label in enumerate(labels) for x in (k, label)]
    m.op(251, zero, merge, *pairs[:65000])
    for label in labels[:32500]:
        m.op(248, label)
        m.op(249, merge)
    m.op(248, merge)
    return end(m)


def wide_struct(n):
    n = min(n, 65000)
    m = Module()
    main = shader(m)
    whole = m.id()
    for k in range(n):
        m.op(72, whole, k, 35, 4 * k)
    for k in range(n):
        m.op(6, whole, k, *text("m%d" % k))
    void, function, word, truth = types(m)
    m.op(30, whole, *[word] * n)
    begin(m, main, void, function)
    return end(m)


def deep_types(n):
    m = Module()
    main = shader(m)
    void, function, word, truth = types(m)
    two = m.typed(43, word, 1)
    inner = word
    for _ in range(n):
        inner = m.plain(28, inner, two)
    begin(m, main, void, function)
    return end(m)


def copies(n):
    m = Module()
    main = shader(m)
    void, function, word, truth = types(m)
    pointer = m.plain(32, 7, word)
    begin(m, main, void, function)
    at = m.typed(59, pointer, 7)
    for _ in range(n):
        at = m.typed(83, pointer, at)
        m.typed(61, word, at)
    return end(m)


def doubled(n):
    m = Module()
    main = shader(m)
    spec = m.id()
    m.op(71, spec, 1, 0)
    void, function, word, truth = types(m)
    m.op(50, word, spec, 1)
    inner, ty = spec, word
    for _ in range(min(n, 40)):
        ty = m.plain(30, ty, ty)
        inner = m.typed(51, ty, inner, inner)
    begin(m, main, void, function)
    for _ in range(n):
        m.typed(83, ty, inner)
    return end(m)


def inserts(n):
    m = Module()
    main = shader(m)
    void, function, word, truth = types(m)
    one = m.typed(43, word, 1)
    many = m.typed(43, word, 1000)
    array = m.plain(28, word, many)
    begin(m, main, void, function)
    at = m.typed(1, array)
    for _ in range(n):
        at = m.typed(82, array, one, at, 5)
    return end(m)


def chained_calls(n):
    m = Module()
    main = shader(m)
    void, function, word, truth = types(m)
    before = None
    for _ in range(n):
        made = m.id()
        m.op(54, void, made, 0, function)
        m.plain(248)
        if before is not None:
            m.typed(57, void, before)
        m.op(253)
        m.op(56)
        before = made
    begin(m, main, void, function)
    m.typed(57, void, before)
    return end(m)


def many_entries(n):
    m = Module()
    main = m.id()
    m.op(17, 1)
    m.op(14, 0, 1)
    for k in range(n):
        m.op(15, 5, main, *text("e%d" % k))
    m.op(16, main, 17, 1, 1, 1)
    void, function, word, truth = types(m)
    begin(m, main, void, function)
    return end(m)


def phis(n):
    m = Module()
    main = shader(m)
    void, function, word, truth = types(m)
    zero = m.typed(43, word, 0)
    first = begin(m, main, void, function)
    second = m.id()
    m.op(249, second)
    m.op(248, second)
    for _ in range(n):
        m.typed(245, word, zero, first)
    return end(m)


def decoration_groups(n):
    """A group with n decorations that is given to n variables."""
    m = Module()
    main = shader(m)
    group = m.id()
    targets = [m.id() for _ in range(n)]
    for k in range(n):
        m.op(71, group, 33, k)
    m.op(73, group)
    for at in range(0, n, 60000):
        m.op(74, group, *targets[at : at + 60000])
    void, function, word, truth = types(m)
    pointer = m.plain(32, 6, word)
    for target in targets:
        m.op(59, pointer, target, 6)
    begin(m, main, void, function)
    return end(m)


def long_switch_of_64_bits(n):
    m = Module()
    main = shader(m)
    m.words[0:0] = [2 << 16 | 17, 11]
    void, function, word, truth = types(m)
    long = m.plain(21, 64, 0)
    zero = m.typed(43, long, 0, 0)
    begin(m, main, void, function)
    merge = m.id()
    labels = [m.id() for _ in range(min(n, 21000))]
    m.op(247, merge, 0)
    m.op(251, zero, merge, *[x for k, label in enumerate(labels) for x in (k, 7, label)])
    for label in labels:
        m.op(248, label)
        m.op(249, merge)
    m.op(248, merge)
    return end(m)


def components(n):
    """Inputs of a fragment shader, four of each location, each of which is loaded by each of a few functions."""
    m = Module()
    main = m.id()
    inputs = [m.id() for _ in range(n)]
    m.op(17, 1)
    m.op(14, 0, 1)
    m.op(15, 4, main, *text("main"), *inputs[:60000])
    m.op(16, main, 7)
    for k, each in enumerate(inputs):
        m.op(71, each, 30, k // 4)
        m.op(71, each, 31, k % 4)
    void, function, word, truth = types(m)
    real = m.plain(22, 32)
    pointer = m.plain(32, 1, real)
    for each in inputs:
        m.op(59, pointer, each, 1)
    begin(m, main, void, function)
    for each in inputs:
        m.typed(61, real, each)
    return end(m)


def clusters(n):
    """Sums over clusters of 64 invocations, each of which is 63 values of others."""
    m = Module()
    main = m.id()
    for capability in (1, 61, 63, 67):
        m.op(17, capability)
    m.op(14, 0, 1)
    m.op(15, 5, main, *text("main"))
    m.op(16, main, 17, 1, 1, 1)
    void, function, word, truth = types(m)
    scope = m.typed(43, word, 3)
    size = m.typed(43, word, 64)
    begin(m, main, void, function)
    value = scope
    for _ in range(n):
        value = m.typed(349, word, scope, 3, value, size)
    return end(m)


def arrays_as_arguments(n):
    """A chain of functions each of which passes its argument, an array of images, on to the next."""
    m = Module()
    main = shader(m)
    images = m.id()
    m.op(71, images, 34, 0)
    m.op(71, images, 33, 0)
    void, function, word, truth = types(m)
    real = m.plain(22, 32)
    image = m.plain(25, real, 1, 0, 0, 0, 1, 0)
    four = m.typed(43, word, 4)
    array = m.plain(28, image, four)
    pointer = m.plain(32, 0, array)
    takes = m.plain(33, void, pointer)
    m.op(59, pointer, images, 0)
    before = None
    for _ in range(n):
        made = m.id()
        m.op(54, void, made, 0, takes)
        given = m.typed(55, pointer)
        m.plain(248)
        if before is not None:
            m.typed(57, void, before, given)
        m.op(253)
        m.op(56)
        before = made
    begin(m, main, void, function)
    m.typed(57, void, before, images)
    return end(m)


def packed_matrices(n):
    """A struct of n matrices whose columns have a stride of 12 bytes."""
    m = Module()
    main = shader(m)
    whole = m.id()
    for k in range(n):
        m.op(72, whole, k, 35, 36 * k)
        m.op(72, whole, k, 5)
        m.op(72, whole, k, 7, 12)
    void, function, word, truth = types(m)
    real = m.plain(22, 32)
    vector = m.plain(23, real, 3)
    matrix = m.plain(24, vector, 3)
    m.op(30, whole, *[matrix] * min(n, 65000))
    pointer = m.plain(32, 2, whole)
    block = m.typed(59, pointer, 2)
    one = m.plain(32, 2, matrix)
    places = [m.typed(43, word, k) for k in range(n)]
    begin(m, main, void, function)
    for place in places:
        m.typed(61, matrix, m.typed(65, one, block, place))
    return end(m)


def listed_again(n):
    """A fragment shader that names one input n times, which has 30 decorations."""
    m = Module()
    main, given = m.id(), m.id()
    m.op(17, 1)
    m.op(14, 0, 1)
    m.op(15, 4, main, *text("main"), *[given] * min(n, 60000))
    m.op(16, main, 7)
    m.op(71, given, 30, 0)
    for _ in range(29):
        m.op(71, given, 0)
    void, function, word, truth = types(m)
    real = m.plain(22, 32)
    m.op(59, m.plain(32, 1, real), given, 1)
    begin(m, main, void, function)
    return end(m)


def decorated_again(n):
    """An input with n decorations, which is refused."""
    m = Module()
    main, given = m.id(), m.id()
    m.op(17, 1)
    m.op(14, 0, 1)
    m.op(15, 4, main, *text("main"), *[given] * min(n, 60000))
    m.op(16, main, 7)
    for k in range(n):
        m.op(71, given, 30, k)
    void, function, word, truth = types(m)
    real = m.plain(22, 32)
    m.op(59, m.plain(32, 1, real), given, 1)
    begin(m, main, void, function)
    return end(m)


def entries_of(n, make):
    """n fragment shaders with one function, which take and give the variables that make(m) declares."""
    m = Module()
    main, given = m.id(), m.id()
    m.op(17, 1)
    m.op(14, 0, 1)
    for k in range(n):
        m.op(15, 4, main, *text("e%d" % k), given)
    m.op(16, main, 7)
    make(m, given)
    return m, main


def named_inputs(n):
    """A name of 4 n bytes that each of n entry points has a copy of."""

    def name(m, given):
        m.op(5, given, *text("x" * (4 * min(n, 60000))))
        m.op(71, given, 30, 0)

    m, main = entries_of(n, name)
    void, function, word, truth = types(m)
    real = m.plain(22, 32)
    m.op(59, m.plain(32, 1, real), given_of(main), 1)
    begin(m, main, void, function)
    return end(m)


def given_of(main):
    return main + 1


def given_blocks(n):
    """A block of n members that each of n entry points gives."""
    whole = []

    def block(m, given):
        whole.append(m.id())
        for k in range(min(n, 60000)):
            m.op(72, whole[0], k, 30, k)
        m.op(71, whole[0], 2)

    m, main = entries_of(n, block)
    void, function, word, truth = types(m)
    real = m.plain(22, 32)
    m.op(30, whole[0], *[real] * min(n, 60000))
    m.op(59, m.plain(32, 3, whole[0]), given_of(main), 3)
    begin(m, main, void, function)
    return end(m)


def variables_of(n, storage, number, described):
    """n variables of one struct of n members, of each of which this decoration is said."""
    m = Module()
    main = shader(m)
    whole = m.id()
    for k in range(min(n, 60000)):
        for word in described(k):
            m.op(72, whole, k, *word)
    m.op(71, whole, number)
    variables = [m.id() for _ in range(n)]
    for k, each in enumerate(variables):
        m.op(71, each, 34, 0)
        m.op(71, each, 33, k)
    void, function, word, truth = types(m)
    m.op(30, whole, *[word] * min(n, 60000))
    pointer = m.plain(32, storage, whole)
    for each in variables:
        m.op(59, pointer, each, storage)
    begin(m, main, void, function)
    return end(m)


def buffers_of_a_struct(n):
    return variables_of(n, 2, 3, lambda k: [(35, 4 * k), (24,)])


def blocks_of_a_struct(n):
    return variables_of(n, 3, 2, lambda k: [(30, k)])


MOST = 65000  # operands of one instruction


def pieces(items, count):
    for at in range(0, len(items), count):
        yield items[at : at + count]


def wide_parts(n):
    """A composite of n times the same specialization constant, and n uses of it, each an operand of a call."""
    n = min(n, 64000)
    m = Module()
    main = shader(m)
    spec = m.id()
    m.op(71, spec, 1, 0)
    void, function, word, truth = types(m)
    m.op(50, word, spec, 1)
    size = m.typed(43, word, n)
    array = m.plain(28, word, size)
    whole = m.typed(51, array, *[spec] * n)
    outer = m.plain(28, array, size)
    begin(m, main, void, function)
    m.typed(80, outer, *[whole] * n)
    return end(m)


def wide_parts_twice(n):
    """A composite of n times a composite of n times the same specialization constant, and n uses of it."""
    n = min(n, 64000)
    m = Module()
    main = shader(m)
    spec = m.id()
    m.op(71, spec, 1, 0)
    void, function, word, truth = types(m)
    m.op(50, word, spec, 1)
    size = m.typed(43, word, n)
    array = m.plain(28, word, size)
    whole = m.typed(51, array, *[spec] * n)
    arrays = m.plain(28, array, size)
    both = m.typed(51, arrays, *[whole] * n)
    begin(m, main, void, function)
    for _ in range(n):
        m.typed(83, arrays, both)
    return end(m)


def outputs_of_struct(n):
    """n outputs of one struct of n members, without initializers: each begins as a composite of n values."""
    n = min(n, 64000)
    m = Module()
    main = shader(m)
    void, function, word, truth = types(m)
    whole = m.plain(30, *[word] * n)
    pointer = m.plain(32, 3, whole)
    for _ in range(n):
        m.typed(59, pointer, 3)
    begin(m, main, void, function)
    return end(m)


def initialized_blocks(n):
    """n outputs at a location, of one struct of n members, that begin as one constant of n parts."""
    n = min(n, 64000)
    m = Module()
    main = shader(m)
    outputs = [m.id() for _ in range(n)]
    for each in outputs:
        m.op(71, each, 30, 0)
    void, function, word, truth = types(m)
    zero = m.typed(43, word, 0)
    whole = m.plain(30, *[word] * n)
    pointer = m.plain(32, 3, whole)
    constant = m.typed(44, whole, *[zero] * n)
    for each in outputs:
        m.op(59, pointer, each, 3, constant)
    begin(m, main, void, function)
    return end(m)


def atomic_buffers(n, name=None):
    """n buffers of one struct of n members, of each of which another member is changed atomically."""
    n = min(n, 64000)
    m = Module()
    main = m.id()
    m.op(17, 1)
    m.op(14, 0, 1)
    m.op(15, 5, main, *text("main"))
    m.op(16, main, 17, 1, 1, 1)
    buffers = [m.id() for _ in range(n)]
    whole = m.id()
    if name:
        m.op(6, whole, 0, *text(name))
    m.op(71, whole, 2)
    for each in buffers:
        m.op(71, each, 34, 0)
        m.op(71, each, 33, 0)
    void, function, word, truth = types(m)
    m.op(30, whole, *[word] * n)
    pointer = m.plain(32, 12, whole)
    inner = m.plain(32, 12, word)
    places = [m.typed(43, word, k) for k in range(n)]
    one, zero = places[1], places[0]
    for each in buffers:
        m.op(59, pointer, each, 12)
    begin(m, main, void, function)
    for each, place in zip(buffers, places):
        m.typed(234, word, m.typed(65, inner, each, place), one, zero, one)
    return end(m)


def atomic_members(n):
    """One variable of a workgroup: up to 254 structs of as many structs of n members, one of which is atomic in each."""
    m = Module()
    main = shader(m)
    void, function, word, truth = types(m)
    count = max(2, min(254, int(n ** 0.5)))
    width = min(n, 64000)
    leaf = m.plain(30, *[word] * width)
    middle = m.plain(30, *[leaf] * count)
    whole = m.plain(30, *[middle] * count)
    pointer = m.plain(32, 4, whole)
    inner = m.plain(32, 4, word)
    places = [m.typed(43, word, k) for k in range(width)]
    zero, one = places[0], places[1]
    variable = m.typed(59, pointer, 4)
    begin(m, main, void, function)
    number = 0
    for j in range(count):
        for k in range(count):
            at = m.typed(65, inner, variable, places[j], places[k], places[number % width])
            m.typed(234, word, at, one, zero, one)
            number += 1
    return end(m)


def atomics_of_one_chain(n):
    """n atomics of a pointer that an access chain with n indexes leads to."""
    m = Module()
    main = shader(m)
    void, function, word, truth = types(m)
    one = m.typed(43, word, 1)
    zero = m.typed(43, word, 0)
    n = min(n, MOST)
    inner = word
    for _ in range(n):
        inner = m.plain(28, inner, one)
    pointer = m.plain(32, 4, inner)
    to = m.plain(32, 4, word)
    variable = m.typed(59, pointer, 4)
    begin(m, main, void, function)
    at = m.typed(65, to, variable, *[zero] * n)
    for _ in range(n):
        m.typed(234, word, at, one, zero, one)
    return end(m)


def kept_chain(n):
    """An access chain of n indexes in a block, and n uses of it in another that its scope does not reach."""
    m = Module()
    main = shader(m)
    void, function, word, truth = types(m)
    yes = m.typed(41, truth)
    zero = m.typed(43, word, 0)
    n = min(n, MOST)
    begin(m, main, void, function)
    inner, merge = m.id(), m.id()
    m.op(247, merge, 0)
    m.op(250, yes, inner, merge)
    m.op(248, inner)
    at = m.typed(65, word, zero, *[zero] * n)
    m.op(249, merge)
    m.op(248, merge)
    m.typed(80, word, *[at] * n)
    return end(m)


def masks(n):
    """An entry point that lists an input n times and a mask of a subgroup n times."""
    n = min(n, 32000)
    m = Module()
    main = m.id()
    input_, mask = m.id(), m.id()
    m.op(17, 1)
    m.op(17, 61)
    m.op(14, 0, 1)
    m.op(15, 4, main, *text("main"), *[input_] * n, *[mask] * n)
    m.op(16, main, 7)
    m.op(71, input_, 30, 0)
    m.op(71, mask, 11, 4420)
    void, function, word, truth = types(m)
    real = m.plain(22, 32)
    four = m.plain(23, word, 4)
    pointer = m.plain(32, 1, real)
    words = m.plain(32, 1, four)
    m.op(59, pointer, input_, 1)
    m.op(59, words, mask, 1)
    begin(m, main, void, function)
    return end(m)


def listed_names(n):
    """An entry point that lists n times an input with a name of n words."""
    n = min(n, 64000)
    m = Module()
    main = m.id()
    input_ = m.id()
    m.op(17, 1)
    m.op(14, 0, 1)
    m.op(15, 4, main, *text("main"), *[input_] * n)
    m.op(16, main, 7)
    m.op(5, input_, *text("a" * (4 * n - 4)))
    m.op(71, input_, 30, 0)
    void, function, word, truth = types(m)
    real = m.plain(22, 32)
    pointer = m.plain(32, 1, real)
    m.op(59, pointer, input_, 1)
    begin(m, main, void, function)
    return end(m)


def unbound_members(n):
    """An entry point that lists n times an output of a struct of n members, none of which is bound."""
    n = min(n, 64000)
    m = Module()
    main = m.id()
    output = m.id()
    m.op(17, 1)
    m.op(14, 0, 1)
    m.op(15, 0, main, *text("main"), *[output] * n)
    void, function, word, truth = types(m)
    whole = m.plain(30, *[word] * n)
    pointer = m.plain(32, 3, whole)
    m.op(59, pointer, output, 3)
    begin(m, main, void, function)
    return end(m)


def entries_with_unbound_members(n):
    """n entry points that list an output of a struct of n members, none of which is bound."""
    n = min(n, 64000)
    m = Module()
    main = m.id()
    output = m.id()
    m.op(17, 1)
    m.op(14, 0, 1)
    for k in range(n):
        m.op(15, 0, main, *text("%d" % k), output)
    void, function, word, truth = types(m)
    whole = m.plain(30, *[word] * n)
    pointer = m.plain(32, 3, whole)
    m.op(59, pointer, output, 3)
    begin(m, main, void, function)
    return end(m)


def named_atomic_buffers(n):
    """n buffers of one struct of two members whose name has n words, one of which is changed atomically."""
    m = Module()
    main = shader(m)
    n = min(n, 64000)
    whole = m.id()
    m.op(6, whole, 0, *text("a" * (4 * n - 4)))
    void, function, word, truth = types(m)
    m.op(30, whole, word, word)
    pointer = m.plain(32, 4, whole)
    inner = m.plain(32, 4, word)
    zero = m.typed(43, word, 0)
    one = m.typed(43, word, 1)
    shared = [m.typed(59, pointer, 4) for _ in range(n)]
    begin(m, main, void, function)
    for each in shared:
        m.typed(234, word, m.typed(65, inner, each, zero), one, zero, one)
    return end(m)


def decorated_blocks(n):
    """n blocks between stages of one struct of n / 100 members with 30 decorations each: few members for each word, but
    each is looked at with its decorations for each variable."""
    m = Module()
    main = shader(m)
    members, variables = n // 100, n
    outputs = [m.id() for _ in range(variables)]
    whole = m.id()
    m.op(71, whole, 2)
    for k in range(members):
        for _ in range(30):
            m.op(72, whole, k, 14)
    for k, each in enumerate(outputs):
        m.op(71, each, 30, k)
    void, function, word, truth = types(m)
    m.op(30, whole, *[word] * members)
    pointer = m.plain(32, 1, whole)
    for each in outputs:
        m.op(59, pointer, each, 1)
    begin(m, main, void, function)
    return end(m)


def modes(n):
    """n entry points of one function with n modes."""
    m = Module()
    main = m.id()
    m.op(17, 1)
    m.op(14, 0, 1)
    for k in range(n):
        m.op(15, 5, main, *text("e%d" % k))
    for k in range(n):
        m.op(16, main, 17, 1, 1, 1)
    void, function, word, truth = types(m)
    begin(m, main, void, function)
    return end(m)


def spec_inserts(n):
    """n inserts into a null of 1024 parts, by OpSpecConstantOp."""
    m = Module()
    main = shader(m)
    void, function, word, truth = types(m)
    one = m.typed(43, word, 1)
    many = m.typed(43, word, 1024)
    array = m.plain(28, word, many)
    null = m.typed(46, array)
    for _ in range(n):
        m.typed(52, array, 82, one, null, 5)
    begin(m, main, void, function)
    return end(m)


def deep_spec_inserts(n):
    """One insert at n indexes into a null of arrays of 1024 arrays, by OpSpecConstantOp."""
    n = min(n, 60000)
    m = Module()
    main = shader(m)
    void, function, word, truth = types(m)
    one = m.typed(43, word, 1)
    many = m.typed(43, word, 1024)
    inner = word
    for _ in range(n):
        inner = m.plain(28, inner, many)
    null = m.typed(46, inner)
    m.typed(52, inner, 82, one, null, *[5] * n)
    begin(m, main, void, function)
    return end(m)


def strided_arrays(n):
    """A struct of n members, each of 200 arrays around a matrix with a stride of its own."""
    n = min(n, 64000)
    m = Module()
    main = shader(m)
    whole = m.id()
    for k in range(n):
        m.op(72, whole, k, 7, 32 + 16 * k)
    void, function, word, truth = types(m)
    real = m.plain(22, 32)
    vector = m.plain(23, real, 4)
    inner = m.plain(24, vector, 4)
    one = m.typed(43, word, 1)
    for _ in range(200):
        inner = m.plain(28, inner, one)
    m.op(30, whole, *[inner] * n)
    begin(m, main, void, function)
    return end(m)


def arrays_of_arrays(n):
    """A struct of n members, each of 255 arrays."""
    n = min(n, 64000)
    m = Module()
    main = shader(m)
    void, function, word, truth = types(m)
    one = m.typed(43, word, 1)
    inner = word
    for _ in range(255):
        inner = m.plain(28, inner, one)
    m.plain(30, *[inner] * n)
    begin(m, main, void, function)
    return end(m)


def large_bound(n):
    """A module of n words with a bound of 16 times that."""
    m = Module()
    main = shader(m)
    void, function, word, truth = types(m)
    begin(m, main, void, function)
    for _ in range(n):
        m.op(0)
    data = end(m)
    m.bound = 16 * (len(data) // 4) - 1
    return m.bytes()


def decorated_block(n):
    """n arrays of a struct with n decorations."""
    m = Module()
    main = shader(m)
    whole = m.id()
    for _ in range(n):
        m.op(71, whole, 2)
    void, function, word, truth = types(m)
    one = m.typed(43, word, 1)
    m.op(30, whole, word)
    for _ in range(n):
        m.plain(28, whole, one)
    begin(m, main, void, function)
    return end(m)


def sibling_pointers(n):
    """A way of 250 steps that is used in each of n blocks beside each other."""
    m = Module()
    main = shader(m)
    void, function, word, truth = types(m)
    yes = m.typed(41, truth)
    zero = m.typed(43, word, 0)
    one = m.typed(43, word, 1)
    kinds = [word]
    for _ in range(250):
        kinds.append(m.plain(28, kinds[-1], one))
    pointer = m.plain(32, 4, kinds[-1])
    to = m.plain(32, 4, word)
    variable = m.typed(59, pointer, 4)
    begin(m, main, void, function)
    inner, merge = m.id(), m.id()
    m.op(247, merge, 0)
    m.op(250, yes, inner, merge)
    m.op(248, inner)
    at = m.typed(65, to, variable, *[zero] * 250)
    m.op(249, merge)
    m.op(248, merge)
    for _ in range(n):
        inner, merge = m.id(), m.id()
        m.op(247, merge, 0)
        m.op(250, yes, inner, merge)
        m.op(248, inner)
        m.typed(61, word, at)
        m.op(249, merge)
        m.op(248, merge)
    return end(m)


def resource_arrays(n):
    """Images in arrays in 250 arrays, of which each of n chains goes the last step."""
    m = Module()
    main = shader(m)
    images = m.id()
    m.op(71, images, 34, 0)
    m.op(71, images, 33, 0)
    void, function, word, truth = types(m)
    real = m.plain(22, 32)
    image = m.plain(25, real, 1, 0, 0, 0, 1, 0)
    one = m.typed(43, word, 1)
    zero = m.typed(43, word, 0)
    last = m.plain(28, image, one)
    inner = last
    for _ in range(249):
        inner = m.plain(28, inner, one)
    pointer = m.plain(32, 0, inner)
    before = m.plain(32, 0, last)
    to = m.plain(32, 0, image)
    m.op(59, pointer, images, 0)
    begin(m, main, void, function)
    at = m.typed(65, before, images, *[zero] * 249)
    for _ in range(n):
        m.typed(65, to, at, zero)
    return end(m)


def atomic_siblings(n):
    """Structs of 254 members nested 60 deep, of which n are changed atomically, and n atomics of the innermost one."""
    m = Module()
    main = shader(m)
    void, function, word, truth = types(m)
    places = [m.typed(43, word, k) for k in range(254)]
    kinds = [word]
    for _ in range(60):
        kinds.append(m.plain(30, kinds[-1], *[word] * 253))
    pointers = [m.plain(32, 4, kind) for kind in kinds]
    to = pointers[0]
    variable = m.typed(59, pointers[-1], 4)
    begin(m, main, void, function)
    leaf = m.typed(65, to, variable, *[places[0]] * 60)
    m.typed(234, word, leaf, places[1], places[0], places[1])
    at, depth, done = variable, 60, 0
    while done < n and depth > 0:
        for k in range(1, 254):
            if done >= n:
                break
            m.typed(234, word, m.typed(65, to, at, places[k]), places[1], places[0], places[1])
            done += 1
        depth -= 1
        at = m.typed(65, pointers[depth], at, places[0])
    for _ in range(n):
        m.typed(234, word, leaf, places[1], places[0], places[1])
    return end(m)


def deep_spec_inserts_of_one_type(n):
    """Inserts at 200 indexes each into a null of arrays of 1024 arrays, by OpSpecConstantOp."""
    m = Module()
    main = shader(m)
    void, function, word, truth = types(m)
    one = m.typed(43, word, 1)
    two = m.typed(43, word, 1000)
    inner = word
    for _ in range(200):
        inner = m.plain(28, inner, two)
    null = m.typed(46, inner)
    for _ in range(n // 200):
        m.typed(52, inner, 82, one, null, *[5] * 200)
    begin(m, main, void, function)
    return end(m)


def entries_with_input_block(n):
    """n entry points that list one input block of n members."""
    m = Module()
    main = m.id()
    given, whole = m.id(), m.id()
    m.op(17, 1)
    m.op(14, 0, 1)
    n = min(n, 64000)
    for k in range(n):
        m.op(15, 4, main, *text("e%d" % k), given)
    m.op(16, main, 7)
    m.op(71, whole, 2)
    m.op(71, given, 30, 0)
    void, function, word, truth = types(m)
    real = m.plain(22, 32)
    m.op(30, whole, *[real] * n)
    pointer = m.plain(32, 1, whole)
    m.op(59, pointer, given, 1)
    begin(m, main, void, function)
    return end(m)


def touched_decorations(n):
    """A member with n decorations, and an access chain that goes through it in each of n instructions."""
    m = Module()
    main = shader(m)
    whole = m.id()
    for _ in range(n):
        m.op(72, whole, 0, 24)
    void, function, word, truth = types(m)
    zero = m.typed(43, word, 0)
    m.op(30, whole, word)
    pointer = m.plain(32, 4, whole)
    to = m.plain(32, 4, word)
    variable = m.typed(59, pointer, 4)
    begin(m, main, void, function)
    for _ in range(n):
        m.typed(65, to, variable, zero)
    return end(m)


def loaded_blocks(n):
    """A buffer of one struct of n members with an atomic one, which is loaded whole in each of n instructions."""
    m = Module()
    main = shader(m)
    void, function, word, truth = types(m)
    n = min(n, 64000)
    whole = m.plain(30, *[word] * n)
    pointer = m.plain(32, 4, whole)
    inner = m.plain(32, 4, word)
    zero = m.typed(43, word, 0)
    one = m.typed(43, word, 1)
    variable = m.typed(59, pointer, 4)
    begin(m, main, void, function)
    m.typed(234, word, m.typed(65, inner, variable, zero), one, zero, one)
    for _ in range(n):
        m.typed(61, whole, variable)
    return end(m)


def logical_copies(n):
    """Copies of a struct of 1000 members of one type as another."""
    m = Module()
    main = shader(m)
    void, function, word, truth = types(m)
    one = m.plain(30, *[word] * 1000)
    two = m.id()
    m.op(5, two, *text("two"))
    m.op(30, two, *[word] * 1000)
    null = m.typed(46, one)
    begin(m, main, void, function)
    for _ in range(n):
        m.typed(400, two, null)
    return end(m)


def mesh_stage(m, outputs):
    """A mesh stage's beginning, which lists these outputs: answers the id of its function."""
    main = m.id()
    m.op(17, 5283)
    m.op(14, 0, 1)
    m.op(15, 5365, main, *text("main"), *outputs)
    m.op(16, main, 17, 1, 1, 1)
    m.op(16, main, 26, 64)
    m.op(16, main, 5270, 64)
    m.op(16, main, 5298)
    return main


def mesh_body(m, main, void, function, word):
    few = m.typed(43, word, 3)
    begin(m, main, void, function)
    m.op(5295, few, few)
    return end(m)


def mesh_outputs(n):
    """A mesh stage with n outputs, each of which is listed twice and named."""
    m = Module()
    n = min(n, 30000)
    outputs = [m.id() for _ in range(n)]
    main = mesh_stage(m, outputs + outputs)
    for k, output in enumerate(outputs):
        m.op(5, output, *text("o%d" % k))
        m.op(71, output, 30, k)
    void, function, word, truth = types(m)
    real = m.plain(22, 32)
    many = m.plain(28, real, m.typed(43, word, 64))
    pointer = m.plain(32, 3, many)
    for output in outputs:
        m.op(59, pointer, output, 3)
    return mesh_body(m, main, void, function, word)


def mesh_blocks(n):
    """A mesh stage with n outputs of one block of n members with a name of n words."""
    m = Module()
    n = min(n, 60000)
    outputs, whole = [m.id() for _ in range(n)], m.id()
    main = mesh_stage(m, outputs)
    m.op(6, whole, 0, *text("x" * (4 * min(n, 60000))))
    m.op(71, whole, 2)
    for output in outputs:
        m.op(71, output, 30, 0)
    void, function, word, truth = types(m)
    real = m.plain(22, 32)
    m.op(30, whole, *[real] * n)
    many = m.plain(28, whole, m.typed(43, word, 64))
    pointer = m.plain(32, 3, many)
    for output in outputs:
        m.op(59, pointer, output, 3)
    return mesh_body(m, main, void, function, word)


def mesh_chains(n):
    """A mesh stage that stores into a member of a block of n members by each of n chains."""
    m = Module()
    n = min(n, 60000)
    output, whole = m.id(), m.id()
    main = mesh_stage(m, [output])
    m.op(71, whole, 2)
    m.op(71, output, 30, 0)
    void, function, word, truth = types(m)
    real = m.plain(22, 32)
    m.op(30, whole, *[real] * n)
    many = m.plain(28, whole, m.typed(43, word, 64))
    pointer, to = m.plain(32, 3, many), m.plain(32, 3, real)
    m.op(59, pointer, output, 3)
    zero, last = m.typed(43, word, 0), m.typed(43, word, n - 1)
    value = m.typed(43, real, 0)
    begin(m, main, void, function)
    for _ in range(n):
        m.op(62, m.typed(65, to, output, zero, last), value)
    return end(m)


def past_the_last_component(n):
    """n outputs that are to begin after the last component of a location."""
    m = Module()
    main = m.id()
    n = min(n, 60000)
    outputs = [m.id() for _ in range(n)]
    m.op(17, 1)
    m.op(14, 0, 1)
    m.op(15, 4, main, *text("main"), *outputs)
    m.op(16, main, 7)
    for k, output in enumerate(outputs):
        m.op(71, output, 30, k)
        m.op(71, output, 31, 0xFFFFFFFF)
    void, function, word, truth = types(m)
    pointer = m.plain(32, 3, m.plain(22, 32))
    for output in outputs:
        m.op(59, pointer, output, 3)
    begin(m, main, void, function)
    return end(m)


KINDS = [
    nested_ifs,
    long_switch,
    wide_struct,
    deep_types,
    copies,
    doubled,
    inserts,
    chained_calls,
    many_entries,
    phis,
    decoration_groups,
    long_switch_of_64_bits,
    components,
    clusters,
    arrays_as_arguments,
    packed_matrices,
    listed_again,
    decorated_again,
    named_inputs,
    given_blocks,
    buffers_of_a_struct,
    blocks_of_a_struct,
    wide_parts,
    wide_parts_twice,
    outputs_of_struct,
    initialized_blocks,
    atomic_buffers,
    atomic_members,
    atomics_of_one_chain,
    kept_chain,
    masks,
    listed_names,
    unbound_members,
    entries_with_unbound_members,
    named_atomic_buffers,
    decorated_blocks,
    modes,
    spec_inserts,
    deep_spec_inserts,
    strided_arrays,
    arrays_of_arrays,
    large_bound,
    decorated_block,
    sibling_pointers,
    resource_arrays,
    atomic_siblings,
    deep_spec_inserts_of_one_type,
    entries_with_input_block,
    touched_decorations,
    loaded_blocks,
    logical_copies,
    mesh_outputs,
    mesh_blocks,
    mesh_chains,
    past_the_last_component,
]

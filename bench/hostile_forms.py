#!/usr/bin/env python3
"""Measures all forms of answer on documents and modules of SPIR-V that are made to take long: hostile_forms.py PROGRAM [KIND ..]

Each kind (all, where none is named) is made at N, 2N and 4N, and is given to the program with its words under 256 KB of stack and 4 GB.
Prints seconds of a processor, times Python's JSON reader (of a module: microseconds a word), bytes of memory a byte and bytes that are
written. The status is 1 where 4N takes more than 4.6 times as long as N for four times the bytes, or more than 10 times the JSON reader,
or more than 40 bytes a byte (of a module 200), or writes more than 64 bytes a byte, or ends by a signal. Kinds that docs/PERFORMANCE.md
tells are printed and not counted.
"""
import json
import os
import subprocess
import sys
import tempfile
import time

sys.dont_write_bytecode = True
import spirv_hostile_kinds as modules
from hostile_kinds import (IMAGE, SAMPLER, U32, VEC2, array_of, buffer, call, chain_over, document, entry, function, given, images_and_a_sampler,
                           negations, pairs_of_globals, resource, sample, samples_its_arguments, struct, uses)

STACK = 256 << 10
MEMORY = 4 << 30
SECONDS = 60
MOST_GROWTH = 4.6
MOST_TIMES = 10
MOST_MEMORY = 40
MOST_OF_MODULES = 200
MOST_WRITTEN = 64
# less than this is taken for what any run takes
BASE_MEMORY = 64 << 20
BASE_WRITTEN = 1 << 16
BASE_SECONDS = .1
KINDS = {}
HELD = set()


def kind(n, *words, held=False):
    def put(make):
        KINDS[make.__name__] = (make, n, words)
        if held:
            HELD.add(make.__name__)
        return make
    return put


def of_module(name, n, *words, held=False):
    make = next(it for it in modules.KINDS if it.__name__ == name)
    at = "_".join([name, *(it.lstrip("-") for it in words)])
    KINDS[at] = (make, n, ("--spirv", *words))
    if held:
        HELD.add(at)


def sampled(functions, globals, entries=()):
    return document(types=[IMAGE, SAMPLER, VEC2], globals=globals, functions=functions, entries=entries)


def own_pair(n, body):
    """A function that samples one more sampler with the last image."""
    return function([["GlobalVariable", n + 1], ["GlobalVariable", n], ["ZeroValue", 2], sample(0, 1, 2)], body)


def scopeless(blocks, expressions):
    made = function([["Literal", "u32", 1]] + negations(expressions + 1), [["Block", [["Emit", 1, expressions + 1]]]] * blocks + [["Return", expressions + 1]])
    made[2] = [0, None]
    return document(functions=[made])


def nested(body, depth):
    for _ in range(depth):
        body = [["Block", body]]
    return body


def named(name, ty, space="Private"):
    return [name, space, None, ty, None, []]


# ---- pairs of images and samplers

@kind(500, held=True)
def shared_tables_many_callers(n):
    """Functions with a pair of their own, each of which calls one with many."""
    return sampled([pairs_of_globals(n)] + [own_pair(n, [call(0)])] * n, images_and_a_sampler(n) + [resource([2, 0], 0)])


@kind(500)
def pairs_own_and_shared(n):
    """A table that many functions share, and a function with a pair of its own that calls all of them."""
    return sampled([pairs_of_globals(n)] + [function(body=[call(0)])] * n + [own_pair(n, [call(at + 1) for at in range(n)])],
                   images_and_a_sampler(n) + [resource([2, 0], 0)])


@kind(500)
def calls_of_one_table(n):
    """A function with a pair of its own that calls one with many pairs again and again."""
    return sampled([pairs_of_globals(n), own_pair(n, [call(0)] * (20 * n))], images_and_a_sampler(n) + [resource([2, 0], 0)])


@kind(2000)
def pairs_from_the_last(n):
    """Pairs whose numbers fall."""
    made = function(uses(n + 1) + [["ZeroValue", 2]] + [sample(n - 1 - at, n, n + 1) for at in range(n)])
    return sampled([made] + [own_pair(n, [call(0)])] * 4, images_and_a_sampler(n) + [resource([2, 0], 0)])


@kind(2000)
def pairs_far_apart(n):
    """Pairs whose numbers differ in their last bits alone."""
    images = [resource([0, at], 0) for at in range(n)]
    made = function([["GlobalVariable", at ^ 1] for at in range(n)] + [["GlobalVariable", n], ["ZeroValue", 2]] + [sample(at, n, n + 1) for at in range(n)])
    return sampled([made] + [function(body=[call(0)])] * 8, images + [resource([1, 0], 1)])


@kind(300)
def one_table_two_arguments(n):
    """Calls that pass one of two images in turn to a function with many pairs."""
    first = samples_its_arguments(20)
    calls = [call(0, [at % 2] * 20 + [2]) for at in range(n)]
    return sampled([first], [resource([0, 0], 0), resource([0, 1], 0), resource([1, 0], 1)], [entry("m", "Fragment", expressions=uses(3), body=calls)])


# ---- chains, types, entry points

@kind(2000)
def stores_through_chain(n):
    """One chain of accesses, and stores through its end."""
    chain = uses(1) + [["AccessIndex", at, 0] for at in range(n)] + [["Literal", "u32", 1]]
    return document(types=[U32] + [array_of(at) for at in range(n)], globals=[buffer(0, n)],
                    entries=[entry(expressions=chain, body=[["Emit", 1, n + 1]] + [["Store", n, n + 1]] * (2 * n))])


@kind(2000, "--explain")
def stores_through_chain_of_a_literal(n):
    """The same where the chain begins at nothing that is stored to."""
    chain = [["ZeroValue", n]] + [["AccessIndex", at, 0] for at in range(n)] + [["Literal", "u32", 1]]
    return document(types=[U32] + [array_of(at) for at in range(n)], entries=[entry(expressions=chain, body=[["Emit", 1, n + 1]] + [["Store", n, n + 1]] * (2 * n))])


@kind(5000, held=True)
def entries_use_none(n):
    """Entry points and global variables that nothing uses."""
    return document(globals=[buffer(at, 0) for at in range(n)], entries=[entry("e%d" % at) for at in range(n)])


@kind(7000)
def deep_private(n):
    """A private variable of arrays of one another."""
    return document(types=[U32] + [array_of(at) for at in range(n)], globals=[named("v", n)])


@kind(7000)
def deep_immediate(n):
    """Immediate data of structs in one another."""
    return document(types=[U32] + [struct([at]) for at in range(n)], globals=[named("v", n, "Immediate")], capabilities=["IMMEDIATES"])


@kind(7000)
def deep_workgroup(n):
    """A workgroup variable of structs in one another."""
    return document(types=[U32] + [struct([at]) for at in range(n)], globals=[named("v", n, "WorkGroup")])


@kind(7000)
def deep_zero_values(n):
    """Zero values of types in one another."""
    return document(types=[U32] + [struct([at]) for at in range(n)], functions=[function([["ZeroValue", at] for at in range(n)])])


# ---- reasons

@kind(2000, "--json", held=True)
def same_cases(n):
    """A switch, the last value twice."""
    cases = [[["I32", at], [], False] for at in range(n)] + [[["I32", n - 1], [], False], [["Default"], [], False]]
    return document(functions=[function([["Literal", "i32", 0]], [["Switch", 0, cases]])])


@kind(500, "--explain", held=True)
def out_of_scope_ranges(n):
    """Blocks that emit the same expressions, and a return of another."""
    return scopeless(n, n)


@kind(20000, "--explain")
def fault_at_the_end(n):
    """A long body whose last statement is at fault."""
    return document(functions=[function([["Literal", "u32", 1]], [["Block", []]] * n + [["Store", 0, 0]])])


@kind(20000, "--json")
def fault_in_the_last_function(n):
    """Many functions, the last at fault."""
    return document(functions=[function()] * n + [function([["Literal", "u32", 1]], [["Store", 0, 0]])])


@kind(5000, "--explain")
def fault_at_the_bottom(n):
    """The deepest body, at whose bottom is a long block with a fault."""
    return document(functions=[function([["Literal", "u32", 1]], nested([["Block", []]] * n + [["Store", 0, 0]], 50))])


@kind(200000, "--explain")
def long_name_of_what_is_refused(n):
    """A variable with a long name that is refused."""
    return document(types=[U32], globals=[["x" * n, "Handle", None, 0, None, []]])


@kind(200000, "--json")
def long_word(n):
    """A word that is none."""
    return document(flags=["X" * n])


@kind(100000, "--explain")
def long_number(n):
    """A number of many digits where a handle is wanted."""
    return ("%s" % json.dumps(document(functions=[function([["Unary", "Negate", 7777777]])]), separators=(",", ":"))).replace("7777777", "1" * n).encode()


@kind(5000, "--explain")
def wide_compose_refused(n):
    """A composition of many parts for a struct of one."""
    return document(types=[U32, struct([0])], functions=[function([["Literal", "u32", 1], ["Compose", 1, [0] * n]])])


@kind(7000, "--explain")
def deep_types_refused(n):
    """Types in one another, and a uniform buffer whose layout is refused."""
    return document(types=[U32] + [array_of(at) for at in range(n)], globals=[buffer(0, n, uniform=True)])


@kind(7000, "--names")
def deep_types_named(n):
    return document(types=[U32] + [[("t%d" % at), ["Struct", [["m", at, None, 0]], 4]] for at in range(n)], globals=[buffer(0, n)])


@kind(50000, "--json")
def no_json(n):
    return b"[1," + b"[[]]," * n


@kind(50000, "--explain")
def deep_json(n):
    return b"[" * n


# ---- reports and listings

@kind(200, "--json", held=True)
def entries_of_tables(n):
    """Entry points over a table of pairs: the report has a line for each of both."""
    return sampled([pairs_of_globals(n)], images_and_a_sampler(n), [entry("e%d" % at, "Fragment", body=[call(0)]) for at in range(n)])


@kind(5000, "--json", held=True)
def buffers_reported(n):
    return document(types=[U32], globals=[buffer(at, 0) for at in range(n)])


@kind(100, "--json")
def long_names_reported(n):
    """Variables and entry points with long names."""
    return document(types=[U32], globals=[["g" * (50 * n) + str(at), "Private", None, 0, None, []] for at in range(n)], entries=[entry("e" * (50 * n) + str(at)) for at in range(n)])


@kind(7000, "--leaves")
def leaves_deep_arrays(n):
    return document(types=[U32] + [array_of(at) for at in range(n)], globals=[buffer(0, n)])


@kind(7000, "--leaves")
def leaves_deep_structs(n):
    return document(types=[U32] + [struct([at]) for at in range(n)], globals=[buffer(0, n)])


@kind(100000000, "--leaves")
def leaves_array(n):
    return document(types=[U32, array_of(0, n)], globals=[buffer(0, 1)])


@kind(100, "--leaves")
def leaves_named(n):
    """Long names of structs in one another, two leaves each."""
    types = [U32] + [[None, ["Struct", [["x" * n, at, None, 0], ["y" * n, 0, None, 4 * at + 4]], 4 * at + 8]] for at in range(n)]
    return document(types=types, globals=[buffer(0, n)])


@kind(5000, "--leaves")
def leaves_of_a_wide_struct(n):
    return document(types=[U32, struct([0] * n)], globals=[buffer(0, 1)])


@kind(26, "--leaves", held=True)
def leaves_doubled(n):
    """Structs that have the one before twice: more leaves than a listing may have."""
    types = [U32]
    for at in range(min(n, 28)):
        types.append([None, ["Struct", [["a", at, None, 0], ["b", at, None, 4 << at]], 8 << at]])
    return document(types=types, globals=[buffer(0, len(types) - 1)])


@kind(200, "--leaves")
def leaves_of_arrays_in_arrays(n):
    """As many arrays of two elements in one another as fit, of a struct of many members."""
    types, span = [U32, struct([0] * n)], 4 * n
    for at in range(8):
        types.append(array_of(1 + at, 2, span << at))
    return document(types=types, globals=[buffer(0, len(types) - 1)])


@kind(500, "--leaves")
def leaves_of_many_buffers(n):
    return document(types=[U32, struct([0] * 20)], globals=[buffer(at, 1) for at in range(n)])


@kind(2000, "--leaves", "--names")
def leaves_with_names(n):
    return document(types=[U32, struct([0] * 8), array_of(1, 1000, 32)], globals=[buffer(at, 2) for at in range(n)])


# ---- modules of SPIR-V

of_module("nested_ifs", 60)
of_module("nested_ifs", 60, "--explain")
of_module("nested_ifs", 60, "--json")
of_module("nested_ifs", 60, "--document")
of_module("deep_types", 4000)
of_module("deep_types", 4000, "--explain")
of_module("deep_types", 4000, "--leaves")
of_module("deep_types", 4000, "--document")
of_module("wide_struct", 4000, "--leaves")
of_module("long_switch", 4000, "--json")
of_module("doubled", 2000)
of_module("inserts", 2000)
of_module("inserts", 2000, "--explain")
of_module("clusters", 2000)
of_module("clusters", 2000, "--json")
of_module("arrays_as_arguments", 2000, "--explain")
of_module("copies", 2000, "--explain")
of_module("chained_calls", 2000, "--explain")
of_module("many_entries", 500, "--json", held=True)
of_module("components", 2000, "--explain")
of_module("packed_matrices", 2000, "--leaves")
of_module("buffers_of_a_struct", 500, "--leaves")
of_module("blocks_of_a_struct", 500, "--json")


def data_of(make, n):
    made = make(n)
    return made if isinstance(made, bytes) else json.dumps(made, separators=(",", ":")).encode()


def run(program, words, data):
    """Seconds of a processor, bytes of memory, bytes written and the status."""
    limited = ["sh", "-c", f'ulimit -s {STACK >> 10}; ulimit -v {MEMORY >> 10}; ulimit -t {SECONDS}; exec "$@"', "sh", program, *words]
    with tempfile.TemporaryFile() as given_to:
        given_to.write(data)
        given_to.seek(0)
        child = subprocess.Popen(limited, stdin=given_to, stdout=subprocess.PIPE, stderr=subprocess.DEVNULL)
        written = 0
        while part := child.stdout.read(1 << 20):
            written += len(part)
        _, status, used = os.wait4(child.pid, 0)
        child.returncode = os.waitstatus_to_exitcode(status)
    return used.ru_utime, used.ru_maxrss * 1024, written, child.returncode


def read_alone(data):
    begin = time.process_time()
    try:
        json.loads(data)
    except (ValueError, RecursionError):
        pass
    return max(time.process_time() - begin, .002)


def faults(rows, is_module):
    """What a kind takes too much of."""
    (first_size, first, *_), (size, seconds, alone, memory, written, status) = rows[0], rows[-1]
    if status not in (0, 1, 2, 3):
        yield f"ended by {status}"
    if seconds > BASE_SECONDS and seconds / max(first, BASE_SECONDS / 4) > MOST_GROWTH * size / first_size / 4:
        yield "grows faster than its bytes"
    if not is_module and seconds > max(MOST_TIMES * alone, BASE_SECONDS):
        yield f"{seconds / alone:.0f} times the JSON reader"
    if memory > BASE_MEMORY + (MOST_OF_MODULES if is_module else MOST_MEMORY) * size:
        yield f"{memory / size:.0f} bytes a byte"
    if written > BASE_WRITTEN + MOST_WRITTEN * size:
        yield f"{written / size:.0f} bytes written a byte"


def main():
    program, missed = sys.argv[1], []
    for name in sys.argv[2:] or KINDS:
        make, n, words = KINDS[name]
        is_module, rows = "--spirv" in words, []
        for number in (n, 2 * n, 4 * n):
            data = data_of(make, number)
            seconds, memory, written, status = run(program, words, data)
            alone = 0 if is_module else read_alone(data)
            rows.append((len(data), seconds, alone, memory, written, status))
            beside = f"{4e6 * seconds / len(data):6.2f} us a word" if is_module else f"{seconds / alone:6.1f} readers"
            print(f"{name:36} {number:>9} {len(data):>9} B {seconds:6.2f} s {beside} {memory / len(data):7.0f} B/B {written:>9} written, status {status}", flush=True)
            if status not in (0, 1, 2, 3):
                break
        found = list(faults(rows, is_module))
        if found and name not in HELD:
            missed.append(f"{name}: {'; '.join(found)}")
    print(f"{len(sys.argv[2:] or KINDS)} kinds, {len(missed)} fall short", *missed, sep="\n")
    return 1 if missed else 0


if __name__ == "__main__":
    sys.exit(main())

#!/usr/bin/env python3
"""Times the program on modules of SPIR-V beside spirv-val, in turns.

spirv_speed.py PROGRAM FOLDER [LARGEST] [RUNS]: the LARGEST (10) modules of the FOLDER (*.spv) that are read, and chains of 500 to
4000 functions of which each calls the one before it, and forks of which each calls the two before it. The least processor seconds
of RUNS (5).
"""
import pathlib
import resource
import subprocess
import sys
import tempfile

from spirv_hostile import Module, text


def module_of(count, made):
    """A fragment shader of functions over one number, each made of its index and the functions before it."""
    m = Module()
    main, given, result = m.id(), m.id(), m.id()
    m.op(17, 1)
    m.op(14, 0, 1)
    m.op(15, 4, main, *text("main"), given, result)
    m.op(16, main, 7)
    m.op(71, given, 30, 0)
    m.op(71, result, 30, 0)
    void = m.plain(19)
    entry = m.plain(33, void)
    number = m.plain(22, 32)
    truth = m.plain(20)
    function = m.plain(33, number, number)
    taken, put = m.plain(32, 1, number), m.plain(32, 3, number)
    half = m.typed(43, number, 0x3F000000)
    m.op(59, taken, given, 1)
    m.op(59, put, result, 3)
    functions = []
    for at in range(count):
        this = m.id()
        m.op(54, number, this, 0, function)
        x = m.typed(55, number)
        m.plain(248)
        made(m, number, truth, half, x, functions[-2:])
        m.op(56)
        functions.append(this)
    m.op(54, void, main, 0, entry)
    m.plain(248)
    value = m.typed(61, number, given)
    m.op(62, result, m.typed(57, number, functions[-1], value))
    m.op(253)
    m.op(56)
    return m.bytes()


def chain(m, number, truth, half, x, before):
    """Each calls the one before it in a branch."""
    if not before:
        m.op(254, x)
        return
    inner, merge = m.id(), m.id()
    condition = m.typed(186, truth, x, half)
    m.op(247, merge, 0)
    m.op(250, condition, inner, merge)
    m.op(248, inner)
    m.op(254, m.typed(57, number, before[-1], m.typed(133, number, x, half)))
    m.op(248, merge)
    m.op(254, x)


def forks(m, number, truth, half, x, before):
    """Each calls the two before it."""
    sum_ = x
    for each in before:
        sum_ = m.typed(129, number, sum_, m.typed(57, number, each, x))
    m.op(254, sum_)


def spent():
    used = resource.getrusage(resource.RUSAGE_CHILDREN)
    return used.ru_utime + used.ru_stime


def run(words, data):
    before = spent()
    status = subprocess.run(words, input=data, capture_output=True).returncode
    return spent() - before, status


def compare(program, file, runs):
    """The least seconds of both, and how both end."""
    data, ours, theirs = file.read_bytes(), [], []
    for _ in range(runs):
        ours.append(run([program, "--spirv", "--verdict"], data))
        theirs.append(run(["spirv-val", "--target-env", "vulkan1.2", file], b""))
    return min(ours), min(theirs), len(data)


def report(name, program, file, runs):
    (ours, status), (theirs, other), size = compare(program, file, runs)
    print("| `%s` | %d | %.3f s (%d) | %.3f s (%d) | %.2f |" % (name, size, ours, status, theirs, other, ours / max(theirs, 0.001)), flush=True)


def main():
    program, folder = sys.argv[1], pathlib.Path(sys.argv[2])
    largest = int(sys.argv[3]) if len(sys.argv) > 3 else 10
    runs = int(sys.argv[4]) if len(sys.argv) > 4 else 5
    print("| module | bytes | shader-check (status) | spirv-val (status) | ratio |\n|---|---|---|---|---|")
    files = sorted(folder.glob("*.spv"), key=lambda file: -file.stat().st_size)
    read = [file for file in files[: 6 * largest] if run([program, "--spirv", "--verdict"], file.read_bytes())[1] != 3]
    for file in read[:largest]:
        report(file.stem, program, file, runs)
    with tempfile.TemporaryDirectory() as room:
        for made in (chain, forks):
            for count in (500, 1000, 2000, 4000):
                file = pathlib.Path(room, "made.spv")
                file.write_bytes(module_of(count, made))
                report("%s of %d" % (made.__name__, count), program, file, runs if count < 2000 else 2)


if __name__ == "__main__":
    main()

#!/usr/bin/env python3
"""Modules with one mistake, judged beside spirv-val: spirv_rules.py PROGRAM [FOLDER]   (examples/spirv)

Of each module of the folder that spirv-val accepts, one module for each decoration that is taken away, for each instruction whose
opcode, type of its result or operand is another one. PROGRAM judges each, and spirv-val those that it accepts. Prints by kind
how many are not accepted, accepted by both, and accepted though spirv-val refuses them, with the first of these.
"""
import collections
import concurrent.futures
import pathlib
import struct
import subprocess
import sys
import tempfile

TOP = pathlib.Path(__file__).resolve().parent.parent
VALIDATE = ["spirv-val", "--target-env", "vulkan1.3", "--scalar-block-layout"]
DECORATIONS = {
    1: "SpecId", 2: "Block", 3: "BufferBlock", 4: "RowMajor", 5: "ColMajor", 6: "ArrayStride", 7: "MatrixStride", 11: "BuiltIn", 14: "Flat",
    24: "NonWritable", 25: "NonReadable", 30: "Location", 31: "Component", 32: "Index", 33: "Binding", 34: "DescriptorSet", 35: "Offset",
    5271: "PerPrimitiveEXT",
}
DECORATE, MEMBER_DECORATE, STORE = 71, 72, 62
# opcodes of one form, of integers and of floats
OTHER = {128: 129, 130: 131, 132: 133, 170: 180, 177: 184, 135: 136, 126: 127, 111: 110, 164: 170}
OTHER.update({b: a for a, b in OTHER.items()})
# instructions with a result whose type is changed, and those whose operands are
TYPED = (12, 61, 65, 79, 81, 87, 128, 129, 130, 131, 132, 133, 142, 145, 169)
OPERANDS = (62, 128, 129, 130, 131, 132, 133)
SCALARS = (20, 21, 22, 23)
VALUES = (43, 61, 81, 128, 129)


def instructions(words):
    at = 5
    while at < len(words):
        count = words[at] >> 16
        yield at, count, words[at] & 0xffff
        at += count


def changed(words, at, word):
    return words[:at] + [word] + words[at + 1:]


def mutants(words):
    """Each module with one mistake, with its kind."""
    types = [words[at + 1] for at, _, opcode in instructions(words) if opcode in SCALARS][:4]
    values = [(at, words[at + 2]) for at, _, opcode in instructions(words) if opcode in VALUES]
    for at, count, opcode in instructions(words):
        if opcode in (DECORATE, MEMBER_DECORATE):
            number = words[at + (2 if opcode == DECORATE else 3)]
            yield "without " + DECORATIONS.get(number, str(number)), words[:at] + words[at + count:]
        if opcode in OTHER:
            yield "another opcode", changed(words, at, count << 16 | OTHER[opcode])
        if opcode in TYPED:
            yield from (("another type of the result", changed(words, at + 1, ty)) for ty in types if ty != words[at + 1])
        if opcode in OPERANDS:
            first = at + (1 if opcode == STORE else 3)
            for place in range(first, min(first + 2, at + count)):
                for value in [value for there, value in values if there < at][:3]:
                    if value != words[place]:
                        yield "another operand", changed(words, place, value)


def is_valid(data, folder):
    with tempfile.NamedTemporaryFile(dir=folder, suffix=".spv") as file:
        file.write(data)
        file.flush()
        done = subprocess.run([*VALIDATE, file.name], capture_output=True, text=True)
    return done.returncode == 0, (done.stdout + done.stderr).strip().split("\n")[0]


def try_one(program, folder, kind, words):
    data = struct.pack("<%dI" % len(words), *words)
    if subprocess.run([program, "--spirv"], input=data, capture_output=True).returncode != 0:
        return kind, "not accepted", ""
    valid, why = is_valid(data, folder)
    return kind, "accepted by both" if valid else "accepted, and not valid", why


def main():
    program = sys.argv[1]
    files = sorted(pathlib.Path(sys.argv[2] if len(sys.argv) > 2 else TOP / "examples/spirv").glob("*.spv"))
    counts, first = collections.Counter(), {}
    with tempfile.TemporaryDirectory() as folder, concurrent.futures.ThreadPoolExecutor(3) as pool:
        jobs = []
        for file in files:
            data = file.read_bytes()
            if is_valid(data, folder)[0]:
                words = list(struct.unpack("<%dI" % (len(data) // 4), data))
                jobs += [(file.name, pool.submit(try_one, program, folder, *made)) for made in mutants(words)]
        for name, job in jobs:
            kind, found, why = job.result()
            counts[kind, found] += 1
            if found.endswith("not valid"):
                first.setdefault(kind, []).append("%s: %s" % (name, why))
    for (kind, found), count in sorted(counts.items()):
        print("%6d  %s: %s" % (count, kind, found))
    for kind, lines in first.items():
        print(kind)
        print("\n".join("    " + line for line in lines[:4]))


if __name__ == "__main__":
    main()

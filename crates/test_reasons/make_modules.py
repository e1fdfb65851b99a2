#!/usr/bin/env python3
"""Writes the end of stdin and of stdout: small texts and modules of the kinds that once crashed, and the smaller modules of examples/spirv.

The answers of the examples are their files `.answer`; those of the kinds stand here. With --check it writes nothing, and ends
with status 1 where the files are not as it writes them.
"""
import struct
import sys
from pathlib import Path

HERE = Path(__file__).resolve().parent
EXAMPLES = HERE.parent.parent / "examples/spirv"
MOST = 1_700
MARK = "==== types nested 256 deep --leaves\n"


def nested_types(depth):
    """A storage buffer whose types nest this deep: a number in a struct in a struct .."""
    text = "struct S0 { a: u32 }\n"
    for at in range(1, depth - 1):
        text += f"struct S{at} {{ a: S{at - 1} }}\n"
    return text + f"@group(0) @binding(0) var<storage> buffer: S{depth - 2};\n"


def else_ifs(count):
    """A function with a chain of else-ifs, this many ifs in all."""
    return "fn f(a: u32) {\n" + "    if a == 0 {\n    }" + "".join(f" else if a == {at} {{\n    }}" for at in range(1, count)) + "\n}\n"


def nested_ifs(count):
    """The words of a module with this many ifs, one inside of the other: 38 before the first, and 9 up to the inside of each."""
    words, true, main = [], 4, 5
    labels = [(10 + 2 * at, 11 + 2 * at) for at in range(count)]

    def op(code, *operands):
        words.append((len(operands) + 1) << 16 | code)
        words.extend(operands)

    op(17, 1)  # OpCapability Shader
    op(14, 0, 1)  # OpMemoryModel Logical GLSL450
    op(15, 5, main, *struct.unpack("<2I", b"main\0\0\0\0"))  # OpEntryPoint GLCompute
    op(16, main, 17, 1, 1, 1)  # OpExecutionMode LocalSize
    op(19, 1)  # OpTypeVoid
    op(33, 2, 1)  # OpTypeFunction
    op(20, 3)  # OpTypeBool
    op(41, 3, true)  # OpConstantTrue
    op(54, 1, main, 0, 2)  # OpFunction
    op(248, 6)  # OpLabel
    for inside, after in labels:
        op(247, after, 0)  # OpSelectionMerge
        op(250, true, inside, after)  # OpBranchConditional
        op(248, inside)
    for inside, after in reversed(labels):
        op(249, after)  # OpBranch
        op(248, after)
    op(253)  # OpReturn
    op(56)  # OpFunctionEnd
    return [0x07230203, 0x00010300, 0, 10 + 2 * count, 0, *words]


def lines_of(words):
    return "".join(" ".join(map(str, words[at: at + 12])) + "\n" for at in range(0, len(words), 12))


def parts():
    """Each part's line, what stands under it, and the answer."""
    yield "types nested 256 deep --leaves", nested_types(256), "out of memory\n"
    yield "types nested 255 deep --leaves", nested_types(255), "accepted\nbuffer 0 size 4 alignment 4\nleaf " + ".".join(["a"] * 254) + " 0 4 4\n"
    long = "struct Table { row: array<array<u32, 4>, 1000000>, last: u32 }\n@group(0) @binding(0) var<storage> table: Table;\n"
    yield "an array of a million rows --leaves", long, ("accepted\nbuffer 0 size 16000004 alignment 4\n"
                                                       "leaf row[0..1000000][0..4] 0 4 4 stride 16 stride 4\nleaf last 16000000 4 4\n")
    yield "a chain of 60 else-ifs", else_ifs(60), "accepted\n"
    yield "a chain of 61 else-ifs", else_ifs(61), "unsupported: blocks nested more than 60 deep at 62:12\n"
    yield "ifs nested 60 deep --spirv", lines_of(nested_ifs(60)), "accepted\nentry 0\n"
    yield "ifs nested 61 deep --spirv", lines_of(nested_ifs(61)), f"unsupported: control flow nested more than 60 deep at word {38 + 61 * 9}, 0x{4 * (38 + 61 * 9):08x}\n"
    scene = EXAMPLES / "laid_out_scene.spvasm.spv"
    words = struct.unpack(f"<{scene.stat().st_size // 4}I", scene.read_bytes())
    # by the decorations of the module
    yield "laid_out_scene.spvasm --spirv --leaves", lines_of(words), ("accepted\nbuffer 0 size 96 alignment 16\nleaf view 0 64 16\n"
                                                                     "leaf weights[0..4] 64 4 4 stride 4\nleaf sum 80 4 4\n")
    for file in sorted(EXAMPLES.glob("*.spv")):
        data = file.read_bytes()
        answer = file.with_suffix(".answer")
        if len(data) <= MOST and answer.exists():
            yield f"{file.stem} --spirv", lines_of(struct.unpack(f"<{len(data) // 4}I", data)), answer.read_text()


def main():
    made = list(parts())
    ends = {"stdin": "".join(f"==== {head}\n{under}" for head, under, _ in made),
            "stdout": "".join(f"==== {head}\n{answer}" for head, _, answer in made)}
    stale = 0
    for name, end in ends.items():
        text = (HERE / name).read_text()
        whole = text.split(MARK)[0] + end
        if "--check" in sys.argv[1:]:
            stale += whole != text
        else:
            (HERE / name).write_text(whole)
    return 1 if stale else 0


if __name__ == "__main__":
    sys.exit(main())

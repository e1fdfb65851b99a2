#!/usr/bin/env python3
"""Writes the cases of what is told of types, and of why they are refused: make_infos.py FOLDER [OUT] [--all].

FOLDER has two corpora. A line of type-infos.jsonl is an object with `name`, `document` and, for each type, `infos`: the
letters of its flags (DZCIHRAK), whether it lies in storage and in uniform buffers (null where no host lays it out) and in
immediate data. A line of module-checks.jsonl has `name`, `document`, `output`, what the whole program answers, and `fault`,
the one fault that stands where it refuses, or `one_of` where there are several. OUT is where the file of cases goes,
data/ beside this script where none is given. Without --all the documents are chosen for coverage.
"""
import json
import re
import sys
from pathlib import Path

from make_types import SCALARS, handle, image_class, space, truth

BITS = {letter: 1 << place for place, letter in enumerate("DZCIHRAK")}
CAPABILITIES = (
    "IMMEDIATES FLOAT64 SHADER_FLOAT16 SHADER_INT16 SHADER_INT64 PRIMITIVE_INDEX BUFFER_BINDING_ARRAY "
    "STORAGE_BUFFER_BINDING_ARRAY TEXTURE_AND_SAMPLER_BINDING_ARRAY STORAGE_TEXTURE_BINDING_ARRAY "
    "ACCELERATION_STRUCTURE_BINDING_ARRAY STORAGE_TEXTURE_16BIT_NORM_FORMATS CUBE_ARRAY_TEXTURES CLIP_DISTANCES "
    "CULL_DISTANCE MULTIVIEW EARLY_DEPTH_TEST MULTISAMPLED_SHADING DUAL_SOURCE_BLENDING SUBGROUP SUBGROUP_BARRIER "
    "SHADER_INT64_ATOMIC_MIN_MAX SHADER_INT64_ATOMIC_ALL_OPS SHADER_FLOAT32_ATOMIC TEXTURE_ATOMIC "
    "TEXTURE_INT64_ATOMIC TEXTURE_EXTERNAL RAY_QUERY RAY_HIT_VERTEX_POSITION RAY_TRACING_PIPELINE SHADER_BARYCENTRICS "
    "MESH_SHADER MESH_SHADER_POINT_TOPOLOGY PER_VERTEX DRAW_INDEX COOPERATIVE_MATRIX MEMORY_DECORATION_COHERENT "
    "MEMORY_DECORATION_VOLATILE").split()


def capability(word):
    return "Capabilities(%s)" % word


def info(answer):
    flags, storage, uniform, immediates = answer
    return "%d %d %d %d;" % (sum(BITS[f] for f in flags), storage is True, uniform is True, immediates)


def size(types, t):
    """How many bytes a value of a type takes."""
    inner = types[t][1]
    kind = inner[0]
    if kind in ("Scalar", "Atomic"):
        return SCALARS[inner[1]][1]
    if kind == "Vector":
        return inner[1] * SCALARS[inner[2]][1]
    if kind == "Matrix":
        width = SCALARS[inner[3]][1]
        step = width * (2 if inner[2] == 2 else 4)
        return inner[1] * (-(-inner[2] * width // step) * step)
    if kind == "CooperativeMatrix":
        return inner[1] * inner[2] * SCALARS[inner[3]][1]
    if kind == "Array":
        return (inner[2][1] if inner[2][0] == "Constant" else 1) * inner[3]
    if kind == "Struct":
        return inner[2]
    return 4 if kind in ("Pointer", "ValuePointer") else 0


def missing(inner, fault):
    """The capability that is named where several could be."""
    if "capability" in fault:
        return fault["capability"]
    return {"Atomic": "SHADER_INT64_ATOMIC_ALL_OPS", "AccelerationStructure": "RAY_QUERY"}[inner[0]]


def member_error(name, types, inner, place):
    _, ty, _, offset = inner[1][place]
    if name in ("InvalidData", "InvalidDynamicArray"):
        return "%s { index: %d, ty: %s }" % (name, place, handle(ty))
    if name == "MemberOverlap":
        return "%s { index: %d, offset: %d }" % (name, place, offset)
    return "%s { index: %d, offset: %d, size: %d, span: %d }" % (name, place, offset, size(types, ty), inner[2])


def error(types, t, fault):
    """Why a type is refused, as the program prints it."""
    inner, name = types[t][1], fault["name"]
    if name == "WidthError":
        width = fault["width"]
        return "WidthError(%s)" % (width if width == "Abstract" else "%s(%s)" % (width, capability(fault["capability"])))
    if name == "MissingCapability":
        return "%s(%s)" % (name, capability(missing(inner, fault)))
    if name in ("InvalidPointerBase", "InvalidArrayBaseType"):
        return "%s(%s)" % (name, handle(fault["base"]))
    if name == "InvalidPointerToUnsized":
        return "%s { base: %s, space: %s }" % (name, handle(fault["base"]), space(inner[2]))
    if name == "InvalidAtomicWidth":
        return "%s(%s, %d)" % ((name,) + SCALARS[inner[1]])
    if name == "UnsupportedImageType":
        return "%s { dim: %s, arrayed: %s, class: %s }" % (name, inner[1], truth(inner[2]), image_class(inner[3]))
    if "member" in fault:
        return member_error(name, types, inner, fault["member"])
    return name


def nameless(inner):
    """The error where the fault has no name of its own."""
    return "MissingCapability(%s)" % capability("DUAL_SOURCE_BLENDING") if inner[0] == "Struct" else "Other"


def placeless(answer):
    """An answer without the places of handles."""
    return re.sub(r"\[\d+\]", "[]", answer)


def told(case):
    """The answer that is expected where the types are reached, or None."""
    document, words = json.loads(case["document"]), case["output"].split()
    if words[0] == "accepted" or words[1] not in ("document", "handles", "layout", "type"):
        return "accepted"
    if words[1] != "type":
        return None
    if "one_of" in case:
        return "refused %s" % words[2]
    types, t = document[5], int(words[2])
    why = error(types, t, case["fault"]) if case.get("fault") else nameless(types[t][1])
    return "refused %d %s" % (t, why)


def lines(path):
    with open(path, encoding="utf-8") as file:
        return [json.loads(line) for line in file]


def asked(folder):
    """The cases: name, what is asked, document, answer, and what another may lack."""
    for case in lines(folder / "type-infos.jsonl"):
        answer = "".join(info(i) for i in case["infos"])
        kinds = [inner[0] for _, inner in json.loads(case["document"])[5]]
        yield case["name"], "infos", case["document"], answer, set(zip(kinds, answer.split(";")))
    for case in lines(folder / "module-checks.jsonl"):
        answer = told(case)
        if answer is not None:
            whole = answer.count(" ") > 1
            marks = {("refused", *placeless(answer).split()[2:4])} if whole else {(answer.split()[0],)}
            yield case["name"], "infos" if whole else "refused", case["document"], answer, marks


def chosen(found, everything):
    seen = set()
    for case in sorted(found, key=lambda c: len(c[2])):
        if everything or not case[4] <= seen:
            seen |= case[4]
            yield list(case[:4])


def main():
    places = [Path(word) for word in sys.argv[1:] if word != "--all"]
    out = places[1] if len(places) > 1 else Path(__file__).parent / "data"
    with open(out / "infos.jsonl", "w", encoding="utf-8") as file:
        for case in chosen(asked(places[0]), "--all" in sys.argv):
            file.write(json.dumps(case, ensure_ascii=False, separators=(",", ":")) + "\n")


if __name__ == "__main__":
    main()

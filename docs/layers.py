#!/usr/bin/env python3
"""Checks the layers: the order of crates.txt, and what the five crates that hand a layer on make public.

The order of the rows is the order of the layers: each row stands after those that it names, and names no crate of a higher
layer. It names the crates that the text of its own crate cites, and no others; and there are at most MOST_PATHS paths of rows from a
library to one beneath it, each of which `rt ci` walks twice. A layer is known by the first word of a crate's name (LAYERS). surface.txt has the names that each of the five crates is to hand on. Says what is wrong and which names are
missing, and ends with status 1 where there is something.
"""
import re
import sys
from functools import cache
from pathlib import Path

TOP = Path(__file__).resolve().parent.parent
CRATES = TOP / "crates"
# the layers, lowest first, each with the first words of its crates' names; definitions stand on the types that they speak of
LAYERS = [("ir",), ("typing", "spec", "judgement"), ("module",), ("function",), ("document",), ("spirv",), ("wgsl",),
          ("check", "checker", "editor", "shader"), ("test",)]
# a path costs 3 ms of each `rt ci`, in one thread
MOST_PATHS = 300_000
# crates that hand a layer on, and stand in it; and what knows of lines and columns, on which the reading of WGSL stands
DOORS = {"shader_ir": 0, "shader_typing": 1, "module_validator": 2, "function_validator": 3, "editor_text": 6, "shader_check": 7}


def rank(crate):
    if crate in DOORS:
        return DOORS[crate]
    word = crate.split("_")[0]
    return next((at for at, words in enumerate(LAYERS) if word in words), None)


@cache
def rows():
    """The crates in the order of their rows, each with those of this repository that it names."""
    found = {}
    for line in (TOP / "crates.txt").read_text().split("\n"):
        head, colon, deps = line.split("#")[0].partition(":")
        if colon:
            found[head.split()[0]] = deps.split()
    return {crate: [dep for dep in deps if (CRATES / dep).is_dir()] for crate, deps in found.items()}


def wrong_order():
    """What is wrong with the order of the rows."""
    seen, last = set(), 0
    for crate, deps in rows().items():
        own = rank(crate)
        if own is None:
            yield f"{crate}: its name begins with no layer"
            continue
        if own < last:
            yield f"{crate}: stands after a row of a higher layer"
        last = max(last, own)
        for dep in deps:
            if dep not in seen:
                yield f"{crate}: names {dep}, whose row stands after it"
            if (rank(dep) or 0) > own:
                yield f"{crate}: names {dep}, of a higher layer"
        seen.add(crate)


def cited(crate):
    """The crates that the text of a crate names: in paths of code, and in paths of definitions and proofs."""
    found = set()
    for folder in ("src", "specs", "proofs"):
        for file in (CRATES / crate / folder).glob("**/*"):
            if file.suffix in (".rt", ".antt"):
                text = file.read_text()
                for form in (r"\bRattle\.(\w+)", r"(?<![\w:])(\w+)::", r"^(?:pub )?use (\w+)"):
                    found |= set(re.findall(form, text, re.M))
    return found


def wrong_rows():
    """Which rows name less or more than what their crates cite."""
    for crate, deps in rows().items():
        names = (cited(crate) & rows().keys()) - {crate}
        if names - set(deps):
            yield f"{crate}: cites {', '.join(sorted(names - set(deps)))}, which its row does not name"
        if set(deps) - names:
            yield f"{crate}: its row names {', '.join(sorted(set(deps) - names))}, which it does not cite"


def too_many_paths():
    """Whether there are too many paths of rows from libraries to those beneath, with the libraries that have most."""
    paths = {}
    for crate, deps in rows().items():
        paths[crate] = 1 + sum(paths.get(dep, 0) for dep in deps)
    libraries = {crate: count for crate, count in paths.items() if (CRATES / crate / "src/lib.rt").is_file() and crate != "shader_check_c"}
    total = sum(libraries.values())
    if total > MOST_PATHS:
        most = sorted(libraries, key=libraries.get)[-3:]
        yield f"{total} paths of rows, most from {', '.join(most)}: let a crate hand on what it cites (`pub use`)"


def surface():
    """Of each crate and module of surface.txt the names that it is to hand on."""
    found, current = {}, None
    for line in (TOP / "docs/surface.txt").read_text().split("\n"):
        line = line.split("#")[0]
        if line and not line.startswith(" "):
            current = found.setdefault(line.strip(), [])
        elif line.strip():
            current += line.split()
    return found


def public(crate, module):
    """The names that a module of a crate makes public."""
    text = (CRATES / crate / f"src/{module}.rt").read_text()
    names = set(re.findall(r"^pub (?:const )?(?:fn|struct|enum|trait|type|const) (\w+)", text, re.M))
    for path in re.findall(r"^pub use (.*?);", text, re.M | re.S):
        inside = re.search(r"\{(.*)\}", path, re.S)
        parts = inside[1].split(",") if inside else [path.split("::")[-1]]
        names |= {part.strip().split(" as ")[-1] for part in parts if part.strip()}
    return names


@cache
def below(crate):
    """The crate and those beneath it."""
    found = {crate}
    for dep in rows()[crate]:
        found |= below(dep)
    return found


@cache
def blocks(crate):
    """Of each type and trait of the crate's sources the text of its declaration and of its impls."""
    found = {}
    for file in sorted((CRATES / crate / "src").glob("**/*.rt")):
        for head, body in re.findall(r"^((?:pub )?(?:impl|trait|enum|struct|bitflags)\b[^{;]*)\{(.*?)^\}", file.read_text(), re.M | re.S):
            for name in set(re.findall(r"\w+", head)):
                found[name] = found.get(name, "") + body
    return found


def has_member(crate, name, member):
    """Whether some crate beneath declares a member of the type or of the trait that adds to it."""
    declared = re.compile(rf"\b(?:fn|const) {member}\b|^\s+{member}\b[,({{ ]", re.M)
    return any(declared.search(blocks(it).get(owner, "")) for it in below(crate) for owner in (name, f"{name}Ext"))


def missing(crate, module, names):
    handed = public(crate, module)
    for name in names:
        owner, _, member = name.partition("::")
        # a method of a type of another layer comes with that layer or with the trait that adds it
        if member and not has_member(crate, owner, member) or not member and name not in handed:
            yield name


def main():
    status = 0
    for line in (*wrong_order(), *wrong_rows(), *too_many_paths()):
        print(line)
        status = 1
    for key, names in surface().items():
        crate, _, module = key.partition(" ")
        lacks = list(missing(crate, module or "lib", names))
        print(f"{key}: {len(names) - len(lacks)} of {len(names)} names")
        if lacks:
            print(f"    missing: {' '.join(lacks)}")
            status = 1
    return status


if __name__ == "__main__":
    sys.exit(main())

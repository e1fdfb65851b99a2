#!/usr/bin/env python3
"""Writes CALLING.md of the crates that others build on: a proved caller, and the contracts of the calls that it makes.

All of it is quoted from the sources, so that no clause is written twice by hand. A page has at most MOST lines. With --check it
writes nothing, says which pages are not as they would be written, and ends with status 1 where there is one.
"""
import re
import sys
from pathlib import Path

TOP = Path(__file__).resolve().parent.parent
CRATES = TOP / "crates"
MOST = 120

# a page: its crate, what it is for, the caller as (file, first lines of its functions), the calls that it makes as
# (crate, Owner::name), and further callers as (sentence, file, first lines)
PAGES = [
    ("check_ports", "Readers and writers with a mark that failed calls leave.",
     ("checker/src/main.rt", ["fn judge("]),
     [("check_ports", "Source::new"), ("check_ports", "Source::take_all"), ("check_ports", "Sink::new"),
      ("check_ports", "Sink::write_all")]),
    ("shader_ir", "The representation of a shader module: arenas, types, expressions, blocks, items.",
     ("test_cases/src/built.rt", ["fn store_one(", "fn declare("]),
     [("ir_items", "Module::new"), ("ir_sets", "UniqueArena::insert"), ("ir_arena", "Arena::append"), ("ir_blocks", "Block::push")]),
    ("shader_typing", "Layouts, the kinds and types of expressions, overload sets, and what is kept of a function.",
     ("test_calls/src/overload_alone.rt", ["fn supplied(", "fn rules_left("]),
     [("typing_overloads", "MathFunctionExt::overloads"), ("typing_overloads", "OverloadSet::arg"),
      ("typing_overloads", "OverloadSet::overload_list")]),
    ("module_validator", "The check of a module up to its overrides, and what is kept of it.",
     ("test_layers/src/judged.rt", ["pub fn is_accepted<", "pub fn accepts_items("]),
     [("module_steps", "ModuleValidator::new"), ("module_steps", "ModuleValidator::validate")]),
    ("function_validator", "The check of functions, entry points and whole modules, over any layer beneath.",
     ("test_layers/src/judged.rt", ["pub fn is_accepted<", "pub fn accepts("]),
     [("typing_infos", "ModuleInfo::new"), ("function_modules", "RealLower::new"), ("function_modules", "Validator::new"),
      ("function_modules", "Validator::validate"), ("function_modules", "made_for_accepted"),
      ("function_modules", "entries_are_ready")],
     ("A caller that goes layer by layer", "test_layers/src/single.rt", ["pub fn accepts_entry("])),
    ("document_reader", "From bytes to a document.",
     ("test_items/src/modules.rt", ["pub fn document_of("]),
     [("document_reader", "read_document"), ("document_reader", "take_document"), ("document_reader", "Document::into_module")]),
    ("shader_check", "The check of a document, from a reader to a writer.",
     ("checker/src/main.rt", ["fn judge("]),
     [("shader_check", "check_document"), ("shader_check", "outcome"), ("shader_check", "judge_document")]),
]


def sources(crate):
    return sorted((CRATES / crate / "src").glob("**/*.rt"))


def signature(lines, start):
    """The lines of a function's signature and contract, from its first line on."""
    taken = []
    for line in lines[start:]:
        bare = line.strip()
        if bare == "{" or bare == "{}":
            break
        clause = "".join(taken) + line
        is_inside = clause.count("{") > clause.count("}")
        if bare.endswith(";") and not bare.startswith("//") and not is_inside:
            taken.append(line.rstrip(";"))
            break
        if bare.endswith("{") and "{ " not in bare:
            taken.append(line[: line.rindex("{")].rstrip())
            break
        taken.append(line)
    indent = min(len(line) - len(line.lstrip()) for line in taken if line.strip())
    return [line[indent:] for line in taken]


def doc_above(lines, start):
    doc = []
    for line in reversed(lines[:start]):
        bare = line.strip()
        if bare.startswith("///"):
            doc.append(bare[3:].strip())
        elif not bare.startswith("#["):
            break
    return list(reversed(doc))


def owner_of(line):
    """The type or trait that a block is of, and whether it is a trait; None for the impl of a trait."""
    trait = re.match(r"pub trait (\w+)", line)
    if trait:
        return trait.group(1), True
    if re.match(r"impl\b.* for ", line) and not re.match(r"impl<[^>]*for<", line):
        return None, False
    block = re.match(r"impl(?:<.*?>)? (\w+)", line)
    return (block.group(1), False) if block else (None, False)


def contracts(crate):
    """Of each public call of the crate by its name, with its owner where it has one: doc and signature."""
    found = {}
    for path in sources(crate):
        lines = path.read_text().split("\n")
        owner = None
        for number, line in enumerate(lines):
            if re.match(r"(impl|pub trait)\b", line):
                owner, _ = owner_of(line)
            elif line == "}":
                owner = None
            function = re.match(r"(    )?(?:pub )?(?:const )?fn (\w+)", line)
            if function and not (function[1] and not owner):
                name = f"{owner}::{function[2]}" if function[1] else function[2]
                found.setdefault(name, (doc_above(lines, number), signature(lines, number)))
    return found


def function(file, first):
    """The lines of a function of a file."""
    lines = (CRATES / file).read_text().rstrip("\n").split("\n")
    start = next(n for n, line in enumerate(lines) if line.startswith(first))
    end = next(n for n in range(start, len(lines)) if lines[n] == "}")
    return lines[start: end + 1]


def quoted(sentence, file, firsts):
    """A caller as it stands in its file."""
    out = [f"{sentence}, of `crates/{file}`, which is proved:", "", "```rust"]
    for at, first in enumerate(firsts):
        out += ([""] if at else []) + function(file, first)
    return [*out, "```", ""]


def page(crate, purpose, caller, calls, *more):
    out = [f"# Calling `{crate}`", "", purpose + " Written by `docs/calling.py` from the sources; the words of the clauses are "
           "defined in each crate's `specs/`, and [THEOREMS.md](../../docs/THEOREMS.md) has the other calls.", ""]
    for callers in [("A caller", *caller), *more]:
        out += quoted(*callers)
    for part, name in calls:
        doc, text = contracts(part)[name]
        first = " ".join(doc).split("# Errors")[0].strip()
        out += [f"`{name}` of `{part}`: {first}", "", "```text", *text, "```", ""]
    return "\n".join(out)


def main():
    stale = 0
    for crate, *parts in PAGES:
        path = CRATES / crate / "CALLING.md"
        text = page(crate, *parts)
        if text.count("\n") > MOST:
            print(f"{path.relative_to(TOP)} has {text.count(chr(10))} lines")
            stale += 1
        if "--check" in sys.argv[1:]:
            if not path.exists() or path.read_text() != text:
                print(f"{path.relative_to(TOP)} is not as docs/calling.py writes it")
                stale += 1
        else:
            path.write_text(text)
    return 1 if stale else 0


if __name__ == "__main__":
    sys.exit(main())

#!/usr/bin/env python3
"""Checks the table of THEOREMS.md of the public calls that can be refused memory, and the list of those that change nothing.

Such a call is a public function, or a method of a public type or trait, of the crates that others build on, whose `Result` has
memory in its error. Says which calls both lack and which rows are of none, and ends with status 1 where there is one.
With --list it prints the calls, each with its file and the labels of its clauses on `Err`.
"""
import re
import sys
from pathlib import Path

TOP = Path(__file__).resolve().parent.parent
CRATES = TOP / "crates"
# the crates that others build on: what their lib.rt hands on is public
FRONT = ["shader_ir", "shader_typing", "module_handles", "module_constants", "module_expressions", "module_steps", "module_validator",
         "function_interface", "function_whole", "function_validator", "document_reader", "judgement_report", "check_ports", "shader_check"]
HEADING = "## What a refusal of memory leaves"
# an error that holds memory, beside those enums that name it in a variant
MEMORY = {"AllocError", "AllocFailed", "Refusal"}


def sources(crate):
    return sorted((CRATES / crate / "src").glob("**/*.rt"))


def handed_on(crate):
    """The names that a crate's lib.rt makes public, each with the crate that it comes from."""
    names = {}
    text = (CRATES / crate / "src/lib.rt").read_text()
    for path in re.findall(r"^pub use (.*?);", text, re.M | re.S):
        path = re.sub(r"\s+", " ", path)
        head, _, inside = path.partition("{")
        parts = inside.rstrip("} ").split(",") if inside else [path.rsplit("::", 1)[-1]]
        root = path.split("::")[0].strip()
        for part in parts:
            name = part.strip().split(" as ")[-1].split("::")[-1]
            if name:
                names[name] = root if (CRATES / root).is_dir() else crate
    return names


def holds_memory():
    found = set(MEMORY)
    for file in CRATES.glob("*/src/**/*.rt"):
        for name, body in re.findall(r"pub enum (\w+)[^{]*\{(.*?)\n\}", file.read_text(), re.S):
            if re.search(r"\bAllocError\b|^    Memory\b", body, re.M):
                found.add(name)
    return found


def heads(file):
    """Each public function of a file: the type or trait that it is of, its name and its text up to the body."""
    lines, owner = file.read_text().split("\n"), None
    for at, line in enumerate(lines):
        block = re.match(r"(?:impl|pub trait)\b(?:<.*?>(?= ))? ?(.*)", line)
        if block:
            whole = re.sub(r"<[^<>]*(?:<[^<>]*>[^<>]*)*>", "", block.group(1))
            owner = re.split(r"[ :{]", whole.split(" for ")[-1].strip())[0]
            is_trait = line.startswith("pub trait") or " for " in whole
        elif re.match(r"\S", line) and not line.startswith(("//", "}", "#", ")")):
            owner = None
        found = re.match(r"( *)(pub )?fn (\w+)", line)
        if not found or not (found.group(2) or (owner and is_trait and found.group(1))):
            continue
        taken = []
        for more in lines[at:]:
            if more.strip() in ("{", "{}"):
                break
            taken.append(more)
            if more.rstrip().endswith(("{", ";")) and "{ " not in more:
                break
        yield owner if found.group(1) else None, found.group(3), "\n".join(taken)


def calls():
    memory, seen = holds_memory(), {}
    public = {}
    for crate in FRONT:
        for name, home in handed_on(crate).items():
            public.setdefault(name, set()).add(home)
    # of the forms of a document only parts of its error are handed on
    homes = ({home for all_ in public.values() for home in all_} | set(FRONT)) - {"document_forms"}
    # a name that is handed on through a crate in between is defined in one of those beneath it
    for crate in sorted(p.name for p in CRATES.iterdir() if (p / "src/lib.rt").exists()):
        for file in sources(crate):
            for owner, name, text in heads(file):
                top = owner or name
                if top not in public or not (crate in public[top] or crate.startswith("ir_") or crate in homes):
                    continue
                result = re.search(r"->\s*(.*?)(?=\n\s*(?:requires|ensures)|\s*\{$|;?$)", text, re.S)
                if not result or "Result<" not in result.group(1):
                    continue
                error = re.sub(r"\s+", " ", result.group(1))
                if not any(re.search(rf"\b{it}\b", error) for it in memory):
                    continue
                clauses = re.findall(r"ensures\*? ?(\w*) ?\{([^\n]*)", text)
                on_err = [label or "(ensures)" for label, clause in clauses if re.search(r"OnErr|IfErr|MatchResult|Result", clause)]
                every = [label or "(ensures)" for label, clause in clauses if "result" not in clause.lower()]
                seen.setdefault(f"{owner}::{name}" if owner else name, (str(file.relative_to(TOP)), on_err, every))
    return seen


def rows():
    """The calls of the table, and those of refusals.txt."""
    text = (TOP / "docs/THEOREMS.md").read_text()
    part = text.split(HEADING, 1)[1].split("\n## ", 1)[0]
    listed = {name for line in part.split("\n") if line.startswith("| `") for name in re.findall(r"`([^`]+)`", line.split("|")[1])}
    for line in (TOP / "docs/refusals.txt").read_text().split("\n"):
        if line.startswith(" "):
            listed |= set(line.split())
    return listed


def main():
    found = calls()
    if "--list" in sys.argv[1:]:
        for name, (file, on_err, every) in sorted(found.items(), key=lambda it: (it[1][0], it[0])):
            print(f"{name}  {file}  on Err: {' '.join(on_err)}  always: {' '.join(every)}")
        return 0
    listed = rows()
    for name in sorted(set(found) - listed):
        print(f"not listed: {name} ({found[name][0]})")
    for name in sorted(listed - set(found)):
        print(f"no such call: {name}")
    print(f"{len(found)} calls, {len(listed)} listed")
    return 1 if set(found) ^ listed else 0


if __name__ == "__main__":
    sys.exit(main())

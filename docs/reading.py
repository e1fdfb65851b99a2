#!/usr/bin/env python3
"""Writes READING.md: which definitions the theorem rests on, in the order in which to read them.

It begins at the names below, and goes from each definition to those that it cites, as its file imports them. With --check it
writes nothing, and ends with status 1 where the page is not as it would be written, where two of the definitions have one
name, or where JUDGEMENT.md cites a name that nothing has.
"""
import re
import sys
from pathlib import Path

TOP = Path(__file__).resolve().parent.parent
CRATES = TOP / "crates"
PAGE = TOP / "docs/READING.md"
PROSE = TOP / "docs/JUDGEMENT.md"
# where a reader begins: the definitions that the contract of `check_document` cites
ROOTS = [("What is written", "IsExpected"), ("What is promised of what is accepted", "SoundText"),
         ("What a verdict says of the bytes that were read and written", "Answers"), ("The same in calls", "AnswersInCalls"),
         ("What a failed write leaves", "BreaksOff"), ("The same in calls", "BreaksOffInCalls"),
         ("A failed read, in calls", "check_ports.Source.ReadingFails"), ("Status and message", "status_of"), ("The message", "message_of")]
FIRST = ("shader_check", "judged.Theorem")
HEAD = re.compile(r"^(\s*)(?:(?:abbrev|unfoldable|opaque)\s+)*(?:pub\s+)?(record|data)\s+([^\s({:]+)"
                  r"|^(\s*)(?:(?:abbrev|unfoldable|opaque)\s+)*pub\s+([^\s({:]+)[^:=]*:"
                  r"|^(\s*)(?:abbrev|unfoldable|opaque)\s+([^\s({:]+)[^:=]*:")


class File:
    """A file of definitions: what it imports, and the lines of each definition."""

    def __init__(self, crate, module, text):
        self.crate, self.module = crate, module
        self.names, self.aliases = {}, {}
        self.bodies, self.constructors = {}, {}
        self.imports(text)
        self.definitions(text)

    def imports(self, text):
        for path, inside, alias in re.findall(r"^(?:pub )?use Rattle\.([^\s{]+?)(?:\.\{([^}]*)\})?(?: as (\S+))?$", text, re.M):
            parts = path.replace("«", "").replace("»", "").split(".")
            if len(parts) < 3 or parts[1] != "specs":
                continue
            target = (parts[0], ".".join(parts[2:]))
            if alias:
                self.aliases[alias] = target
            for name in filter(None, (it.strip() for it in inside.split(","))):
                given, _, used = name.partition(" as ")
                self.names[(used or given).strip("«»")] = (target, given.strip("«»"))

    def definitions(self, text):
        current, data = None, None
        for line in text.split("\n"):
            if re.match(r"(abbrev (pub )?)?mutual", line):
                current, data = None, None
                continue
            if line.lstrip().startswith("--") or not line.strip() or re.match(r"(pub )?(use|mod) ", line):
                continue
            head = HEAD.match(line)
            indent = len(line) - len(line.lstrip())
            if head and indent <= 2 and not (data and indent > 0):
                current = (head[3] or head[5] or head[7]).strip("«»")
                data = head[2] if indent == 0 else None
                self.bodies.setdefault(current, [])
            elif data and current and indent:
                made = re.match(r"\s+(?:pub )?([^\s:({]+)\s*:", line)
                if made and data == "data":
                    self.constructors[made[1].strip("«»")] = current
            elif indent == 0:
                data = None
            if current:
                self.bodies[current].append(line)

    def owner(self, name):
        """The definition that a name is, or is a part of."""
        return name if name in self.bodies else self.constructors.get(name)

    def cited(self, name):
        """What a definition cites, in the order of its text: (crate, module, name)."""
        for line in self.bodies[name]:
            for word in re.findall(r"[^\s(){},;:→×⊎≡≤<λ¬]+", line):
                first, _, rest = word.partition(".")
                first, rest = first.strip("«»"), rest.strip("«»")
                if first in self.aliases and rest:
                    yield (*self.aliases[first], rest)
                elif first in self.names:
                    target, given = self.names[first]
                    yield (*target, given)
                elif first != name and self.owner(first) not in (None, name):
                    yield (self.crate, self.module, first)


def load():
    files = {}
    for path in sorted(CRATES.glob("*/specs/**/*.antt")):
        crate = path.relative_to(CRATES).parts[0]
        module = ".".join(path.relative_to(CRATES / crate / "specs").with_suffix("").parts)
        files[crate, module] = File(crate, module, path.read_text())
    return files


def reached(files, root):
    """The definitions that one rests on, itself first, and the types of the code that they cite."""
    crate, _, inside = root.partition(".")
    first = (crate, *inside.rsplit(".", 1)) if inside else (*FIRST, root)
    order, types, todo = [], [], [first]
    seen = set()
    while todo:
        crate, module, name = todo.pop()
        if module.startswith("declared."):
            kind = (crate, module)
            if kind not in types:
                types.append(kind)
            continue
        file = files.get((crate, module))
        owner = file and file.owner(name)
        if file and not owner and name in file.names:
            # the file passes on what another defines
            target, given = file.names[name]
            todo.append((*target, given))
            continue
        if not owner or (crate, module, owner) in seen:
            continue
        seen.add((crate, module, owner))
        order.append((crate, module, owner))
        todo += reversed(list(file.cited(owner)))
    return order, types


def shared(files):
    """The names that several of the definitions have."""
    names = {}
    for _, root in ROOTS:
        for crate, module, name in reached(files, root)[0]:
            names.setdefault(name, set()).add(f"{crate}/{module}")
    return {name: places for name, places in names.items() if len(places) > 1}


def unknown():
    """The names that JUDGEMENT.md cites, and that stand nowhere in the crates."""
    there = set()
    for path in [*CRATES.glob("*/specs/**/*.antt"), *CRATES.glob("*/proofs/**/*.antt"), *CRATES.glob("*/src/**/*.rt")]:
        there |= set(re.findall(r"[^\s(){},;:→×⊎≡≤<λ¬=]+", path.read_text()))
    return [name for name in sorted(set(re.findall(r"`([A-Za-z_]+)`", PROSE.read_text()))) if name not in there]


def entry(file, names):
    """A file with how many lines of it are read, and which of its definitions where not all are."""
    size = sum(len(file.bodies[it]) for it in names)
    others = [it for it in file.bodies if it not in names]
    text = f"{file.module.split('.')[-1]} {size}"
    if others and len(others) < len(names):
        return f"{text} (without {', '.join(f'`{it}`' for it in others)})"
    return f"{text} ({', '.join(f'`{it}`' for it in names)})" if others else text


def page(files):
    lines = ["# What the theorem rests on", "",
             "Written by `docs/reading.py`. Whoever wants to believe the theorem reads these definitions in this order, with"
             " [JUDGEMENT.md](JUDGEMENT.md) beside them. They cite nothing else in `specs/`, and nothing in `proofs/` has to be read."
             " Each file, `NAME.antt` in its folder, is listed where it is reached first, with the number of lines to read; all its"
             " definitions are read unless some are named.", ""]
    read, whole = set(), 0
    for title, root in ROOTS:
        order, _ = reached(files, root)
        order = [it for it in order if it not in read]
        read |= set(order)
        by_file = {}
        for crate, module, name in order:
            by_file.setdefault((crate, module), []).append(name)
        count = sum(len(files[c, m].bodies[n]) for c, m, n in order)
        whole += count
        lines += [f"## {title}: `{root}`", "",
                  f"{len(order)} definitions, {count} lines, {len(by_file)} files of {len({c for c, _ in by_file})} crates.", ""]
        folder = None
        for (crate, module), names in by_file.items():
            home = "/".join([crate, "specs", *module.split(".")[:-1]])
            if home == folder:
                lines[-1] += f", {entry(files[crate, module], names)}"
            else:
                lines.append(f"- `{home}`: {entry(files[crate, module], names)}")
            folder = home
        lines.append("")
    lines.append(f"In all {len(read)} definitions in {whole} lines.")
    return "\n".join(lines) + "\n"


def main():
    files = load()
    text = page(files)
    if "--check" in sys.argv[1:]:
        wrong = [] if PAGE.read_text() == text else ["READING.md is not as it would be written"]
        wrong += [f"{name} stands in {', '.join(sorted(places))}" for name, places in sorted(shared(files).items())]
        wrong += [f"JUDGEMENT.md cites {name}, which nothing is called" for name in unknown()]
        print("\n".join(wrong), end="\n" if wrong else "")
        sys.exit(1 if wrong else 0)
    PAGE.write_text(text)
    print(text.rstrip().split("\n")[-1])


if __name__ == "__main__":
    main()

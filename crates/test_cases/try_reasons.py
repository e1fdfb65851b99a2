#!/usr/bin/env python3
"""Tries explain on documents that are refused because of one slip: try_reasons.py PROGRAM [FILE..]

PROGRAM is the built program, crates/checker/out/checker. The files are those that data/files.json names and the `*.jsonl` that
are named. A document has one slip where another one that is accepted differs from it at one place alone, and by any other way
of choosing the pair the place is the same or lies around it. To these come slips that are made here: in each accepted document
some places are changed by chance, from a seed, so that it is refused.

The reported path holds the slip where the slip lies in the part that it leads to, or is around it; or in an item that this
part names by a handle; or where the text names what was changed (a capability that is missing, a list of which an item was
taken away). Bytes that are no JSON have no path, and are not counted. Each kind is counted, and each document of which none is so
is printed with --list. The status is 1 where the share of those that it holds is below 97 in 100.

With --write every third document of the corpora that is refused by one slip goes to crates/test_reasons/stdin, a line each: the steps to
the slip, a tab, the document. `test_reasons` counts by them in `rt ci` how many paths lead to the slip, or to what names it.
"""
import collections
import concurrent.futures
import json
import random
import re
import subprocess
import sys
from pathlib import Path

DATA = Path(__file__).resolve().parent / "data"
LINES = DATA.parent.parent / "test_reasons/stdin"
EACH = 3
LEAST = 97
MADE = 3
MASK = (1 << 64) - 1


def documents(names):
    """Each document with whether it is accepted."""
    seen = {}
    for name in names or [DATA / one for one in json.loads((DATA / "files.json").read_text())]:
        text = Path(name).read_text()
        rows = json.loads(text) if text.startswith("[\n") or name.suffix == ".json" else [json.loads(line) for line in text.split("\n") if line]
        for row in rows:
            given = row.get("input", row.get("document"))
            if given is None:
                continue
            try:
                value = json.loads(given)
            except (ValueError, RecursionError):
                continue
            if isinstance(value, list) and len(value) == 14:
                seen[given] = value
    return list(seen.values())


def nodes(value, path=(), out=None):
    """Each part of a value by its path, with a sum for it of its place and all that lies inside; the whole sum."""
    out = {} if out is None else out
    if isinstance(value, list):
        total = hash((path, "list", len(value))) & MASK
        for index, part in enumerate(value):
            total = (total + nodes(part, (*path, index), out)[1]) & MASK
    else:
        total = hash((path, type(value).__name__, repr(value))) & MASK
    out[path] = total
    return out, total


def pairs(accepted, refused):
    """The refused documents that differ from an accepted one at one place, with the deepest such place."""
    known = {}
    for value in accepted:
        parts, total = nodes(value)
        for path, own in parts.items():
            known.setdefault((path, (total - own) & MASK), 1)
    for value in refused:
        parts, total = nodes(value)
        found = [path for path, own in parts.items() if (path, (total - own) & MASK) in known]
        if found:
            deepest = max(found, key=len)
            if len(deepest) > 1:
                yield value, deepest


def leaves(value, path=()):
    if isinstance(value, list):
        for index, part in enumerate(value):
            yield from leaves(part, (*path, index))
    else:
        yield path


def changed(rng, document):
    """The document with one place changed, and that place."""
    path = rng.choice([path for path in leaves(document) if path[0] not in (0, 1, 4)])
    value = json.loads(json.dumps(document))
    holder = value
    for step in path[:-1]:
        holder = holder[step]
    old = holder[path[-1]]
    if isinstance(old, bool):
        new = not old
    elif isinstance(old, int):
        new = rng.choice([max(0, old - 1), old + 1, 0, rng.randrange(0, 40)])
    elif isinstance(old, str):
        words = [other for other in WORDS if old in other]
        new = rng.choice(rng.choice(words)) if words else old + "a"
    else:
        new = rng.randrange(0, 20)
    holder[path[-1]] = new
    return (value, path) if new != old else None


def sets_of_words():
    page = (DATA.parent.parent.parent / "docs/FORMAT.md").read_text()
    return [re.findall("`([^`]*)`", row) for row in re.findall(r"^\| [a-z][^|]* \| ((?:`[^`|]*` ?)+) \|$", page, re.M)]


WORDS = sets_of_words()


def answer_of(program, value):
    done = subprocess.run([program, "--json"], input=json.dumps(value).encode(), capture_output=True)
    return json.loads(done.stdout)


def named_by(document, steps):
    """The items that the part at the path names by a handle, as the ways to them; whatever the number may mean."""
    part = document
    for step in steps:
        part = part[step]
    numbers = set()

    def gather(value, depth):
        if isinstance(value, int) and not isinstance(value, bool):
            numbers.add(value)
        elif isinstance(value, list) and depth:
            for inner in value:
                gather(inner, depth - 1)
    gather(part, 3)
    function = tuple(steps[:2]) if steps[:1] == [12] else tuple(steps[:3]) if steps[:1] == [13] else None
    for number in numbers:
        for start in (5, 8, 9, 10, 11, 12):
            yield (start, number)
        if function:
            for start in (1, 3, 4):
                yield (*function, start, number)


def holds(document, answer, slip):
    """How the answer holds the slip."""
    steps = tuple(answer["steps"])
    if steps and (slip[: len(steps)] == steps or steps[: len(slip)] == slip):
        return "in the part" if len(steps) > 2 or steps[:1] not in [(12,), (13,)] else "in the whole function"
    text = answer["text"]
    if text.startswith("no JSON"):
        return None
    if slip[0] == 6 and "special type" in text:
        return "in the text"
    if slip[0] == 2 and "capabilities lack" in text or slip[0] == 3 and "subgroup operations lack" in text:
        return "in the text"
    if re.search(rf"entry points\[{slip[1] if len(slip) > 1 else ''}\]\.stage", text) and slip[0] == 13 and slip[2:] == (0,):
        return "in the text"
    if answer["step"] == "document" and "stands there, in" in text and slip[:-1] == steps[:-1]:
        return "in the text"
    for path in re.findall(r"((?:types|globals|constants|overrides|functions)\[(\d+)\])", text):
        start = {"types": 5, "globals": 11, "constants": 8, "overrides": 9, "functions": 12}[path[0].split("[")[0]]
        if slip[:2] == (start, int(path[1])):
            return "in the text"
    try:
        if any(slip[: len(way)] == way for way in named_by(document, list(steps))):
            return "in what the part names"
    except (IndexError, TypeError):
        pass
    return "elsewhere"


def write_lines(program, slips):
    """Writes every third slip of a document that is JSON, and keeps the texts of WGSL that stand after these lines."""
    _, head, texts = LINES.read_text().partition("==== ")
    known = [(value, slip) for value, slip in slips if not answer_of(program, value)["text"].startswith("no JSON")]
    lines = [" ".join(map(str, slip)) + "\t" + json.dumps(value, separators=(",", ":")) for value, slip in known[::EACH]]
    LINES.write_text("".join(line + "\n" for line in lines) + head + texts)


def main():
    words = [word for word in sys.argv[1:] if not word.startswith("--")]
    program, names = words[0], [Path(name) for name in words[1:]]
    found = documents(names)
    with concurrent.futures.ThreadPoolExecutor(2) as pool:
        answers = list(pool.map(lambda value: answer_of(program, value), found))
    accepted = [value for value, answer in zip(found, answers) if answer["verdict"] == "accepted"]
    refused = [value for value, answer in zip(found, answers) if answer["verdict"] == "refused"]
    if "--write" in sys.argv:
        write_lines(program, pairs(accepted, refused))
        return 0
    rng = random.Random(1)
    made = [one for value in accepted for _ in range(MADE) if (one := changed(rng, value))]
    bad = 0
    for title, slips in [("of the corpora", list(pairs(accepted, refused))), ("made here", made)]:
        with concurrent.futures.ThreadPoolExecutor(2) as pool:
            answers = list(pool.map(lambda one: answer_of(program, one[0]), slips))
        counts = collections.Counter()
        steps = collections.Counter()
        for (value, slip), answer in zip(slips, answers):
            if answer["verdict"] == "accepted":
                continue
            kind = holds(value, answer, slip)
            if kind is None:
                continue
            counts[kind] += 1
            steps[answer["step"], kind == "elsewhere"] += 1
            if kind == "elsewhere" and "--list" in sys.argv:
                print(f"{answer['step']}: slip at {list(slip)}, reported {answer['steps']}: {answer['text'][:300]}")
        total = sum(counts.values())
        share = 100 * (total - counts["elsewhere"]) / max(1, total)
        print(f"{title}: {total} refused by one slip, {share:.1f} in 100 hold it: " + ", ".join(f"{n} {k}" for k, n in counts.most_common()))
        bad += share < LEAST
    return 1 if bad else 0


if __name__ == "__main__":
    sys.exit(main())

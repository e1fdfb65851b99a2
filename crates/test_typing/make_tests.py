#!/usr/bin/env python3
"""Writes the cases of the tests of handles: make_tests.py CORPUS [OUT] [--all].

A line of the corpus is an object with `name`, `document` (the text of a document) and, for each function (`functions`) and
each entry point (`entries`), the answers of the five tests (`tests`); one that is null is not asked. OUT is where the file
of cases goes, data/ beside this script where none is given. Without --all the shortest documents are chosen for each
answer that a function has.
"""
import json
import sys
from pathlib import Path

NAMES = ["handles", "operands", "callees", "filters", "arities"]
EACH = 6


def answers(line):
    return [f["tests"] for f in line["functions"] + line["entries"]]


def case(line):
    """The case of a line, or None where two tests are not asked."""
    tests = answers(line)
    unasked = {i for t in tests for i in range(5) if t[i] is None}
    if len(unasked) > 1:
        return None
    told = "".join("".join("." if i in unasked else "ft"[t[i]] for i in range(5)) + ";" for t in tests)
    asked = "tests" + "".join(" but " + NAMES[i] for i in unasked)
    return [line["name"], asked, line["document"], told]


def chosen(lines):
    kept, count = [], {}
    for line in sorted(lines, key=lambda x: len(x["document"])):
        kinds = {tuple(t) for t in answers(line)}
        if any(count.get(k, 0) < EACH for k in kinds):
            for k in kinds:
                count[k] = count.get(k, 0) + 1
            kept.append(line)
    return kept


def main():
    words = [w for w in sys.argv[1:] if not w.startswith("--")]
    out = Path(words[1]) if len(words) > 1 else Path(__file__).parent / "data"
    lines = [json.loads(line) for line in open(words[0], encoding="utf-8")]
    if "--all" not in sys.argv:
        lines = chosen(lines)
    cases = [case(line) for line in lines]
    with open(out / "tests.jsonl", "w", encoding="utf-8") as file:
        for it in cases:
            if it is not None:
                file.write(json.dumps(it, ensure_ascii=False) + "\n")
    print(f"tests.jsonl: {sum(c is not None for c in cases)} cases, {cases.count(None)} left out")


main()

#!/usr/bin/env python3
"""Runs the program over mutants of WGSL texts: wgsl_mutants.py PROGRAM [COUNT [SEED [FILE ..]]]

The texts are those of examples/wgsl, or the files that are named. Tokens and bytes are taken out, doubled, swapped, put in from other
texts or changed, and the program reads each mutant under 256 KB of stack and 2 GB, in each form of answer in turn. The status is 1 where
one ends by a signal, with a status that it does not have, or after 10 seconds.
"""
import os
import random
import re
import resource
import subprocess
import sys
from concurrent.futures import ThreadPoolExecutor
from pathlib import Path

TOP = Path(__file__).resolve().parent.parent
TOKEN = re.compile(rb"[A-Za-z_][A-Za-z_0-9]*|[0-9][0-9a-zA-Z.]*|\s+|.", re.DOTALL)
FORMS = [[], ["--explain"], ["--json"], ["--leaves"], ["--document"]]
ODD = [b"\0", b"\xff", "🙂".encode(), b"/*", b"*/", b"<", b">", b">>=", b"(", b")", b"{", b"}", b"0x1p", b"1e999", b"99999999999999999999", b"-", b"&&", b"@"]


def limits():
    resource.setrlimit(resource.RLIMIT_STACK, (256 << 10, 256 << 10))
    resource.setrlimit(resource.RLIMIT_AS, (2 << 30, 2 << 30))


def mutant(dice, texts):
    """A text with one to four changes."""
    tokens = list(dice.choice(texts))
    for _ in range(dice.randint(1, 4)):
        at, other = dice.randrange(len(tokens)), dice.choice(texts)
        how = dice.randrange(7)
        if how == 0:
            del tokens[at: at + dice.randint(1, 3)]
        elif how == 1:
            tokens.insert(at, tokens[at])
        elif how == 2:
            to = dice.randrange(len(tokens))
            tokens[at], tokens[to] = tokens[to], tokens[at]
        elif how == 3:
            tokens[at] = dice.choice(other)
        elif how == 4:
            tokens.insert(at, dice.choice(ODD))
        elif how == 5:
            start = dice.randrange(len(other))
            tokens[at: at] = other[start: start + dice.randint(1, 20)]
        else:
            tokens[at] = bytes(it ^ (1 << dice.randrange(8)) if dice.random() < .3 else it for it in tokens[at])
        if not tokens:
            tokens = [b" "]
    return b"".join(tokens)


def tried(program, text, words):
    """What is wrong with a run, or nothing."""
    try:
        found = subprocess.run([program, "--wgsl", *words], input=text, capture_output=True, timeout=10, preexec_fn=limits)
    except subprocess.TimeoutExpired:
        return "late"
    return "" if found.returncode in (0, 1, 3) else f"status {found.returncode}"


def main():
    program, count, seed = os.path.abspath(sys.argv[1]), int((sys.argv[2:] or ["10000"])[0]), int((sys.argv[3:] or ["1"])[0])
    files = [Path(it) for it in sys.argv[4:]] or sorted((TOP / "examples/wgsl").glob("*.wgsl"))
    texts, dice, bad = [TOKEN.findall(it.read_bytes()) for it in files], random.Random(seed), 0
    with ThreadPoolExecutor(3) as pool:
        mutants = ((mutant(dice, texts), FORMS[at % len(FORMS)]) for at in range(count))
        for start in range(0, count, 1000):
            part = [next(mutants) for _ in range(min(1000, count - start))]
            for (text, words), wrong in zip(part, pool.map(lambda it: tried(program, *it), part)):
                if wrong:
                    bad += 1
                    print(f"{wrong} {' '.join(words)}: {text[:2000]!r}")
    print(f"{count} mutants, {bad} bad")
    sys.exit(bool(bad))


if __name__ == "__main__":
    main()

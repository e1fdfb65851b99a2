#!/usr/bin/env python3
"""Measures the check of documents that are made to take long: hostile.py [--check PROGRAM] [--reader PROGRAM] [--most BYTES] [KIND ..]

Each kind of `hostile_kinds.py` (all, where none is named) is made as a document of a quarter, half and the whole of so many
bytes (16 MiB). Prints a table in Markdown: the processor time and the most memory of a run of the check, beside a run that
reads the same bytes as JSON and no more (`test_calls json`), each the least of the runs. Both programs have to be built:
`rt ci` leaves them, and so does `rt run` in crates/checker and crates/test_calls.

The status is 1 where the whole takes more than 4.6 times what the quarter does, or more than 10 times the JSON reader, or more
than 64 bytes of memory for a byte. Kinds whose answer, or what each function tells of itself, is itself larger than linear, or for
which `docs/PERFORMANCE.md` tells a bound that is, are printed and not counted.
"""
import argparse
import json
import os
import resource
import subprocess
import sys
import tempfile
from pathlib import Path

sys.dont_write_bytecode = True
import hostile_kinds

TOP = Path(__file__).resolve().parent.parent
CHECK = TOP / "crates/checker/out/checker"
READER = TOP / "crates/test_calls/out/test_calls"
WHOLE = (1 << 24) - (1 << 19)
MOST_GROWTH = 4.6
MOST_TIMES = 10
MOST_MEMORY = 64
SECONDS = 300
RUNS = 2


def text_of(make, n):
    return json.dumps(make(n), separators=(",", ":")).encode()


def filling(make, size):
    """The document of a kind that fills so many bytes about, and its number."""
    n, text = 16, text_of(make, 16)
    for _ in range(12):
        if abs(len(text) - size) * 50 < size:
            break
        other = text_of(make, max(n // 2, 1))
        power = 2 if len(text) > 3 * len(other) else 1
        fixed = max(2 * len(other) - len(text), 0) if power == 1 else 0
        n = max(1, round(n * ((size - fixed) / (len(text) - fixed)) ** (1 / power)))
        text = text_of(make, n)
    return n, text


def run(words, path):
    """Processor seconds and bytes of memory of a run, the first line that it writes, and how many bytes it writes."""
    def limit():
        resource.setrlimit(resource.RLIMIT_CPU, (SECONDS, SECONDS))
    with open(path, "rb") as given:
        child = subprocess.Popen(words, stdin=given, stdout=subprocess.PIPE, preexec_fn=limit)
    first, count = b"", 0
    while part := child.stdout.read(1 << 20):
        first, count = first or part[:200], count + len(part)
    _, status, used = os.wait4(child.pid, 0)
    child.returncode = os.waitstatus_to_exitcode(status)
    line = first.split(b"\n")[0].decode(errors="replace") if child.returncode >= 0 else f"signal {-child.returncode}"
    return used.ru_utime + used.ru_stime, used.ru_maxrss * 1024, line, count


def least(words, path):
    runs = [run(words, path)]
    while len(runs) < RUNS and runs[-1][0] < 5:
        runs.append(run(words, path))
    return min(runs)


def measured(make, size, check, reader):
    n, text = filling(make, size)
    with tempfile.TemporaryDirectory() as room:
        path = f"{room}/document.json"
        Path(path).write_bytes(text)
        return n, len(text), least([check], path), least([reader, "json"], path)


def faults(name, rows):
    """What a kind takes too much of."""
    first, last = rows[0], rows[-1]
    _, size, (seconds, memory, line, _), (alone, _, _, _) = last
    # the quarter is never taken for less than a hundredth of a second, which the clock tells badly
    growth = seconds / max(first[2][0], 0.01) / (size / first[1] / 4)
    if line.startswith("signal"):
        yield f"{name}: ended by {line}"
    if growth > MOST_GROWTH:
        yield f"{name}: four times the bytes take {growth:.1f} times as long, and {MOST_GROWTH} are allowed"
    if seconds > MOST_TIMES * alone:
        yield f"{name}: takes {seconds / alone:.1f} times the JSON reader, and {MOST_TIMES} are allowed"
    if memory > MOST_MEMORY * size:
        yield f"{name}: takes {memory / size:.0f} bytes of memory for a byte, and {MOST_MEMORY} are allowed"


def main():
    words = argparse.ArgumentParser()
    words.add_argument("--check", default=str(CHECK))
    words.add_argument("--reader", default=str(READER))
    words.add_argument("--most", type=int, default=WHOLE)
    words.add_argument("kinds", nargs="*", choices=[[], *hostile_kinds.KINDS])
    asked = words.parse_args()
    missed = []
    print("| kind | number | bytes | answer | check, s | growth | JSON reader, s | ratio | memory, MB | memory for a byte |")
    print("|---|---|---|---|---|---|---|---|---|---|")
    for name in asked.kinds or hostile_kinds.KINDS:
        rows = []
        for part in (4, 2, 1):
            row = measured(hostile_kinds.KINDS[name], asked.most // part, asked.check, asked.reader)
            n, size, (seconds, memory, line, written), (alone, *_) = row
            growth = f"{seconds / max(rows[-1][2][0], 0.005):.1f}" if rows else ""
            rows.append(row)
            print(f"| {name} | {n} | {size} | {line}, {written} | {seconds:.2f} | {growth} | {alone:.2f} "
                  f"| {seconds / max(alone, 0.005):.1f} | {memory / 1e6:.0f} | {memory / size:.0f} |", flush=True)
            if line.startswith("signal"):
                break
        if name not in hostile_kinds.HELD:
            missed += faults(name, rows)
    print(*missed, sep="\n", end="\n" * bool(missed), file=sys.stderr)
    return 1 if missed else 0


if __name__ == "__main__":
    sys.exit(main())

#!/usr/bin/env python3
"""Measures the overload sets of as many calls as a large document of calls of functions of numbers has, beside reading
that document as JSON and no more.

Each call is `min` of two vectors: the rules of `min`, those that take the first argument, those that take the second
too, and a list of them. Prints a table in Markdown: the median of five runs of each, processor time. The program has to
be built: `rt ci` leaves it, and so does `rt run` in crates/test_calls. The status is 1 where the sets take more than a
fifth of the reading.
"""
import statistics
import sys
import tempfile

from run import ALONE, MEASURES, RUNS, SIZES, TOP, run

SETS = (MEASURES, "sets")
MOST_SHARE = 0.2
FRONT = '[null,[],null,[],['
BACK = '],[],null]'
CALL = '["Math","Min",{},{},null,null]'


def calls(size):
    """The text of a function of `size` bytes whose expressions are such calls, and how many they are."""
    parts, left, index = [], size - len(FRONT) - len(BACK), 0
    while True:
        text = ("," if index else "") + CALL.format(index, index // 2)
        if len(text) > left:
            return FRONT + "".join(parts) + " " * left + BACK, index
        parts.append(text)
        left -= len(text)
        index += 1


def main():
    if not MEASURES.is_file():
        sys.exit(f"overloads: {MEASURES.relative_to(TOP)} is not built yet")
    missed = False
    print("| document | calls | overload sets | reading alone | share |")
    print("|---|---|---|---|---|")
    for size in SIZES:
        text, count = calls(size)
        with tempfile.TemporaryDirectory() as room:
            document, one_each = f"{room}/document.json", f"{room}/calls"
            with open(document, "w") as it:
                it.write(text)
            with open(one_each, "w") as it:
                it.write("." * count)
            due = f"{count} rules left\n".encode()
            runs = [(run(SETS, one_each, due)[0], run(ALONE, document, b"read\n")[0]) for _ in range(RUNS)]
        sets, alone = (statistics.median(it[who] for it in runs) for who in (0, 1))
        print(f"| {size >> 20} MiB | {count} | {sets * 1000:.1f} ms | {alone * 1000:.1f} ms | {sets / alone:.2f} |", flush=True)
        missed = missed or sets > MOST_SHARE * alone
    return 1 if missed else 0


if __name__ == "__main__":
    sys.exit(main())

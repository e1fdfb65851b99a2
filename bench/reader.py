#!/usr/bin/env python3
"""Counts what reading a document takes of a run of the program, beside reading it as JSON: reader.py

The program is run once on each document under valgrind's callgrind. Of that run the instructions are told of all that reads
the document (`take_document`); beside them those of the JSON reader alone, with letting its value go, in a run of
`test_calls json` on the same bytes. The ratio is that of both. Prints a table in Markdown. Both programs have to be built:
`rt ci` leaves them, and so does `rt run` in crates/checker and crates/test_calls. The status is 1 where a target is missed.
"""
import sys
import tempfile

sys.dont_write_bytecode = True
import functions
import modules

MOST_RATIO = 1.4
READ = "document_reader::reading::take_document"
SIZES = (1 << 17, 1 << 20)


def of_count(made):
    """As many items as fill so many bytes about."""
    def write(path, size):
        few, many = (len(made(it)) for it in (100, 200))
        with open(path, "w") as it:
            it.write(made(max(1, (size - few) * 100 // (many - few) + 100)))
    return write


KINDS = {**functions.KINDS, **{name: of_count(made) for name, made in modules.KINDS.items()}}


def counted(room, path):
    """The instructions of reading the document, and of the JSON reader alone."""
    read = modules.of_call(modules.called(room, path), READ)
    if not read:
        sys.exit(f"reader: no call of {READ} was counted")
    return read, modules.json_alone(room, path)


def main():
    modules.are_built()
    missed = False
    print("| document | bytes | reading, million instructions | the JSON reader, million instructions | ratio |")
    print("|---|---|---|---|---|")
    for name, write in KINDS.items():
        for size in SIZES:
            with tempfile.TemporaryDirectory() as room:
                path = f"{room}/document.json"
                write(path, size)
                made, reader = counted(room, path)
            ratio = made / reader
            print(f"| {name} | {size} | {made / 1e6:.2f} | {reader / 1e6:.1f} | {ratio:.2f} |", flush=True)
            missed = missed or ratio > MOST_RATIO
    return 1 if missed else 0


if __name__ == "__main__":
    sys.exit(main())

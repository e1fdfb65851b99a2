#!/usr/bin/env python3
"""Tries the program on modules of SPIR-V that are wrong.

spirv_mutants.py PROGRAM FOLDER [COUNT] [SEED]: COUNT (1000) times a module of the FOLDER (*.spv) with bits flipped, words
changed, cut out, repeated or exchanged, judged or explained. Any status but 0, 1 and 3, any line of another form, and any run of
more than ten seconds is reported, and the module kept as mutant-N.spv; so are the runs that took the most processor time.
"""
import pathlib
import random
import re
import resource
import struct
import subprocess
import sys

FORMS = ["--verdict", "--verdict", "--names", "--json", "--leaves", "--document"]
# what a word is changed to, beside ids
NUMBERS = [0, 1, 2, 0xFFFF, 0xFFFFF, 1 << 30, 0x7FFFFFFF, 1 << 31, 0xFFFFFFFE, 0xFFFFFFFF]
UNREAD = re.compile(rb"(unsupported|malformed): .+ at word [0-9]+, .+\n")


def mutate(random_, words):
    words = list(words)
    for _ in range(random_.choice([1, 1, 1, 2, 3, 8])):
        at = random_.randrange(len(words))
        other = random_.randrange(len(words))
        kind = random_.randrange(7)
        if kind == 0:
            words[at] ^= 1 << random_.randrange(32)
        elif kind == 1:
            words[at] = words[other]
        elif kind == 2:
            words[at] = random_.choice([*NUMBERS, words[3], random_.randrange(1, max(2, words[3]))])
        elif kind == 3:
            del words[at : at + random_.randrange(1, 6)]
        elif kind == 4:
            words[at:at] = words[other : other + random_.randrange(1, 6)]
        elif kind == 5:
            words[at], words[other] = words[other], words[at]
        else:
            words = words[: max(5, at)]
        if len(words) < 6:
            break
    return words


def spent():
    """The processor seconds of all programs that were run."""
    used = resource.getrusage(resource.RUSAGE_CHILDREN)
    return used.ru_utime + used.ru_stime


def main():
    program, folder = sys.argv[1], pathlib.Path(sys.argv[2])
    count = int(sys.argv[3]) if len(sys.argv) > 3 else 1000
    random_ = random.Random(int(sys.argv[4]) if len(sys.argv) > 4 else 1)
    files = {file: file.read_bytes() for file in sorted(folder.glob("*.spv"))}
    names, found, slowest = list(files), {}, []
    for number in range(count):
        name = random_.choice(names)
        data = files[name]
        words = mutate(random_, struct.unpack("<%dI" % (len(data) // 4), data[: len(data) // 4 * 4]))
        made = struct.pack("<%dI" % len(words), *words)
        form, text = random_.choice(FORMS), b""
        began = spent()
        try:
            done = subprocess.run([program, "--spirv", form], input=made, capture_output=True, timeout=10)
            status, text = done.returncode, done.stdout
        except subprocess.TimeoutExpired:
            status = "timeout"
        slowest = sorted([*slowest, (spent() - began, len(made), number, name.name)], reverse=True)[:3]
        found[status] = found.get(status, 0) + 1
        is_unread = UNREAD.fullmatch(text) is not None or text.startswith(b'{"at":') and form == "--json"
        if status not in (0, 1, 3) or is_unread != (status == 3):
            print("mutant", number, form, "status", status, text[:200], flush=True)
            pathlib.Path("mutant-%d.spv" % number).write_bytes(made)
    print(found)
    for seconds, size, number, name in slowest:
        print("%.3f s for %d bytes: mutant %d of %s" % (seconds, size, number, name))


if __name__ == "__main__":
    main()

#!/usr/bin/env python3
"""Times the program on modules of SPIR-V that nest, repeat or refer as no compiler would.

spirv_hostile.py PROGRAM [SIZE [KIND..]]: each kind, or these, at SIZE (2000), twice and four times that: words, processor seconds
and memory. A kind of which a word takes half as much again where there are twice as many is reported.
"""
import os
import subprocess
import sys
import tempfile

from spirv_hostile_kinds import KINDS


def run(program, data):
    """The processor seconds and the bytes that the program takes, its status, and what it answers."""
    with tempfile.TemporaryFile() as given:
        given.write(data)
        given.seek(0)
        run = subprocess.Popen([program, "--spirv", "--verdict"], stdin=given, stdout=subprocess.PIPE, stderr=subprocess.DEVNULL)
        answer = run.stdout.read()
        _, status, used = os.wait4(run.pid, 0)
    return used.ru_utime + used.ru_stime, used.ru_maxrss * 1024, os.waitstatus_to_exitcode(status), answer


def main():
    program, size = sys.argv[1], int(sys.argv[2]) if len(sys.argv) > 2 else 2000
    for kind in KINDS:
        if sys.argv[3:] and kind.__name__ not in sys.argv[3:]:
            continue
        line, before = [], None
        for times in (1, 2, 4):
            data = kind(size * times)
            words = len(data) // 4
            took, memory, status, answer = run(program, data)
            line.append("%d words %.2f s %d MB" % (words, took, memory >> 20))
            if status not in (0, 1, 3):
                line.append("STATUS %d" % status)
            if before and took > 0.2 and took / words > 1.5 * before:
                line.append("MORE THAN LINEAR")
            before = took / words
        print(kind.__name__ + ":", "; ".join(line), "|", answer[:60].decode(errors="replace").split("\n")[0], flush=True)


if __name__ == "__main__":
    main()

#!/usr/bin/env python3
"""The machine code of a function, each instruction with how often it is executed for each call of compute in a session with a
first refresh of a grid of about 10,000 vertices: python3 bench/hot.py PROGRAM FUNCTION [LEAST]

FUNCTION is a part of its name, as `instructions.py --functions` prints it; instructions that are executed less often than
LEAST (0.2) are left out. Needs `valgrind` and `objdump`."""
import collections
import re
import subprocess
import sys
import tempfile

from callgrind import own, run, session


def code_of(program):
    """The instructions, and where functions begin."""
    out = subprocess.run(["objdump", "-d", "--no-show-raw-insn", program], capture_output=True, text=True, check=True).stdout
    for line in out.splitlines():
        found = re.match(r"\s*([0-9a-f]+):\s+(.*)", line) or re.match(r"([0-9a-f]+) (<.*>):", line)
        if found:
            yield int(found[1], 16), found[2]


def main():
    program, wanted, least = [*sys.argv[1:], "0.2"][:3]
    counts, there = collections.Counter(), []
    with tempfile.TemporaryDirectory() as folder:
        calls, _ = run(program, session("grid", "10000", "0", "--one-refresh"), f"{folder}/callgrind", "--dump-instr=yes")
        for name, at, count in own(f"{folder}/callgrind"):
            counts[at] += count
            there += [at] * (wanted in name)
    if not there:
        sys.exit(f"no function's name has {wanted}")
    code = list(code_of(program))
    # Where valgrind loads the program: by the page that puts the least address on a beginning with the name.
    short = wanted.split("::<")[0].split("::")[-1]
    bases = {min(there) - at for at, text in code if text.startswith("<") and short in text}
    base = next(it for it in bases if it % 4096 == 0)
    for at, text in code:
        often = counts[at + base] / calls
        if min(there) <= at + base <= max(there) and often >= float(least):
            print(f"{often:8.2f} {at:x} {text[:140]}")


main()

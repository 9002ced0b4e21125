#!/usr/bin/env python3
"""Whether two programs answer the same: python3 bench/same.py PROGRAM OTHER

Runs both on 192 sessions: each vertex program with each combiner, under both policies for missing ids, on one and three
partitions, on a grid and on random edges, with 40 rounds of one changed edge, a dump and a check at the end."""
import itertools
import os
import subprocess
import sys
from concurrent.futures import ThreadPoolExecutor

BENCH = os.path.dirname(os.path.abspath(__file__))
PROGRAMS = ("sssp", "cc", "max", "indegree", "pagerank", "peel")
COMBINERS = ("none", "min", "max", "sum")
SHAPES = (["grid", "900", "0"], ["random", "800", "3000"])


def answers(program, options, session):
    ran = subprocess.run([program, *options, "--limit", "1000"], input=session, capture_output=True, check=False)
    return ran.returncode, ran.stdout


def main():
    one, other = sys.argv[1:]
    sessions = []
    for asked in SHAPES:
        made = subprocess.run([sys.executable, f"{BENCH}/workload.py", *asked, "40"], capture_output=True, check=True)
        sessions.append(made.stdout + b"dump\ncheck\n")

    def differs(asked):
        program, combiner, missing, partitions, session = asked
        options = ["--program", program, "--combiner", combiner, "--missing", missing, "--partitions", partitions]
        return answers(one, options, session) != answers(other, options, session)

    asked = list(itertools.product(PROGRAMS, COMBINERS, ("drop", "create"), ("1", "3"), sessions))
    with ThreadPoolExecutor(os.cpu_count()) as pool:
        found = [it[:4] for it, is_other in zip(asked, pool.map(differs, asked)) if is_other]
    print(f"{len(asked)} sessions, {len(found)} answered otherwise")
    for it in found:
        print("  ", *it)
    sys.exit(1 if found else 0)


main()

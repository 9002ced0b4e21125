#!/usr/bin/env python3
"""What several partitions and workers cost compared with one: python3 bench/partitions.py PROGRAM.. [--clock TURNS] [--path]

Instructions of a first refresh on 1, 2 and 4 partitions by one worker, on a grid of 10,000 vertices and on 100,000 random
edges, of the shortest paths, and of ranks on the latter. With --clock, by turns on the large inputs (a million random edges,
a grid of 100,000 vertices), on 1, 2 and 4 partitions by as many workers as there may be: the least and the median first
refresh, and the median refresh after one changed edge; that wants a quiet machine. With --path, a path of 1,000 vertices, on
1, 4, 16 and 64 partitions by one worker: the first refresh, the mean of three after a changed edge, and the most memory.
Each ratio is to one partition and one worker of the same program. Needs `valgrind`, and Linux's /proc."""
import argparse
import statistics
import tempfile

from callgrind import counted, session
from served import refreshes

SMALL = {"grid": ["grid", "10000", "0"], "random": ["random", "10000", "100000"]}
LARGE = {"grid": ["grid", "100000", "0", "100"], "random": ["random", "100000", "1000000", "100"]}
COUNTED = [("sssp", "grid"), ("sssp", "random"), ("pagerank", "random")]
PLACED = [(1, 1), (2, 1), (2, 2), (4, 1), (4, 2), (4, 4)]


def options(program, partitions, workers):
    rounds = ["--rounds", "10"] if program == "pagerank" else ["--limit", "10000"]
    return ["--program", program, *rounds, "--partitions", str(partitions), "--workers", str(workers)]


def instructions(binary):
    for program, shape in COUNTED:
        lines, first = session(*SMALL[shape], "--no-refresh"), None
        for partitions in 1, 2, 4:
            command = [binary, *options(program, partitions, 1)]
            with tempfile.TemporaryDirectory() as folder:
                cost = counted(command, f"{lines}refresh\n", f"{folder}/a")[1] - counted(command, lines, f"{folder}/b")[1]
            first = first or cost
            print(f"{binary} {program} {shape}, {partitions} partitions: {cost / 1e6:.1f} million, {cost / first:.2f}", flush=True)


def clock(binary, turns):
    for program, shape in COUNTED:
        lines = session(*LARGE[shape]).splitlines()
        took = {placed: [] for placed in PLACED}
        for _ in range(turns):
            for placed in PLACED:
                took[placed].append(refreshes([binary, *options(program, *placed)], lines)[0])
        one = statistics.median(first[0] for (first, *_) in took[1, 1])
        for placed, runs in took.items():
            firsts = [first[0] for (first, *_) in runs]
            later = [seconds for (_, *rest) in runs for seconds, _ in rest]
            print(f"{binary} {program} {shape}, {placed[0]} partitions, {placed[1]} workers: {min(firsts):.2f} and "
                  f"{statistics.median(firsts):.2f} s, {statistics.median(firsts) / one:.2f}; "
                  f"after one edge {statistics.median(later) * 1e3:.1f} ms", flush=True)


def path(binary):
    edges = [f"{vertex} {vertex + 1} 1" for vertex in range(1, 1_000)]
    changed = [line for place in (500, 800, 900) for line in (f"reweigh {place} {place + 1} 2", "commit", "refresh")]
    lines = [f"import list {len(edges)}", *edges, "refresh", *changed]
    for partitions in 1, 4, 16, 64:
        (first, *later), most = refreshes([binary, *options("sssp", partitions, 1)], lines)
        mean = statistics.mean(seconds for seconds, _ in later)
        print(f"{binary} path, {partitions} partitions: {first[0]:.3f} s, {mean:.3f} s, {most:.0f} MB", flush=True)


def main():
    words = argparse.ArgumentParser()
    words.add_argument("binaries", nargs="+")
    words.add_argument("--clock", type=int, default=0)
    words.add_argument("--path", action="store_true")
    asked = words.parse_args()
    for binary in asked.binaries:
        if asked.path:
            path(binary)
        elif asked.clock:
            clock(binary, asked.clock)
        else:
            instructions(binary)


main()

#!/usr/bin/env python3
"""What a refresh after one changed edge takes: python3 bench/warm.py PROGRAM.. [--programs sssp,cc,pagerank] [--options ..]

On a grid of 10,000 vertices and on 100,000 random edges, for each vertex program: one edge is changed, refreshed, changed
back, and refreshed. Of many edges those are taken whose two refreshes need nearest to 0.1 %, 1 %, 5 % and 30 % of the
executions of a run. Printed are the share, the calls of compute of both refreshes, and the instructions of the refreshes
(a session with them less the same without them) for each of these calls, and for each superstep. Needs `valgrind`."""
import argparse
import random
import re
import shlex
import subprocess
import tempfile

from callgrind import counted, session

SHAPES = {"grid": ["grid", "10000", "0"], "random": ["random", "10000", "100000"]}
SHARES = [0.001, 0.01, 0.05, 0.3]
TRIED = 150


def edges_of(lines):
    return [line.split() for line in lines.splitlines() if re.fullmatch(r"\d+ \d+ \d+", line)]


def change(program, edge):
    """The commands that change an edge, and that change it back: weights are read only by the shortest paths."""
    source, target, weight = edge
    if program == "sssp":
        return f"reweigh {source} {target} {100 - int(weight) // 2}\n", f"reweigh {source} {target} {weight}\n"
    return f"unedge {source} {target}\n", f"edge {source} {target} {weight}\n"


def calls_of(binary, options, lines):
    """The calls of compute of each refresh, and the supersteps of the last."""
    said = subprocess.run([binary, *options], input=lines, capture_output=True, text=True, check=True).stdout
    found = re.findall(r"^refreshed edition \d+ supersteps (\d+) .* calls (\d+)", said, re.M)
    return [int(calls) for _, calls in found], int(found[-1][0])


def chosen(binary, options, program, lines):
    """For each share an edge whose two refreshes need about so many of the executions."""
    draw = random.Random(7)
    edges = edges_of(lines)
    tried = draw.sample(edges, TRIED) + [edge for edge in edges if edge[0] == "1"]
    rounds = [f"{there}commit\nrefresh\n{back}commit\nrefresh\n" for there, back in (change(program, edge) for edge in tried)]
    calls, _ = calls_of(binary, options, f"{lines}refresh\n{''.join(rounds)}")
    pairs = [sum(calls[place : place + 2]) / 2 / calls[0] for place in range(1, len(calls), 2)]
    for share in SHARES:
        yield tried[min(range(len(tried)), key=lambda place: abs(pairs[place] - share))]


def main():
    words = argparse.ArgumentParser()
    words.add_argument("binaries", nargs="+")
    words.add_argument("--programs", default="sssp,cc,pagerank")
    words.add_argument("--options", default="")
    asked = words.parse_args()
    for program in asked.programs.split(","):
        options = ["--program", program, "--limit", "10000" if program == "sssp" else "300", *shlex.split(asked.options)]
        options += ["--rounds", "10"] if program == "pagerank" else []
        for shape, wanted in SHAPES.items():
            lines = session(*wanted, "--no-refresh")
            for edge in dict.fromkeys(map(tuple, chosen(asked.binaries[0], options, program, lines))):
                there, back = change(program, edge)
                warm = f"{lines}refresh\n{there}commit\nrefresh\n{back}commit\nrefresh\n"
                without = f"{lines}refresh\n{there}commit\n{back}commit\n"
                (first, *calls), supersteps = calls_of(asked.binaries[0], options, warm)
                for binary in asked.binaries:
                    with tempfile.TemporaryDirectory() as folder:
                        command = [binary, *options]
                        cost = counted(command, warm, f"{folder}/a")[1] - counted(command, without, f"{folder}/b")[1]
                    share = 50 * sum(calls) / first
                    each = cost / max(sum(calls), 1)
                    print(f"{binary} {program} {shape}: {share:5.2f} % calls {sum(calls)} of {first}, {each:.0f} a call, "
                          f"{cost / 2 / supersteps:.0f} a superstep", flush=True)


if __name__ == "__main__":
    main()

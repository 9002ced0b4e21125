#!/usr/bin/env python3
"""Counts instructions, which no load of the machine changes: python3 bench/instructions.py PROGRAM.. [--functions N]

Of each program, on a grid of about 10,000 vertices and on 100,000 random edges: what an import takes, in millions, and what
a first refresh and a check after it take for each call of compute. With --functions, the N functions in which a first
refresh takes the most by themselves. Needs `valgrind`."""
import argparse
import collections
import tempfile

from callgrind import own, run, session

SHAPES = {"grid": ["grid", "10000", "0"], "random": ["random", "10000", "100000"]}


def counted(program, lines):
    """The calls of compute, all instructions, and those of each function."""
    with tempfile.TemporaryDirectory() as folder:
        calls, total = run(program, lines, f"{folder}/callgrind")
        costs = collections.Counter()
        for name, _, count in own(f"{folder}/callgrind"):
            costs[name] += count
    return calls, total, costs


def main():
    words = argparse.ArgumentParser()
    words.add_argument("programs", nargs="+")
    words.add_argument("--functions", type=int, default=0)
    asked = words.parse_args()
    for program in asked.programs:
        for shape, wanted in SHAPES.items():
            lines = session(*wanted, "--no-refresh")
            _, first, before = counted(program, lines)
            calls, second, after = counted(program, f"{lines}refresh\n")
            _, third, _ = counted(program, f"{lines}refresh\ncheck\n")
            refresh, check = (second - first) / calls, (third - second) / calls
            print(f"{program} {shape}: import {first / 1e6:.1f} million, first refresh {refresh:.0f} a call, check {check:.0f}")
            costs = {name: (cost - before[name]) / calls for name, cost in after.items()}
            for name in sorted(costs, key=costs.get, reverse=True)[: asked.functions]:
                print(f"  {costs[name]:7.1f} {name[:120]}")


main()

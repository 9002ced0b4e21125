#!/usr/bin/env python3
"""How costs grow with the graph: python3 bench/sizes.py PROGRAM [--sizes VERTICES:EDGES,..] [--refresh]

For random graphs of so many vertices and edges, imported in blocks of 25,000 lines: processor seconds and the most memory of
the import, and of the same by hand (baseline.rs); the mean processor time of a commit of one changed edge. With --refresh
also the first refresh of the shortest paths, what it keeps for each call of compute, and the median and the dearest of the
refreshes after one changed edge that need at most 1,000 calls. Wants `rustc`, Linux's /proc, for 2^20 vertices and 15 million
edges 8 GB, and for times a machine on which nothing else runs."""
import argparse
import os
import statistics
import subprocess
import tempfile

from served import Program, commands

BENCH = os.path.dirname(os.path.abspath(__file__))
SIZES = "10000:100000,100000:1000000,400000:4000000,1000000:15000000,1048576:15700000"
BLOCK = 25_000
ROUNDS = 100
FEW = 1_000


def edges_of(vertices, count):
    """So many edges, each from and to any vertex; a few of them twice."""
    state, wanted = 12345, 0xFFFFFFFFFFFFFFFF
    for place in range(count):
        state = (state * 6364136223846793005 + 1442695040888963407) & wanted
        source = (state >> 33) % vertices + 1
        state = (state * 6364136223846793005 + 1442695040888963407) & wanted
        yield source, (state >> 33) % vertices + 1, place % 100 + 1


def write_session(file, vertices, count):
    """Writes the import of a graph, and gives some of its edges."""
    block, some = [], []
    for edge in edges_of(vertices, count):
        block.append("%d %d %d\n" % edge)
        if len(block) == BLOCK:
            file.write(f"import list {BLOCK}\n")
            file.writelines(block)
            some.append(edge)
            block = []
    file.flush()
    return some


def by_hand(binary, session):
    """Processor seconds and MB of the program by hand on a session."""
    with open(session, "rb") as lines:
        hand = subprocess.Popen([binary], stdin=lines, stdout=subprocess.DEVNULL)
        _, _, used = os.wait4(hand.pid, 0)
    return used.ru_utime + used.ru_stime, used.ru_maxrss / 1024


def resident(program):
    with open(f"/proc/{program.process.pid}/status") as it:
        return next(int(line.split()[1]) for line in it if line.startswith("VmRSS")) / 1024


def changed(some):
    """Commands that weigh edges anew, one after another."""
    for place in range(ROUNDS):
        source, target, weight = some[place % len(some)]
        yield [f"reweigh {source} {target} {weight + 100 + place}"]


def measured(binary, session, some, refresh):
    """What the program takes: of the import and of commits, and if asked for, of refreshes."""
    program = Program([binary, "--program", "sssp", "--limit", "10000"])
    with open(session) as lines:
        used = sum(program.answer([line.rstrip("\n"), *(b.rstrip("\n") for b in block)])[2] for line, block in commands(lines))
    graph = resident(program)
    said = f"import {used:.2f} s, {graph:.0f} MB"
    if refresh:
        answer, _, first = program.answer(["refresh"])
        calls = int(answer.split()[8])
        said += f"; first refresh {first:.2f} s, {calls} calls, {(resident(program) - graph) * 1048576 / calls:.0f} bytes a call"
    commits, few = [], []
    for change in changed(some):
        program.answer(change)
        commits.append(program.answer(["commit"])[2])
        if refresh:
            answer, _, again = program.answer(["refresh"])
            few += [again] if int(answer.split()[8]) <= FEW else []
    program.end()
    said += f"; a commit {statistics.mean(commits) * 1e3:.3f} ms"
    if few:
        said += f"; {len(few)} refreshes of at most {FEW} calls: median {statistics.median(few) * 1e3:.1f}, most {max(few) * 1e3:.1f} ms"
    return said


def main():
    words = argparse.ArgumentParser()
    words.add_argument("program")
    words.add_argument("--sizes", default=SIZES)
    words.add_argument("--refresh", action="store_true")
    asked = words.parse_args()
    with tempfile.TemporaryDirectory() as folder:
        hand = f"{folder}/baseline"
        subprocess.run(["rustc", "-O", "-o", hand, f"{BENCH}/baseline.rs"], check=True, capture_output=True)
        for vertices, edges in (map(int, size.split(":")) for size in asked.sizes.split(",")):
            session = f"{folder}/session"
            with open(session, "w", encoding="utf-8") as file:
                some = write_session(file, vertices, edges)
            seconds, memory = by_hand(hand, session)
            ours = measured(asked.program, session, some, asked.refresh)
            print(f"{vertices} vertices, {edges} edges: {ours}; by hand {seconds:.2f} s, {memory:.0f} MB", flush=True)


main()

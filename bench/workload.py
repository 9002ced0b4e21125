#!/usr/bin/env python3
"""Writes a session for pregeld to standard output.

workload.py SHAPE VERTICES EDGES [ROUNDS] [--no-refresh] [--one-refresh]

SHAPE   random: EDGES edges between two vertices each, drawn at random; grid: a square of about VERTICES
        vertices, each joined to its neighbours both ways (EDGES is not read).
ROUNDS  after the first refresh so many rounds: one edge is weighed anew, committed, and refreshed.
--no-refresh    without any refresh; --one-refresh: without those of the rounds.

Edges are imported in blocks of 25,000 lines, which no limit of a batch refuses. The same words give the
same session."""
import argparse
import random

BLOCK = 25_000


def random_edges(draw, vertices, wanted):
    edges = {}
    while len(edges) < wanted:
        pair = draw.randint(1, vertices), draw.randint(1, vertices)
        edges[pair] = draw.randint(1, 100)
    return edges


def grid_edges(draw, vertices):
    side = int(vertices**0.5)
    edges = {}
    for row in range(side):
        for column in range(side):
            here = row * side + column + 1
            ahead = [here + side] * (row + 1 < side) + [here + 1] * (column + 1 < side)
            for there in ahead:
                edges[here, there] = edges[there, here] = draw.randint(1, 20)
    return edges


def main():
    words = argparse.ArgumentParser()
    words.add_argument("shape", choices=["random", "grid"])
    words.add_argument("vertices", type=int)
    words.add_argument("edges", type=int)
    words.add_argument("rounds", type=int, nargs="?", default=0)
    words.add_argument("--no-refresh", action="store_true")
    words.add_argument("--one-refresh", action="store_true")
    asked = words.parse_args()
    draw = random.Random(2026)
    if asked.shape == "random":
        edges = random_edges(draw, asked.vertices, asked.edges)
    else:
        edges = grid_edges(draw, asked.vertices)
    lines = [f"{source} {target} {weight}" for (source, target), weight in edges.items()]
    said = []
    for first in range(0, len(lines), BLOCK):
        block = lines[first : first + BLOCK]
        said += [f"import list {len(block)}", *block]
    refresh = [] if asked.no_refresh else ["refresh"]
    said += refresh
    pairs = list(edges)
    for _ in range(asked.rounds):
        source, target = draw.choice(pairs)
        said += [f"reweigh {source} {target} {draw.randint(1, 100)}", "commit"]
        said += [] if asked.one_refresh else refresh
    print("\n".join(said))


main()

#!/usr/bin/env python3
"""Times each refresh of a session by itself, from the command to its answer, and what it takes of the processor in all.

rounds.py SHAPE VERTICES EDGES ROUNDS [options of pregeld]

The session is that of workload.py with these words, with a check at its end, which makes a run from scratch. Prints the
first refresh, the check and their ratio, what a refresh after one changed edge took on average and where at most 1,000
calls were needed, and the three dearest: by the clock until the answer was
there, and in processor time until the program waited for the next command, since it lets go of what it has no more use
for after it has answered. PREGELD names a built program in place of crates/pregeld_main/out/pregeld_main. Needs Linux's
/proc, and for the clock a machine on which nothing else runs."""
import os
import statistics
import subprocess
import sys

from served import Program, commands

BENCH = os.path.dirname(os.path.abspath(__file__))
PREGELD = os.environ.get("PREGELD") or f"{BENCH}/../crates/pregeld_main/out/pregeld_main"
FEW = 1_000
GOAL = 0.010


def told(seconds):
    few = f"median {statistics.median(seconds) * 1e3:.1f} ms, most {max(seconds) * 1e3:.1f} ms"
    return f"{few}, {sum(it > GOAL for it in seconds)} over {GOAL * 1e3:.0f} ms"


def main():
    shape, vertices, edges, rounds, *options = sys.argv[1:]
    words = [sys.executable, f"{BENCH}/workload.py", shape, vertices, edges, rounds]
    lines = subprocess.run(words, stdout=subprocess.PIPE, check=True, text=True).stdout.splitlines()
    program = Program([PREGELD, *(options or ["--program", "sssp"]), "--limit", "10000"])
    took = []
    for command, block in commands(lines):
        told_and_timed = program.answer([command, *block])
        if command == "refresh":
            answer, clock, used = told_and_timed
            took.append((clock, used, int(answer.split()[8])))
    answer, check, _ = program.answer(["check"])
    program.process.stdin.close()
    (clock, used, calls), *later = took
    few = [it for it in later if it[2] <= FEW]
    mean_clock, mean_used, _ = (statistics.mean(it) for it in zip(*later))
    print(f"{shape}: first refresh {clock:.2f} s ({used:.2f} s of the processor), {calls} calls; "
          f"after one edge {mean_clock * 1e3:.1f} ms ({mean_used * 1e3:.1f} ms) on average")
    print(f"  a check then {check:.2f} s ({' '.join(answer.split())}): the first refresh took {clock / check:.1f} times as long")
    print(f"  {len(few)} of {len(later)} need at most {FEW} calls: {told([it[0] for it in few])};")
    print(f"  of the processor: {told([it[1] for it in few])}")
    for what, dearest in ("calls", later), (f"calls, of those with at most {FEW}", few):
        for clock, used, calls in sorted(dearest, reverse=True)[:3]:
            print(f"  {clock * 1e3:.1f} ms ({used * 1e3:.1f} ms) for {calls} {what}")


main()

#!/usr/bin/env bash
# Times refreshes after one changed edge, compared with the first refresh of the same session.
# usage: bench/edits.sh [small|full] [ROUNDS] [PROGRAM] [options of pregeld]        needs python3
# For each shape: the first refresh (the session with it less the import), one commit, and one refresh after it (the
# rounds with refreshes less those without, by their number), with its calls of compute. Times are the least of 3 turns.
# PREGELD names a built program in place of crates/pregeld_main/out/pregeld_main.
set -eu
bench=$(cd "$(dirname "$0")" && pwd)
size=${1:-full}
rounds=${2:-100}
program=${3:-sssp}
shift $(( $# < 3 ? $# : 3 ))
. "$bench/setup.sh"
for shape in random grid; do
  python3 "$bench/workload.py" $shape $vertices $edges --no-refresh > "$work/$shape.import"
  python3 "$bench/workload.py" $shape $vertices $edges > "$work/$shape.first"
  python3 "$bench/workload.py" $shape $vertices $edges "$rounds" --one-refresh > "$work/$shape.commits"
  python3 "$bench/workload.py" $shape $vertices $edges "$rounds" > "$work/$shape.edits"
done
echo "load of the machine: $(cut -d' ' -f1-3 /proc/loadavg)"
PYTHONDONTWRITEBYTECODE=1 PYTHONPATH=$bench python3 - "$work" "$rounds" "$pregeld" --program "$program" --limit 10000 "$@" <<'P'
import statistics
import sys
from timing import least

work, rounds, words = sys.argv[1], int(sys.argv[2]), sys.argv[3:]
for shape in "random", "grid":
    sessions = {what: (words, f"{work}/{shape}.{what}") for what in ("import", "first", "commits", "edits")}
    ran = least(sessions, 3)
    seconds = {what: time for what, (time, _) in ran.items()}
    lines = ran["edits"][1].decode().splitlines()
    calls = [int(line.split()[8]) for line in lines if line.startswith("refreshed")]
    first = seconds["first"] - seconds["import"]
    commit = (seconds["commits"] - seconds["first"]) / rounds
    refresh = max(1e-9, seconds["edits"] - seconds["commits"]) / rounds
    print(f"{shape:6} first refresh {first:.3f} s, {calls[0]} calls; commit {commit * 1e3:.3f} ms; refresh after it "
          f"{refresh * 1e3:.3f} ms, calls: median {statistics.median(calls[1:])}, most {max(calls[1:])}; "
          f"1/{first / refresh:.0f} of the first", flush=True)
P

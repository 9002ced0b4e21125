#!/usr/bin/env bash
# Compares pregeld with baseline.rs, a Pregel written by hand in plain Rust, on the same sessions.
# usage: bench/compare.sh [small|full] [TURNS]        needs rustc and python3
# For each shape: the import alone, the first refresh (the whole session less the import), those of programs by hand
# that keep what pregeld keeps, the ratios, and whether all wrote the same answers. Times are the least of TURNS turns (5),
# in seconds.
# PREGELD names a built program in place of crates/pregeld_main/out/pregeld_main.
set -eu
bench=$(cd "$(dirname "$0")" && pwd)
size=${1:-full}
turns=${2:-5}
. "$bench/setup.sh"
rustc -O -o "$work/baseline" "$bench/baseline.rs"
for shape in random grid; do
  python3 "$bench/workload.py" $shape $vertices $edges --no-refresh > "$work/$shape.import"
  { cat "$work/$shape.import"; printf 'refresh\ndump\n'; } > "$work/$shape.whole"
done
echo "load of the machine: $(cut -d' ' -f1-3 /proc/loadavg)"
PYTHONDONTWRITEBYTECODE=1 PYTHONPATH=$bench python3 - "$work" "$pregeld" "$turns" <<'P'
import sys
from timing import least

work, pregeld, turns = sys.argv[1], sys.argv[2], int(sys.argv[3])
programs = {
    "by hand": [work + "/baseline"],
    "keeping": [work + "/baseline", "--keep"],
    "keeping flat": [work + "/baseline", "--flat"],
    "pregeld": [pregeld, "--program", "sssp", "--limit", "10000"],
}
for shape in "random", "grid":
    times = least(
        {
            (who, part): (words, f"{work}/{shape}.{part}")
            for who, words in programs.items()
            for part in ("import", "whole")
        },
        turns,
    )
    seconds = {name: taken for name, (taken, _) in times.items()}
    same = len({times[who, "whole"][1] for who in programs}) == 1
    for part, whom in ("import", "by hand"), ("refresh", "by hand"), ("refresh", "keeping"), ("refresh", "keeping flat"):
        hand, ours = (
            seconds[who, "import"] if part == "import" else seconds[who, "whole"] - seconds[who, "import"]
            for who in (whom, "pregeld")
        )
        print(f"{shape:7} {part:8} {whom} {hand:6.3f} s, pregeld {ours:6.3f} s, ratio {ours / max(hand, 1e-3):.2f}")
    print(f"{shape:7} answers  {'the same' if same else 'DIFFERENT'}")
P

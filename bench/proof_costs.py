"""What each function of a crate costs the prover: python3 bench/proof_costs.py CRATE [HOW MANY]

Run it after a check from nothing by one job: rm -rf crates/CRATE/out/incremental, and in crates/CRATE `rt check --jobs 1`.
The prover writes a file for each module as it is done, so what a module took is the time since the file before it. Of each
function it prints the seconds of its transitions (Lts, with the megabytes), of its goals (Proof: what is searched for or
answered by hand), of what ties both to the code (Tie) and of all else, the dearest functions first.
"""

import collections
import os
import re
import sys

PARTS = ("Lts", "Proof", "Tie")


def files_of(folder):
    """The prover's files below a folder, by the time at which they were written."""
    found = []
    for place, _, names in os.walk(folder):
        for name in names:
            if name.endswith(".oantt"):
                stat = os.stat(os.path.join(place, name))
                found.append((stat.st_mtime_ns, place, name, stat.st_size))
    return sorted(found)


def named(name):
    """The function and the part that a file is of."""
    module = re.sub(r"\.oantt$|\.decls\.oantt$", "", name)
    module = re.sub(r"^Rattle-\w+-(proofs|specs)?\.?", "", module)
    function, _, part = module.rpartition(".")
    return (function, part) if part in PARTS else (function, "rest")


def main():
    if len(sys.argv) < 2:
        sys.exit(__doc__)
    folder, most = f"crates/{sys.argv[1]}/out/incremental", int(sys.argv[2]) if len(sys.argv) > 2 else 30
    files = files_of(folder)
    if not files:
        sys.exit(f"no check has left anything in {folder}")
    seconds, sizes = collections.defaultdict(collections.Counter), collections.Counter()
    before = files[0][0]
    for time, place, name, size in files:
        function, part = named(name)
        seconds[function][part] += (time - before) / 1e9
        before = time
        if part == "Lts" and not place.endswith("records"):
            sizes[function] += size / 1e6
    whole = sum(seconds.values(), collections.Counter())
    print(f"{whole.total():.0f} s in all: " + ", ".join(f"{part} {whole[part]:.0f}" for part in (*PARTS, "rest")) + f"; Lts {sizes.total():.0f} MB")
    for function, of in sorted(seconds.items(), key=lambda it: -it[1].total())[:most]:
        parts = "  ".join(f"{part} {of[part]:5.1f}" for part in (*PARTS, "rest"))
        print(f"{of.total():6.1f}  {parts}  {sizes[function]:4.1f} MB  {function or '(the crate)'}")


main()

#!/usr/bin/env python3
"""Eight readers look without a pause while a thread edits and refreshes 1,000 times on four workers: load.py DRIVER

DRIVER is what faults.sh makes of faults.rt.txt. Its program's values, aggregate and supersteps all tell the edition, so that a
look that isn't one publication's whole answer is seen (torn). It prints how many looks there were, how many weren't given,
were torn or went back, and the resident memory after 100 refreshes and after 1,000. It ends with status 1 where a look was at
fault, or where the memory has grown by more than a twentieth."""
import re
import subprocess
import sys


def resident(process):
    return int(re.search("VmRSS:\\s+([0-9]+)", open(f"/proc/{process.pid}/status").read())[1])


def main():
    driver = subprocess.Popen([sys.argv[1], "looks"], stdin=subprocess.PIPE, stdout=subprocess.PIPE, text=True)
    took = []
    for line in driver.stdout:
        if not line.startswith("refreshes"):
            break
        took.append(resident(driver))
        print(f"{line.strip()}: resident memory {took[-1]} kB", flush=True)
        driver.stdin.write("\n")
        driver.stdin.flush()
    print(line.strip())
    is_right = "missed 0 torn 0 back 0 refreshes at fault 0" in line and driver.wait() == 0
    sys.exit(0 if is_right and took[1] <= took[0] * 1.05 else 1)


main()

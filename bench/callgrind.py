"""What `valgrind --tool=callgrind` counts of a session: for instructions.py, warm.py and hot.py."""
import os
import re
import subprocess
import sys

BENCH = os.path.dirname(os.path.abspath(__file__))


def session(*words):
    """The session of workload.py with these words."""
    return subprocess.run([sys.executable, f"{BENCH}/workload.py", *words], capture_output=True, text=True, check=True).stdout


def counted(command, lines, file, *flags):
    """Runs a command on a session, leaves the counts in a file, and gives what it prints and all instructions."""
    words = ["valgrind", "--tool=callgrind", f"--callgrind-out-file={file}", *flags, *command]
    ran = subprocess.run(words, input=lines, capture_output=True, text=True, check=True)
    return ran.stdout, int(re.search(r"refs:\s+([\d,]+)", ran.stderr)[1].replace(",", ""))


def run(program, lines, file, *flags):
    """Of the shortest paths: the calls of compute of the first refresh, and all instructions."""
    said, total = counted([program, "--program", "sssp", "--limit", "10000"], lines, file, *flags)
    calls = re.search(r"^refreshed .* calls (\d+)", said, re.M)
    return int(calls[1]) if calls else 0, total


def own(file):
    """Of each line of counts that a function has by itself: its name, the position, and how many instructions; positions are
    lines of source, or with --dump-instr=yes addresses."""
    names, function, at, is_call = {}, None, 0, False
    for line in open(file, encoding="utf-8", errors="replace"):
        name = re.match(r"(c?)fn=\((\d+)\)(?: (.*))?", line)
        if name:
            names.setdefault(name[2], (name[3] or "").strip())
            function = function if name[1] else name[2]
        elif line.startswith("calls="):
            is_call = True
        elif line[:1].isdigit() or line[:1] in "+-*":
            word, *_, count = line.split()
            at = at if word == "*" else at + int(word, 0) if word[0] in "+-" else int(word, 0)
            if not is_call:
                yield names.get(function, ""), at, int(count)
            is_call = False

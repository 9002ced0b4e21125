"""The least wall time of commands that run in turn: noise of other loads disturbs it least."""
import subprocess
import time


def least(commands, turns):
    """commands: {name: (words, file of standard input)}; gives {name: (seconds, output)}."""
    best = {}
    for _ in range(turns):
        for name, (words, given) in commands.items():
            with open(given, "rb") as lines:
                start = time.perf_counter()
                done = subprocess.run(words, stdin=lines, stdout=subprocess.PIPE, check=True)
                seconds = time.perf_counter() - start
            if name not in best or seconds < best[name][0]:
                best[name] = seconds, done.stdout
    return best

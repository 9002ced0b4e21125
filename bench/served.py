"""A program on a session, command by command, with the time that each takes: for rounds.py and partitions.py."""
import subprocess
import time


def commands(lines):
    """Gives each command with the lines of its block, where it has one. All but `reweigh` have one line of answer."""
    rest = iter(lines)
    for line in rest:
        length = int(line.split()[2]) if line.startswith("import") else 0
        yield line, [next(rest) for _ in range(length)]


class Program:
    """The program on a session, with the time that it has taken."""

    def __init__(self, words):
        pipe = subprocess.PIPE
        self.process = subprocess.Popen(words, stdin=pipe, stdout=pipe, text=True)

    def waits(self):
        """Whether it waits for a command, or has ended."""
        with open(f"/proc/{self.process.pid}/stat") as it:
            return it.read().rpartition(")")[2].split()[0] in "SZ"

    def used(self):
        """Its processor time once it waits for a command."""
        while not self.waits():
            time.sleep(0.0002)
        with open(f"/proc/{self.process.pid}/schedstat") as it:
            return int(it.read().split()[0]) / 1e9

    def answer(self, lines):
        """Its answer to a command of these lines, the seconds until that was there, and what it took of the processor."""
        before, start = self.used(), time.perf_counter()
        self.process.stdin.write("\n".join([*lines, ""]))
        self.process.stdin.flush()
        if lines[0].startswith("reweigh"):
            return None
        answer = self.process.stdout.readline()
        answered = time.perf_counter() - start
        return answer, answered, self.used() - before

    def end(self):
        """Lets it end, and gives the most memory that it had, in MB."""
        with open(f"/proc/{self.process.pid}/status") as it:
            most = next(int(line.split()[1]) for line in it if line.startswith("VmHWM"))
        self.process.stdin.close()
        self.process.wait()
        return most / 1024


def refreshes(words, lines):
    """Of each refresh of a session: the seconds until its answer was there, and its calls of compute; and the most memory
    that the program had, in MB."""
    program, took = Program(words), []
    for command, block in commands(lines):
        answer = program.answer([command, *block])
        if command == "refresh":
            took.append((answer[1], int(answer[0].split()[8])))
    return took, program.end()

#!/usr/bin/env python3
"""Refuses what a program asks for, one by one, and prints how each run ended: faults.py DRIVER PROGRAM REFUSE

DRIVER is what faults.sh makes of faults.rt.txt, PROGRAM is pregeld, REFUSE the library of refuse.c. A row of the table is a
call, how many places were tried, and how many runs ended in each way. Of sessions, the output is compared with what
reference.py answers, where a command that was answered with want of memory is refused there too. It ends with status 1 where
anything crashed or was wrong; such runs are listed with the number of their place."""
import collections
import functools
import os
import re
import subprocess
import sys

import reference

MARK = (64 << 20) + 40
CALLS = ["edit", "read_list", "read_list_at_fault", "read_csv", "read_csv_at_fault", "into_batch", "refresh_cold", "refresh_warm",
         "refresh_after_refused", "refresh_cold_on_workers", "refresh_warm_on_workers", "refresh_after_refused_on_workers",
         "refresh_where_a_worker_falls", "refresh_that_bears_no_loss", "save", "load", "publish"]
WORDS = ["--program", "sssp", "--partitions", "3", "--workers", "2", "--every", "1"]
OPTIONS = reference.options_of(WORDS)
SOME = 250
AT_FAULT = []


def ran(words, refuse, text=b"", **asked):
    environment = dict(os.environ, LD_PRELOAD=refuse, **{name: str(value) for name, value in asked.items()})
    return subprocess.run(words, input=text, capture_output=True, check=False, env=environment)


def counted(words, refuse, what, text=b"", **asked):
    """How many allocations or threads a run asks for."""
    said = ran(words, refuse, text, COUNT=1, **asked).stderr.decode()
    return int(re.search(f"{what} ([0-9]+)", said)[1])


def tallied(name, ends):
    """How many runs ended in each way; those at fault are noted."""
    tally = collections.Counter()
    for place, end in enumerate(ends, 1):
        tally[end] += 1
        if re.match("WRONG|status|no such", end):
            AT_FAULT.append(f"{name} at {place}: {end}")
    return tally


def row(name, *columns):
    """A row of the table; each column has the ends of as many runs."""
    tallies = [tallied(name, ends) for ends in columns]
    cells = ["; ".join(f"{count} {end}" for end, count in sorted(tally.items())) for tally in tallies]
    print("|", " | ".join([name, str(sum(tallies[0].values())), *cells, *["-"] * (3 - len(cells))]), "|", flush=True)


def allocations(name, words, refuse, end, text=b"", **asked):
    """A row of runs from which one allocation is refused, and of runs from which some after it are, or all."""
    count = counted(words, refuse, "allocations", text, **asked)

    def ends(every):
        return (end(ran(words, refuse, text, REFUSE=at, EVERY=every, **asked)) for at in range(1, count + 1))

    row(name, ends(0), ends(SOME), ends(1))


def end_of_call(done):
    return done.stdout.decode().strip() if done.returncode == 0 else f"status {done.returncode}"


# What sessions are to answer.

def told(session):
    """What the driver tells of a service."""
    graph = "".join(f" {id}={value}" + "".join(f",{to}:{weight}" for to, weight in sorted(edges.items()))
                    for id, (value, edges) in sorted(session.graph.items()))
    text = f"graph of {session.edition}:{graph}"
    if session.run:
        run = session.run
        text += f"; answer of {session.published}: {run.supersteps} {run.gathered} {run.sent} {run.dropped}"
        text += "".join(f" {id}={value}" for id, (value, _, _) in sorted(run.states.items()))
    return text


REFUSALS = {"commit": ["refused 1 position 0"], "import": ["import refused 1 line 0", "refused 1 position 0"],
            "refresh": ["refused 1", "refused 2", "refused 3"], "check": ["refused 1"]}


class Wanted:
    """What a session may answer."""

    def __init__(self, text):
        self.text, self.found = text, {}

    def beside(self, lines):
        """The session in which those commands are refused that these lines say were: its lines, which those are, and after
        each command how many lines there were and what the service was."""
        key = "\n".join(lines)
        if key not in self.found:
            refused, stages = [], [(0, told(reference.Session(OPTIONS)))]

            def refusal(session, command):
                said = lines[len(session.lines)] if len(session.lines) < len(lines) else None
                if said in REFUSALS.get(command, []):
                    refused.append(said)
                    return said
                return None

            whole = reference.session_of(OPTIONS, self.text, refusal, lambda it: stages.append((len(it.lines), told(it))))
            self.found[key] = whole.lines, refused, stages
        return self.found[key]

    def end(self, lines, ended, state=None):
        """How a session ended that has answered these lines, and whose service stands in this state, where it is known."""
        whole, refused, stages = self.beside(lines)
        if ended == "output":  # a line may be cut
            return "ended: output" if "\n".join(whole).startswith("\n".join(lines)) else "WRONG output"
        if lines != with_losses(lines, whole):
            return "WRONG output"
        if state is not None and (len(lines), state) not in (stages if ended == "memory" else stages[-1:]):
            return "WRONG state"
        if ended != "Ok":
            return f"ended: {ended}"
        if len(lines) != len(whole):
            return "WRONG length"
        if refused:
            return f"`{refused[0]}`" if len(set(refused)) == 1 else "several refusals"
        return "Ok" if lines == whole else "Ok, with losses"


def with_losses(lines, whole):
    """The wanted lines, with the losses that the lines tell of a refresh and no fewer calls than were wanted."""
    made, counts = [], None
    for line, wanted in zip(lines, whole):
        told, of = (re.fullmatch("(refreshed .*) calls ([0-9]+) losses ([0-9]+)", it) for it in (line, wanted))
        if of:
            counts = told.group(2, 3) if told and int(told[3]) > 0 and int(told[2]) >= int(of[2]) else None
            wanted = f"{of[1]} calls {counts[0]} losses {counts[1]}" if counts else wanted
        elif wanted.startswith("{") and counts:
            wanted = re.sub('"calls":[0-9]+,(.*)"losses":0', rf'"calls":{counts[0]},\1"losses":{counts[1]}', wanted)
        made.append(wanted)
    return made


def end_of_serve(wanted, done):
    if done.returncode != 0:
        return f"status {done.returncode}"
    ended, *lines, state = done.stdout.decode().splitlines()
    return wanted.end(lines, ended if ended == "Ok" else ended.lower(), state)


def end_of_start(wanted, done):
    if done.returncode != 0:
        return f"status {done.returncode}"
    first, *lines = done.stdout.decode().splitlines()
    return end_by_status(wanted, int(first.split()[1]), lines)


def end_of_program(wanted, done):
    return end_by_status(wanted, done.returncode, (done.stdout + done.stderr).decode().splitlines())


def end_by_status(wanted, status, lines):
    """The same of a session whose exit status is known, and its lines with those of standard error."""
    hints = [line.removeprefix("pregeld: ") for line in lines if line.startswith("pregeld: ")]
    lines = [line for line in lines if not line.startswith("pregeld: ")]
    if status == 0:
        return wanted.end(lines, "Ok")
    if status == 1 and hints[:1] in (["memory"], ["input"], ["output"]):
        return wanted.end(lines, hints[0])
    return f"status {status}"


SESSIONS = {"serve": end_of_serve, "serve_on_workers": end_of_serve, "start": end_of_start}


def main():
    driver, program, refuse = map(os.path.abspath, sys.argv[1:4])
    print(f"| Call | Places | One is refused | And each {SOME}th after it | And all after it |\n|---|---|---|---|---|")
    for name in CALLS:
        allocations(name, [driver, name], refuse, end_of_call, MARK=MARK)
    text = subprocess.run([driver, "session"], capture_output=True, check=True).stdout
    wanted, whole = Wanted(text.decode()), [program, *WORDS]
    for name, end in SESSIONS.items():
        allocations(name, [driver, name], refuse, functools.partial(end, wanted), MARK=MARK)
    allocations("pregeld", whole, refuse, functools.partial(end_of_program, wanted), text)
    row("each put and get of a shelf", lines_of([driver, "shelves"]))
    row("each read of serve", lines_of([driver, "reads"]))
    row("each write of serve", lines_of([driver, "writes"]))
    row("each read of pregeld", until_well(wanted, whole, refuse, text, "READ"))
    row("each write of pregeld", until_well(wanted, whole, refuse, text, "WRITE"))
    threads = counted(whole, refuse, "threads", text)
    row("each thread of pregeld", (end_of_program(wanted, ran(whole, refuse, text, THREAD=at)) for at in range(1, threads + 1)))
    row("all threads of pregeld", [end_of_program(wanted, ran(whole, refuse, text, THREAD=1, EVERY=1))])
    print("\n".join(AT_FAULT) or "none crashed, and none was wrong")
    sys.exit(1 if AT_FAULT else 0)


def lines_of(words):
    done = subprocess.run(words, capture_output=True, check=False)
    return done.stdout.decode().splitlines() + ([f"status {done.returncode}"] if done.returncode else [])


def until_well(wanted, whole, refuse, text, what):
    """The ends of runs whose first, second, .. call fails, until one has so few calls that it ends well."""
    for at in range(1, 1_000_000):
        end = end_of_program(wanted, ran(whole, refuse, text, **{what: at}))
        yield end
        if end == "Ok":
            return


if __name__ == "__main__":
    main()

#!/usr/bin/env python3
"""Runs sessions that no one would write by the program and by the second computation of reference.py, and says for each
kind how many were answered otherwise: python3 bench/hostile.py PROGRAM [RANDOM [JOBS]]

bytes    each byte in each command: before it, in its first word, between words, behind it
long     lines of a megabyte: blanks, digits and letters in each command, comments, fields and quotes in import blocks
cut      a session cut at each byte
returns  the same with a carriage return at each place, and with one in place of each other byte
quotes   a comma list with a quote more, or two, at each place
random   RANDOM sessions (20,000 where it isn't said), 1 to 12 bytes of each changed, taken out or put in

Statuses are compared too, and that standard error is empty or tells of the first line at fault. Sessions that are answered
otherwise are written to the folder `hostile` next to the program."""
import multiprocessing
import os
import random
import subprocess
import sys

import reference

MEGABYTE = 1 << 20
COMMANDS = ["vertex 77 5", "input 1 3", "unvertex 3", "edge 1 4 2", "reweigh 1 2 9", "unedge 2 3", "commit", "import list 1",
            "import csv 1", "refresh", "get 1", "agg reached", "dump", "report", "check"]
START = "import list 3\n1 2 5\n2 3\n3 4 -1\nrefresh\n"
END = "commit\nrefresh\ndump\nreport\ncheck\n"
WHOLE = ("dump\nimport list 3\r\n# a list\n1 2 5\r\n2\t3\nrefresh\nimport csv 4\nsource,target,weight\n\"3\",1\r\n4 , 5,-7\n\n"
         "fly\nvertex 9\nedge 1 3 2\nedge 9 9\nunvertex 5\ncommit\nrefresh\nget 3\nagg reached\nreport\ncheck\ndump\n")
CSV = ["1,2,5", "2,3", " 7 ,8,-4", "9,\"1\",2"]
PATHS = ["--program", "sssp", "--limit", "12"]


def of_bytes():
    for command in COMMANDS:
        first, _, rest = command.partition(" ")
        for place in range(4):
            lines = []
            for byte in map(chr, range(256)):
                inside = first[:2] + byte + first[2:]
                words = [(byte + first, rest), (inside, rest), (first + byte, rest), (first, rest + byte)]
                lines.append(" ".join(words[place]).rstrip(" ") + "\n5 6 7\n")
            yield PATHS, START + "".join(lines) + END


def of_long():
    long_words = [letter * MEGABYTE for letter in "9x\xff\0"] + ["0" * MEGABYTE + "1", "-" + "0" * MEGABYTE]
    for command in COMMANDS:
        words = command.split()
        yield PATHS, START + " " * MEGABYTE + ("\t" * MEGABYTE).join(words) + " " * MEGABYTE + "\r\n1 2\n" + END
        for place in range(len(words) + 1):
            for word in long_words:
                yield PATHS, START + " ".join(words[:place] + [word] + words[place + 1 :]) + "\n1 2\n" + END
    for form, between in ("list", " "), ("csv", ","):
        rows = [f"{word}{between}2" for word in long_words] + [f"1{between}{word}" for word in long_words]
        rows += [f"1{between}2{between}{word}" for word in long_words] + [f'"{word}"{between}2' for word in long_words]
        rows += [word * MEGABYTE for word in ('"', between, "\r", "1 2 3 ")]
        rows += ["#" + "y" * MEGABYTE, '"' + "1,\r" * MEGABYTE]
        for row in rows:
            yield PATHS, f"{START}import {form} 2\n4 5\n{row}\n{END}"
            yield PATHS, f"{START}import {form} 2\n{row}"
    yield PATHS, START + "#" + "z" * MEGABYTE + "\n" + "\xff" * 3 + "\n" + "#\xff\0\n" + "\n" * MEGABYTE + "fly\n" + END


def of_cut():
    for at in range(len(WHOLE) + 1):
        yield PATHS, WHOLE[:at]


def of_returns():
    for at in range(len(WHOLE) + 1):
        yield PATHS, WHOLE[:at] + "\r" + WHOLE[at:]
        yield PATHS, WHOLE[:at] + "\r" + WHOLE[at + 1 :]


def of_quotes():
    text = "\n".join(CSV)
    for one in range(len(text) + 1):
        for two in range(one, len(text) + 2):
            said = text[:one] + '"' + text[one:]
            said = said if two > len(text) else said[:two] + '"' + said[two:]
            yield PATHS, f"{START}import csv {len(CSV)}\n{said}\n{END}import csv {len(CSV)}\n{said}"


def changed(draw, text):
    """The text with a few bytes changed."""
    for _ in range(draw.randint(1, 12)):
        at, what = draw.randint(0, len(text)), draw.randint(0, 6)
        byte = chr(draw.randint(0, 255)) if what < 2 else draw.choice('0123456789 \t\r\n,"#-\0\xff')
        if what == 5:
            to = draw.randint(at, min(len(text), at + 20))
            text = text[:at] + text[to:] if draw.randint(0, 1) else text[:to] + text[at:to] + text[to:]
        else:
            text = text[:at] + ("" if what == 6 else byte) + text[at + draw.randint(0, 1) :]
    return text


def session(draw, options):
    """Imports of both forms, and then batches of edits that have a result, each with a refresh and questions."""
    text = ""
    for form, between in [("list", " "), ("csv", ",")] * 3:
        rows = [between.join(str(draw.randint(1, 12)) for _ in range(draw.randint(2, 3)))
                for _ in range(draw.randint(1, 5))]
        text += f"import {form} {len(rows)}\n" + "\n".join(rows) + "\n"
    graph = reference.session_of(options, text).graph
    text += "refresh\n"
    for _ in range(3):
        edits, graph = reference.random_batch(draw, graph, draw.randint(1, 4))
        text += "\n".join(" ".join(map(str, edit)) for edit in edits) + "\ncommit\nrefresh\n"
        text += draw.choice(["report\n", "dump\n", "check\n"]) + draw.choice(["get 1\n", "agg reached\n", "agg change\n"])
    return text + "dump\nreport\n"


def of_random(count):
    for number in range(count):
        draw = random.Random(number)
        words = ["--program", draw.choice(reference.PROGRAMS), "--missing", draw.choice(["drop", "create"])]
        words += ["--combiner", draw.choice(["none", "min", "max", "sum"])]
        words += ["--limit", "12", "--rounds", "6", "--eps", "50000000", "--partitions", str(draw.randint(1, 5))]
        words += ["--workers", str(draw.randint(1, 3)), "--every", str(draw.randint(0, 2))]
        yield words, changed(draw, session(draw, reference.options_of(words)))


def is_same(asked):
    program, words, text = asked
    ran = subprocess.run([program, *words], input=text.encode("latin-1"), capture_output=True, check=False)
    errors = ran.stderr
    is_told = not errors or (errors.startswith(b"pregeld: line ") and errors.count(b"\n") == 1)
    wanted = reference.answers(reference.options_of(words), text)
    return is_told and ran.returncode == 0 and ran.stdout == wanted.encode("latin-1")


def keep(program, name, words, text):
    folder = os.path.join(os.path.dirname(program), "hostile", name)
    os.makedirs(folder, exist_ok=True)
    for file, said in ("args", "\n".join(words) + "\n"), ("stdin", text):
        with open(os.path.join(folder, file), "wb") as out:
            out.write(said.encode("latin-1"))


def main():
    program = os.path.abspath(sys.argv[1])
    count, jobs = map(int, sys.argv[2:] + ["20000", "1"][len(sys.argv) - 2 :])
    kinds = {"bytes": of_bytes(), "long": of_long(), "cut": of_cut(), "returns": of_returns(), "quotes": of_quotes(),
             "random": of_random(count)}
    all_differ = 0
    with multiprocessing.Pool(jobs) as pool:
        for kind, made in kinds.items():
            tried = differ = 0
            sessions, asked = [], []
            for words, text in made:
                sessions.append((words, text))
                asked.append((program, words, text))
                if len(asked) == 64:
                    tried, differ = tried + len(asked), differ + tally(pool, program, kind, tried, sessions, asked)
                    sessions, asked = [], []
            tried, differ = tried + len(asked), differ + tally(pool, program, kind, tried, sessions, asked)
            print(f"{kind}: {tried} sessions, {differ} answered otherwise", flush=True)
            all_differ += differ
    sys.exit(1 if all_differ else 0)


def tally(pool, program, kind, first, sessions, asked):
    """How many of these sessions are answered otherwise."""
    differ = 0
    for at, same in enumerate(pool.map(is_same, asked, 4)):
        if not same:
            differ += 1
            keep(program, f"{kind}_{first + at}", *sessions[at])
    return differ


if __name__ == "__main__":
    main()

#!/usr/bin/env python3
"""A second computation of what sessions answer, written only from the rules of the programs and commands.

reference.py FOLDER..               says of each stored session (args, stdin, stdout) below the folders whether it answers this
reference.py --random FOLDER ROUNDS  writes a random session for each program and policy into the folder, with its answers

A run keeps the inputs of each execution, and the calls of a refresh are those whose inputs aren't the same in the run
before. Texts are read as Latin-1, so that each byte is a character."""
import os
import random
import re
import sys

INF = 2**63 - 1
LEAST = -(2**63)
PROGRAMS = ["sssp", "cc", "max", "indegree", "pagerank", "peel"]
AGGREGATES = {"sssp": "reached", "max": "greatest", "indegree": "received", "pagerank": "change", "peel": "removed"}
EDITS = {"vertex": (2, 3), "input": (3,), "unvertex": (2,), "edge": (3, 4), "reweigh": (4,), "unedge": (3,)}
DEFAULTS = {"source": 1, "k": 2, "rounds": 30, "eps": 0, "limit": 1000}


def saturated(number):
    return max(LEAST, min(INF, number))


def wrapped(number):
    return (number - LEAST) % 2**64 + LEAST


def towards_zero(number, by):
    quotient = abs(number) // by
    return quotient if number >= 0 else -quotient


def options_of(words):
    options = dict(DEFAULTS, combiner="none", missing="drop")
    for name, value in zip(words[::2], words[1::2]):
        name = name.removeprefix("--")
        options[name] = int(value) if name in DEFAULTS else value
    return options


class Run:
    """A run from scratch: its answer, and the inputs of each execution."""

    def __init__(self, options, graph):
        self.options, self.program = options, options["program"]
        self.states = {id: [self.initial(id, value), dict(edges), False] for id, (value, edges) in graph.items()}
        self.inputs, self.sent, self.dropped, self.supersteps = {}, 0, 0, 0
        none = LEAST if self.program == "max" else 0
        self.gathered, self.ending, waiting = none, None, {}
        while self.ending is None:
            halts = self.master_halts()
            seen = none if self.program == "pagerank" else self.gathered
            waiting, contributed = self.superstep(waiting)
            for value in contributed:
                seen = max(seen, value) if self.program == "max" else wrapped(seen + value)
            self.gathered = seen
            self.supersteps += 1
            self.ending = self.ends(halts, waiting)

    def initial(self, id, value):
        return {"sssp": INF, "cc": id, "max": value, "indegree": 0, "pagerank": 0, "peel": 1}[self.program]

    def master_halts(self):
        eps = self.options["eps"]
        return self.program == "pagerank" and self.supersteps >= 2 and eps > 0 and 0 <= self.gathered <= eps

    def ends(self, halts, waiting):
        if halts:
            return "halted"
        if all(halted for _, _, halted in self.states.values()) and not waiting:
            return "finished"
        return "limit" if self.supersteps >= self.options["limit"] else None

    def superstep(self, waiting):
        number, total, sends, contributed = self.supersteps, len(self.states), [], []
        for id in sorted(waiting):
            self.states.setdefault(id, [self.initial(id, 0), {}, False])
        for id in sorted(self.states):
            messages = self.combined(waiting.get(id, []))
            value, edges, halted = self.states[id]
            if number > 0 and halted and not messages:
                continue
            seen = total if self.program == "pagerank" else None
            self.inputs[id, number] = value, tuple(sorted(edges.items())), tuple(messages), seen
            step = getattr(self, self.program)
            value, halted = step(number, id, value, edges, messages, total or 1, sends, contributed)
            self.states[id] = [value, edges, halted]
        delivered = {}
        for target, message in sends:
            self.sent += 1
            if target in self.states or self.options["missing"] == "create":
                delivered.setdefault(target, []).append(message)
            else:
                self.dropped += 1
        return delivered, contributed

    def combined(self, messages):
        combiner = self.options["combiner"]
        if combiner == "none" or not messages:
            return messages
        return [wrapped(sum(messages)) if combiner == "sum" else min(messages) if combiner == "min" else max(messages)]

    # What a vertex does in a superstep: its value and whether it is halted afterwards.

    def sssp(self, number, id, value, edges, messages, total, sends, contributed):
        distance = min([0 if id == self.options["source"] else INF] + messages)
        if distance < value:
            contributed += [1] if value == INF else []
            value = distance
            sends += [(target, saturated(distance + weight)) for target, weight in sorted(edges.items())]
        return value, True

    def cc(self, number, id, value, edges, messages, total, sends, contributed):
        best = min(messages, default=value)
        if number == 0 or best < value:
            value = value if number == 0 else best
            sends += [(target, value) for target in sorted(edges)]
        return value, True

    def max(self, number, id, value, edges, messages, total, sends, contributed):
        best = max(messages, default=value)
        if number == 0 or best > value:
            value = value if number == 0 else best
            contributed.append(value)
            sends += [(target, value) for target in sorted(edges)]
        return value, True

    def indegree(self, number, id, value, edges, messages, total, sends, contributed):
        if number == 0:
            sends += [(target, 1) for target in sorted(edges)]
            return value, False
        contributed.append(len(messages))
        return len(messages), True

    def pagerank(self, number, id, value, edges, messages, total, sends, contributed):
        old = value
        if number == 0:
            value = 10**12 // total
        else:
            share = towards_zero(wrapped(sum(messages)) * 85, 100)
            value = saturated(15 * 10**10 // total + share)
            contributed.append(saturated(abs(old - value)))
        if number >= self.options["rounds"]:
            return value, True
        sends += [(target, towards_zero(value, len(edges))) for target in sorted(edges)]
        return value, False

    def peel(self, number, id, value, edges, messages, total, sends, contributed):
        for message in messages:
            edges.pop(message, None)
        if value == 1 and len(edges) < self.options["k"]:
            value = 0
            contributed.append(1)
            sends += [(target, id) for target in sorted(edges)]
        return value, True


def edited(graph, edits):
    """The graph that a batch makes, or the number and the place of the first refusal."""
    graph = {id: (value, dict(edges)) for id, (value, edges) in graph.items()}
    for place, (what, id, *rest) in enumerate(edits, 1):
        if what == "vertex":
            if id in graph:
                return (2, place)
            graph[id] = rest[0], {}
            continue
        if id not in graph:
            return (3, place)
        edges = graph[id][1]
        if what == "unvertex":
            del graph[id]
        elif what == "input":
            graph[id] = rest[0], edges
        elif what == "edge" and rest[0] in edges:
            return (4, place)
        elif what in ("reweigh", "unedge") and rest[0] not in edges:
            return (5, place)
        elif what == "unedge":
            del edges[rest[0]]
        else:
            edges[rest[0]] = rest[1]
    return graph


def bare(line):
    return line.removesuffix("\n").removesuffix("\r")


def words_of(line):
    return [word for word in re.split("[ \t]+", line) if word]


def value_of(word):
    """The number that a word of digits writes, or one that is out of range as well."""
    number = int(word.lstrip("-").lstrip("0")[:30] or "0")
    return -number if word.startswith("-") else number


def number_of(word, least):
    """The number, or the fault of an edge list: 2 for no number, 3 for one out of range."""
    if not re.fullmatch("-?[0-9]+" if least < 0 else "[0-9]+", word):
        return None, 2
    number = value_of(word)
    return (number, None) if least <= number <= INF else (None, 3)


def records_of(text):
    """The records of a comma list: quotes may stand round a field, and two of them inside stand for one."""
    text = text.removeprefix("\xef\xbb\xbf")
    records, fields, field, at = [], [], [], "record"
    for letter in text:
        if at == "quoted":
            if letter == '"':
                at = "quote"
            else:
                field.append(letter)
        elif letter in "\r\n":
            if at != "record":
                records.append(fields + ["".join(field)])
            fields, field, at = [], [], "record"
        elif letter == ",":
            fields.append("".join(field))
            field, at = [], "field"
        elif letter == '"' and at != "bare":
            field += [letter] if at == "quote" else []
            at = "quoted"
        else:
            at = "bare"
            field.append(letter)
    return records if at == "record" else records + [fields + ["".join(field)]]


class Session:
    """What a service keeps, and the answers so far."""

    def __init__(self, options):
        self.options, self.graph, self.edition, self.pending = options, {}, 0, []
        self.published = self.run = self.report = None
        self.lines, self.kept = [], {}

    def say(self, line):
        self.lines.append(line)

    def commit(self, edits):
        made = edited(self.graph, edits) if len(edits) <= 100_000 else (6, 100_001)
        if isinstance(made, tuple):
            self.say(f"refused {made[0]} position {made[1]}")
            return
        self.graph, self.edition = made, self.edition + 1
        self.say(f"edition {self.edition}")

    def load(self, form, block):
        """Applies an edge list."""
        edits, ids, edges = [], set(self.graph), {(i, t) for i, (_, e) in self.graph.items() for t in e}
        if form == "list":
            rows = [words_of(bare(line)) for line in block]
        else:
            rows = [[word.strip(" \t") for word in record] for record in records_of("".join(block))]
        for place, words in enumerate(rows, 1):
            is_header = form == "csv" and place == 1 and len(words) > 1 and not any(re.match("[0-9]", it) for it in words[:2])
            if is_header or (form == "list" and (not words or words[0].startswith("#"))):
                continue
            if len(words) not in (2, 3):
                return self.say(f"import refused 4 line {place}")
            numbers = []
            for word, least in zip(words, (0, 0, LEAST)):
                number, fault = number_of(word, least)
                if fault:
                    return self.say(f"import refused {fault} line {place}")
                numbers.append(number)
            source, target, weight = (numbers + [1])[:3]
            for id in source, target:
                if id not in ids:
                    ids.add(id)
                    edits.append(("vertex", id, 0))
            edits.append(("reweigh" if (source, target) in edges else "edge", source, target, weight))
            edges.add((source, target))
        self.commit(edits)

    def refresh(self):
        run = Run(self.options, self.graph)
        calls = sum(1 for key, inputs in run.inputs.items() if self.kept.get(key) != inputs)
        self.say(f"refreshed edition {self.edition} supersteps {run.supersteps} ending {run.ending} calls {calls} losses 0")
        self.run, self.kept, self.published = run, run.inputs, self.edition
        self.report = (f'{{"calls":{calls},"dropped":{run.dropped},"edition":{self.edition},"ending":"{run.ending}",'
                       f'"losses":0,"sent":{run.sent},"supersteps":{run.supersteps}}}')

    def ask(self, words):
        if words == ["report"]:
            self.say(self.report or "unpublished")
        elif words == ["check"]:
            same = self.published == self.edition
            self.say(f"check same calls {len(self.run.inputs)}" if same else "check stale")
        elif self.run is None:
            self.say("unpublished")
        elif words == ["dump"]:
            for id, (value, _, _) in sorted(self.run.states.items()):
                self.say(f"value {id} {value}")
            self.say(f"end {len(self.run.states)}")
        elif words[0] == "get":
            id = value_of(words[1])
            state = self.run.states.get(id)
            self.say(f"value {id} {state[0]}" if state else f"none {id}")
        else:
            own = AGGREGATES.get(self.options["program"]) == words[1]
            self.say(f"aggregate {words[1]} {self.run.gathered}" if own else f"none {words[1]}")


FILES = ("args", "stdin", "stdout")
COUNTS = {"commit": (1,), "refresh": (1,), "report": (1,), "check": (1,), "dump": (1,), "get": (2,), "agg": (2,), "import": (3,)}
COUNTS.update(EDITS)


def fault_of(words):
    """The number of a line's fault, if it has one."""
    if words[0] not in COUNTS or not all(word.isascii() for word in words):
        return 1
    if len(words) not in COUNTS[words[0]]:
        return 2
    if words[0] in EDITS or words[0] == "get":
        ids = {"edge": 2, "reweigh": 2, "unedge": 2}.get(words[0], 1)
        if any(number_of(word, 0 if place < ids else LEAST)[1] for place, word in enumerate(words[1:])):
            return 3
    if words[0] == "import":
        number, fault = number_of(words[2], 0)
        if words[1] not in ("list", "csv") or fault or number > 100_000:
            return 3
    return None


def session_of(options, text, refusal=lambda session, command: None, after=lambda session: None):
    """The session of a text. What `refusal` gives for a command, if anything, is its answer: memory was wanted for it."""
    session, lines, at = Session(options), re.findall("[^\n]*\n|[^\n]+", text), 0
    while at < len(lines):
        words, at = words_of(bare(lines[at])), at + 1
        if not words or words[0].startswith("#"):
            continue
        at = answer(session, words, lines, at, refusal(session, words[0]))
        after(session)
    return session


def answer(session, words, lines, at, refusal):
    """Answers a command, and gives the number of the last line that it has taken."""
    fault, block = fault_of(words), []
    if words[0] == "import" and not fault:
        here, count = at, value_of(words[2])
        block, at = lines[at : at + count], at + count
        fault = 5 if session.pending else 4 if len(block) < count else None
        if fault:
            session.say(f"error {fault} line {here}")
            return at
    if fault:
        session.say(f"error {fault} line {at}")
    elif refusal:
        session.say(refusal)
        session.pending = [] if words[0] == "commit" else session.pending
        session.kept = {} if words[0] == "refresh" else session.kept
    elif words[0] in EDITS:
        numbers = [value_of(word) for word in words[1:]]
        missing = {("vertex", 1): [0], ("edge", 2): [1]}.get((words[0], len(numbers)), [])
        session.pending.append((words[0], *numbers, *missing))
    elif words[0] == "commit":
        session.commit(session.pending)
        session.pending = []
    elif words[0] == "import":
        session.load(words[1], block)
    elif words[0] == "refresh":
        session.refresh()
    else:
        session.ask(words)
    return at


def answers(options, text):
    """What a session answers to a text."""
    return "".join(line + "\n" for line in session_of(options, text).lines)


def sessions_below(folder):
    return sorted(at for at, _, files in os.walk(folder) if {"args", "stdin", "stdout"} <= set(files))


def compare(folders):
    for folder in folders:
        for name in sessions_below(folder):
            words, text, stored = (open(os.path.join(name, file), encoding="latin-1", newline="").read() for file in FILES)
            same = answers(options_of(words.split()), text) == stored
            print(name, "answers the same" if same else "DIFFERS")


def random_edit(draw, graph):
    """An edit that has a result, mostly; vertices are 1 to 12, and edges may lead to missing vertices."""
    ids = sorted(graph)
    edges = [(id, target) for id in ids for target in graph[id][1]]
    what = draw.choice(["vertex", "input", "unvertex", "edge", "edge", "edge", "reweigh", "reweigh", "unedge", "unedge"])
    id = draw.randint(1, 12) if what == "vertex" or not ids else draw.choice(ids)
    if what in ("reweigh", "unedge") and edges:
        id, target = draw.choice(edges)
    else:
        target = draw.randint(1, 12)
    weight = draw.randint(-2, 9)
    return {
        "vertex": ("vertex", id, weight), "input": ("input", id, weight), "unvertex": ("unvertex", id),
        "edge": ("edge", id, target, weight), "reweigh": ("reweigh", id, target, weight), "unedge": ("unedge", id, target),
    }[what]


def random_batch(draw, graph, size):
    """Edits that have a result one after another, and the graph that they make."""
    edits = []
    while len(edits) < size:
        edit = random_edit(draw, graph)
        made = edited(graph, [edit])
        if isinstance(made, dict):
            graph = made
            edits.append(edit)
    return edits, graph


def random_session(draw, rounds):
    """Batches of one to four edits, each followed by a refresh and questions; some are refused, and change nothing."""
    lines, graph = [], {}
    for number in range(rounds):
        edits, made = random_batch(draw, graph, 25 if number == 0 else draw.randint(1, 4))
        lines += [" ".join(map(str, edit)) for edit in edits]
        if draw.randint(1, 8) == 1:
            lines.append(f"edge 99 1 {number}")
        else:
            graph = made
        lines += ["commit", "refresh", "dump", "report"]
        lines += draw.choice([["check"], ["agg reached"], ["agg removed", "check"], ["refresh"]])
    return "\n".join(lines) + "\n"


def write_random(folder, rounds):
    for program in PROGRAMS:
        for missing in "drop", "create":
            draw = random.Random(f"{program} {missing}")
            words = ["--program", program, "--missing", missing, "--combiner", draw.choice(["none", "min", "max", "sum"])]
            words += {"pagerank": ["--rounds", "6", "--eps", "50000000"], "peel": ["--k", "2"]}.get(program, ["--limit", "40"])
            text = random_session(draw, rounds)
            name = os.path.join(folder, f"{program}_{missing}")
            os.makedirs(name, exist_ok=True)
            said = {"args": "\n".join(words) + "\n", "stdin": text, "stdout": answers(options_of(words), text)}
            for file, content in said.items():
                with open(os.path.join(name, file), "w") as out:
                    out.write(content)


if __name__ == "__main__":
    if sys.argv[1:2] == ["--random"]:
        write_random(sys.argv[2], int(sys.argv[3]))
    else:
        compare(sys.argv[1:] or sys.exit(__doc__))

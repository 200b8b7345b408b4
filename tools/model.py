#!/usr/bin/env python3
"""model.py: what felm must print, by a second, independent reading of the language.

usage: tools/model.py sync PROGRAM SCRIPT [--turn-steps N] [--stage-steps N] [--journal N]
       tools/model.py graph PROGRAM [--stage-steps N]
       tools/model.py run PROGRAM SCRIPT [--seed N] [--workers N] [--edge N] [the options of sync]
       tools/model.py judge PROGRAM SCRIPT TEXT [the options of sync]

`sync` and `graph` print what felm does. `run` prints what a run in another legal order of events leaves: with a seed always
the same, without one now this and now that. Workers and edges change nothing here. `judge` says of which run in any legal
order a text is the whole text, of one that is `complete`, `stopped` or `full`; where it is of none, the status is 14, and
the line says what the first wrong line of the text is and why. The text goes to standard output, the line of a fault to
standard error, and the exit status is the status's number, as felm's are.

This is a yardstick outside the proofs. It was written from the language's description (docs/LANGUAGE.md and
docs/FORMATS.md say the same) and shares no line and no representation with felm: tools/language.py reads and reduces
programs, and the meaning is the recursion on node and position with a memo. Nothing here is proved, and no proof stands on
it. It makes the expected results of examples/, and `tools/compare` runs it beside felm on random programs. It is slow, and
asks no more of Python than its standard library.
"""
import os
import random
import re
import sys
import threading

sys.dont_write_bytecode = True
from language import ALLOWED, DIGITS, LARGEST, UNIT, Fault, call, number, read_program, reduce, term_text  # noqa: E402

MOST_BYTES = 16_777_216
MOST_RESULT_BYTES = 268_435_456
MOST_NODES = 16_384


class Limits:
    """How far a run may go; the defaults are felm's."""

    def __init__(self, turn_steps=10_000, stage_steps=100_000, journal=1_048_576):
        self.turn_steps = turn_steps
        self.stage_steps = stage_steps
        self.journal = journal


# ---- Graphs ----

class Node:
    """An input, or a lift, foldp or async with the numbers of the nodes that it reads."""

    def __init__(self, form, arguments=(), function=None, base=None):
        self.form = form
        self.arguments = arguments
        self.function = function
        self.base = base


class Graph:
    def __init__(self, inputs, shared, last):
        self.inputs = inputs
        self.nodes = [Node("input") for _ in inputs]
        self.roots = []
        for term in shared:
            self.roots.append(self.place(term))
        self.main = self.place(last)
        if len(self.nodes) > MOST_NODES:
            raise Fault(8, f"the graph has more than {MOST_NODES} nodes")
        self.asyncs = [k for k, node in enumerate(self.nodes) if node.form == "async"]
        self.async_numbers = {k: number for number, k in enumerate(self.asyncs)}

    def place(self, term):
        """Adds the nodes of a signal term, arguments first, and gives the number of its root."""
        if term.form == "input":
            return term.parts[0]
        if term.form == "node":
            return self.roots[term.parts[0]]
        values = {"lift": 1, "foldp": 2, "async": 0}[term.form]
        arguments = tuple(self.place(part) for part in term.parts[values:])
        self.nodes.append(Node(term.form, arguments, *term.parts[:values]))
        return len(self.nodes) - 1

    def source_text(self, k):
        return f"@{self.async_numbers[k]}" if k in self.async_numbers else self.inputs[k][0]


def stage_one(term, inputs, budget):
    reduced = reduce(term, budget)
    if reduced is None:
        raise Fault(8, f"stage one takes more than {budget} steps")
    return Graph(inputs, reduced[0], reduced[1])


# ---- The meaning ----

class Meaning:
    """What every node of a graph says at every position of a journal: a recursion on node and position."""

    def __init__(self, graph, budget):
        self.graph = graph
        self.budget = budget
        self.journal = []
        self.memo = {}

    def message(self, k, position):
        """(whether the node changes, its value), or None where a call takes too many steps."""
        key = k, position
        if key not in self.memo:
            self.memo[key] = self.find_default(k) if position == 0 else self.find_message(k, position)
        return self.memo[key]

    def value(self, k, position):
        message = self.message(k, position)
        return message and message[1]

    def called(self, changed, function, arguments):
        value = call(function, arguments, self.budget)
        return None if value is None else (changed, value)

    def find_default(self, k):
        node = self.graph.nodes[k]
        if node.form == "input":
            return False, self.graph.inputs[k][2]
        if node.form == "foldp":
            return False, node.base
        values = [self.value(argument, 0) for argument in node.arguments]
        if None in values:
            return None
        return (False, values[0]) if node.form == "async" else self.called(False, node.function, values)

    def find_message(self, k, position):
        node = self.graph.nodes[k]
        before = self.value(k, position - 1)
        if node.form in ("input", "async"):
            source, value = self.journal[position - 1]
            if source == k:
                return True, value
            return None if before is None else (False, before)
        messages = [self.message(argument, position) for argument in node.arguments]
        if before is None or None in messages:
            return None
        if not any(changed for changed, _ in messages):
            return False, before
        values = [value for _, value in messages]
        return self.called(True, node.function, values + [before] if node.form == "foldp" else values)

    def is_over(self, k, position):
        """Whether the call of a node takes too many steps at a position of the journal, where all that it needs is there."""
        messages = [self.message(argument, position) for argument in self.graph.nodes[k].arguments]
        return self.message(k, position - 1) is not None and None not in messages and self.message(k, position) is None

    def gap(self, position):
        """The least node without a message at a position, or None."""
        return next((k for k in range(len(self.graph.nodes)) if self.message(k, position) is None), None)


# ---- Runs ----

class Journal:
    """A legal journal that grows, and the meaning over it: the script's events enter in their order, and each async's in
    the order of the changes of its signal, each behind its change."""

    def __init__(self, graph, script, budget):
        self.graph = graph
        self.script = script
        self.meaning = Meaning(graph, budget)
        self.events = self.meaning.journal
        self.fed = 0
        self.changes = {k: [] for k in graph.asyncs}
        self.entered = dict.fromkeys(graph.asyncs, 0)
        self.gap = self.meaning.gap(0)

    def possible(self):
        """The events that may be next: of each async the first change that waits, the least async first, and the script's
        next event."""
        waiting = [(k, changes[self.entered[k]]) for k, changes in self.changes.items() if self.entered[k] < len(changes)]
        return waiting + self.script[self.fed:self.fed + 1]

    def enter(self, event):
        """Appends one of the possible events; `gap` is the least node without a message there, or None."""
        self.events.append(event)
        if event[0] in self.changes:
            self.entered[event[0]] += 1
        else:
            self.fed += 1
        self.gap = self.meaning.gap(len(self.events))
        for k, changes in self.changes.items():
            message = self.meaning.message(self.graph.nodes[k].arguments[0], len(self.events))
            if message and message[0]:
                changes.append(message[1])


def let_enter(journal, limits, choose):
    """Lets events enter, each one chosen from those that may, until there is none, the journal is full, or a message is
    missing."""
    while journal.gap is None and len(journal.events) < limits.journal and (possible := journal.possible()):
        journal.enter(choose(possible))


def text_of_run(journal, limits, stop):
    """What a run leaves that let these events enter; `stop` is the node and the position at which it stopped, or None."""
    if stop:
        raise Fault(9, stopped_line(*stop, limits), stopped_text(journal.meaning, *stop))
    if journal.possible():
        raise Fault(10, full_line(limits), result_text(journal.meaning, True))
    return result_text(journal.meaning, False)


def plain_run(graph, script, limits):
    """The text of the run in which an event of an async enters before the next one of the script, and the least async's
    first."""
    journal = Journal(graph, script, limits.turn_steps)
    let_enter(journal, limits, lambda possible: possible[0])
    return text_of_run(journal, limits, None if journal.gap is None else (journal.gap, len(journal.events)))


def random_run(graph, script, limits, draw):
    """The text of a run in a random legal order. Now and then the script is far ahead of the asyncs, or far behind."""
    journal = Journal(graph, script, limits.turn_steps)
    haste = draw.choice((0.1, 1, 1, 10))

    def choose(possible):
        return draw.choices(possible, [1 if source in journal.changes else haste for source, _ in possible])[0]

    let_enter(journal, limits, choose)
    stop = None
    if journal.gap is not None:
        stop = random_stop(journal, limits, choose, draw) if journal.events else (journal.gap, 0)
    return text_of_run(journal, limits, stop)


def random_stop(journal, limits, choose, draw):
    """A node whose call is over budget, and where. Some events may have entered before that was noticed."""
    first = len(journal.events)
    for _ in range(draw.randrange(4)):
        possible = journal.possible()
        if possible and len(journal.events) < limits.journal:
            journal.enter(choose(possible))
    positions, nodes = range(first, len(journal.events) + 1), range(len(journal.graph.nodes))
    return draw.choice([(k, position) for position in positions for k in nodes if journal.meaning.is_over(k, position)])


# ---- The judge ----

class Judge:
    """Goes through the text of a run, with the journal that the lines up to there name. What is wrong is a Fault."""

    def __init__(self, graph, script, limits, text):
        self.limits = limits
        self.journal = Journal(graph, script, limits.turn_steps)
        self.meaning = self.journal.meaning
        self.lines = text.decode("latin-1").split("\n")
        self.number = 0

    def refuse(self, reason):
        raise Fault(14, f"the result is wrong at line {self.number}: {reason}")

    def line(self):
        """The next line."""
        self.number += 1
        if self.number == len(self.lines):
            self.refuse("it has no line feed" if self.lines[-1] else "there is no such line")
        return self.lines[self.number - 1]

    def expect(self, line, wanted):
        if line != wanted:
            self.refuse(f"it has to be `{wanted}`")

    def text(self):
        """What a run leaves whose text this is, as `text_of_run` gives it."""
        header = self.line()
        if header == "felm-stopped 1":
            stop = self.stopped()
        else:
            self.expect(header, "felm-result 1")
            stop = self.result()
        self.number += 1
        if self.lines[self.number - 1:] != [""]:
            self.refuse("it stands behind the closing line")
        return text_of_run(self.journal, self.limits, stop)

    def result(self):
        """Reads the lines of a result, which has no stop."""
        line = self.line()
        self.refuse_gap()
        self.expect(line, result_line(self.meaning, 0))
        while (line := self.line()).split(" ")[0] not in ("end", "full"):
            self.enter(line)
            self.refuse_gap()
            self.expect(line, result_line(self.meaning, len(self.journal.events)))
        count, possible = len(self.journal.events), self.journal.possible()
        full = line.startswith("full")
        self.expect(line, f"{'full' if full else 'end'} {count}")
        if full and count < self.limits.journal:
            self.refuse(f"the journal is full only at {self.limits.journal} events")
        if full and not possible:
            self.refuse("no event is left to enter")
        if possible and not full:
            self.refuse(f"`{self.shown(possible[0])}` has still to enter")

    def stopped(self):
        """Reads the lines of a stopped run, and gives its stop."""
        while not (line := self.line()).startswith("stopped "):
            if not self.journal.events:
                self.refuse_gap()
            self.enter(line)
            self.expect(line, event_text(self.meaning, len(self.journal.events)))
        found = re.fullmatch(r"stopped (0|[1-9][0-9]{0,8}) (0|[1-9][0-9]{0,8})", line)
        if not found or not self.may_stop(*map(int, found.groups())):
            self.refuse("no run with these events stops so")
        return tuple(map(int, found.groups()))

    def may_stop(self, k, position):
        """Whether a run with these events may stop at a node and a position."""
        if position == 0:
            return k == self.meaning.gap(0)
        known = k < len(self.journal.graph.nodes) and position <= len(self.journal.events)
        return known and self.meaning.is_over(k, position)

    def refuse_gap(self):
        """Refuses a line of a result where a message is missing."""
        if self.journal.gap is not None:
            self.refuse(stopped_line(self.journal.gap, len(self.journal.events), self.limits))

    def enter(self, line):
        """Lets the event enter that a line begins with."""
        graph, possible = self.journal.graph, self.journal.possible()
        position, source, value = (line.split(" ") + ["", ""])[:3]
        if position != str(len(self.journal.events) + 1):
            self.refuse(f"event {len(self.journal.events) + 1} has to stand here")
        if len(self.journal.events) == self.limits.journal:
            self.refuse(f"the journal has at most {self.limits.journal} events")
        event = next((event for event in possible if graph.source_text(event[0]) == source), None)
        if event is None:
            self.refuse(self.why_not(source))
        if value != value_text(event[1]):
            self.refuse(f"the event has to be `{self.shown(event)}`")
        self.journal.enter(event)

    def why_not(self, source):
        """Why no event of this source may enter."""
        graph, script = self.journal.graph, self.journal.script[self.journal.fed:]
        k = next((k for k, node in enumerate(graph.nodes)
                  if node.form in ("input", "async") and graph.source_text(k) == source), None)
        if k is None:
            return f"the program has no `{source}`"
        if k in self.journal.changes:
            return f"no change waits at {source}, of which {self.journal.entered[k]} events have entered"
        return f"the script's next event is `{self.shown(script[0])}`" if script else "the script has no more events"

    def shown(self, event):
        return f"{self.journal.graph.source_text(event[0])} {value_text(event[1])}"


# ---- Scripts ----

def read_script(text, inputs):
    """The events of a script as (node, value)."""
    numbers = {name.encode(): (place, ty) for place, (name, ty, _) in enumerate(inputs)}
    script = []
    for line_number, line in enumerate(text.split(b"\n"), 1):
        fields = line.replace(b"\t", b" ").replace(b"\r", b" ").split(b" ")
        fields = [field for field in fields if field]
        skipped = not fields or fields[0].startswith(b"--")
        if not ALLOWED.issuperset(line) or not skipped and len(fields) > 2:
            raise Fault(7, f"line {line_number} is no event")
        if skipped:
            continue
        if fields[0] not in numbers:
            raise Fault(7, f"line {line_number} names no input")
        place, ty = numbers[fields[0]]
        value = read_literal(fields[1:], ty)
        if value is None:
            raise Fault(7, f"line {line_number} has a wrong value")
        script.append((place, value))
    return script


def read_literal(fields, ty):
    if ty == "unit":
        return UNIT if fields in ([], [b"()"]) else None
    if not fields:
        return None
    sign, digits = (-1, fields[0][1:]) if fields[0].startswith(b"-") else (1, fields[0])
    if not digits or not DIGITS.issuperset(digits):
        return None
    digits = digits.lstrip(b"0") or b"0"
    if len(digits) > 19:
        return None
    value = sign * int(digits)
    return number(value) if -LARGEST - 1 <= value <= LARGEST else None


# ---- Texts ----

def value_text(value):
    if value.form == "lam":
        return "<fun>"
    return "()" if value.form == "unit" else str(value.parts[0])


def event_text(meaning, position):
    source, value = meaning.journal[position - 1]
    return f"{position} {meaning.graph.source_text(source)} {value_text(value)}"


def result_line(meaning, position):
    changed, value = meaning.message(meaning.graph.main, position)
    if position == 0:
        return f"0 default {value_text(value)}"
    return f"{event_text(meaning, position)} {'change' if changed else 'same'} {value_text(value)}"


def result_text(meaning, full):
    count = len(meaning.journal)
    lines = [result_line(meaning, position) for position in range(count + 1)]
    return "".join(line + "\n" for line in ["felm-result 1", *lines, f"{'full' if full else 'end'} {count}"])


def stopped_text(meaning, k, position):
    lines = [event_text(meaning, before) for before in range(1, len(meaning.journal) + 1)]
    return "".join(line + "\n" for line in ["felm-stopped 1", *lines, f"stopped {k} {position}"])


def stopped_line(k, position, limits):
    return f"node {k} takes more than {limits.turn_steps} steps at event {position}"


def full_line(limits):
    return f"the journal is full at {limits.journal} events"


def graph_text(graph):
    lines = ["felm-graph 1"]
    for k, node in enumerate(graph.nodes):
        arguments = " ".join(map(str, node.arguments))
        if node.form == "input":
            name, ty, default = graph.inputs[k]
            lines.append(f"{k} input {name} : {ty} = {value_text(default)}")
        elif node.form == "lift":
            lines.append(f"{k} lift{len(node.arguments)} {term_text(node.function)} {arguments}")
        elif node.form == "foldp":
            lines.append(f"{k} foldp {term_text(node.function)} {term_text(node.base)} {arguments}")
        else:
            lines.append(f"{k} async {arguments}")
    lines.append(f"main {graph.main}")
    return "".join(line + "\n" for line in lines)


# ---- Commands ----

def read_plan(program, script, limits):
    """The graph of a program and the events of a script, both given as bytes; a Fault where there are none."""
    inputs, term = read_program(program)
    events = read_script(script, inputs)
    return stage_one(term, inputs, limits.stage_steps), events


def sync(program, script, limits):
    """The text of the plain run of a program on a script, both as bytes; a Fault where there is none."""
    return plain_run(*read_plan(program, script, limits), limits)


def graph(program, limits):
    """The graph text of a program, given as bytes; a Fault where there is none."""
    inputs, term = read_program(program)
    return graph_text(stage_one(term, inputs, limits.stage_steps))


def any_run(program, script, limits, seed=None):
    """The text of a run in the random order that a seed gives, as `sync` does it for the plain one."""
    return random_run(*read_plan(program, script, limits), limits, random.Random(seed))


def replay(program, script, text, limits):
    """What a run leaves whose text this is, as `sync` does it for the plain run; a Fault of status 14 where there is no such
    run."""
    return Judge(*read_plan(program, script, limits), limits, text).text()


def judge(program, script, text, limits):
    """Of which run a text is."""
    try:
        replay(program, script, text, limits)
    except Fault as fault:
        if fault.status not in (9, 10):
            raise
        return "stopped\n" if fault.status == 9 else "full\n"
    return "complete\n"


def fault_of_run(program, script, limits, found):
    """What is wrong with the answer of a run in any legal order: its status, and the bytes on standard output and standard
    error. None where nothing is."""
    wanted = answer(lambda: replay(program, script, found[1], limits))
    if found == wanted:
        return None
    if wanted[0] == 14 and found[0] in (0, 9, 10):
        return wanted[2].decode().strip().removeprefix("felm: ")
    return f"status {found[0]}, `{found[2].decode(errors='replace').strip()}`"


SYNC_OPTIONS = ("turn-steps", "stage-steps", "journal")
COMMANDS = {"sync": (2, SYNC_OPTIONS), "graph": (1, ("stage-steps",)),
            "run": (2, (*SYNC_OPTIONS, "workers", "edge", "seed")), "judge": (3, SYNC_OPTIONS)}
RANGES = {"turn-steps": 1_000_000_000, "stage-steps": 1_000_000_000, "journal": 16_777_216, "workers": 16, "edge": 1_024,
          "seed": 1_000_000_000}


def read_words(words):
    """The command, its file names and its options."""
    usage = Fault(2, "the words name no command of this program")
    if not words or words[0] not in COMMANDS:
        raise usage
    count, options = COMMANDS[words[0]]
    files, given, rest = [], {}, list(words[1:])
    while rest:
        word = rest.pop(0)
        if word == "--":
            files += rest
            rest = []
        elif word.startswith("-"):
            name, mark, value = word[2:].partition("=")
            value = value if mark else rest.pop(0) if rest else ""
            if not word.startswith("--") or name not in options or name in given:
                raise usage
            given[name] = read_limit(value, RANGES[name])
            if given[name] is None:
                raise usage
        else:
            files.append(word)
    if len(files) != count or not all(name not in ("", "-") for name in files):
        raise usage
    return words[0], files, given


def read_limit(word, most):
    """A number from 1 to `most`, in digits alone; None where the word is no such number."""
    digits = word.lstrip("0")
    if not word.isascii() or not word.isdigit() or not 1 <= len(digits) <= 10 or int(digits) > most:
        return None
    return int(digits)


def limits_of(given):
    """The limits that options give."""
    return Limits(**{name.replace("-", "_"): value for name, value in given.items() if name in SYNC_OPTIONS})


def load(name, most=MOST_BYTES):
    try:
        with open(name, "rb") as file:
            text = file.read(most + 1)
    except (OSError, ValueError):
        raise Fault(3, f"cannot read {name}") from None
    if len(text) > most:
        raise Fault(4, f"{name} is too long")
    return text


def answer(work):
    """The status, the text for standard output and the one for standard error of what this function does."""
    try:
        return 0, work().encode(), b""
    except Fault as fault:
        return fault.status, fault.out.encode(), os.fsencode(f"felm: {fault.line}\n")


def do(command, files, given):
    """The text for standard output; a Fault where there is none."""
    limits = limits_of(given)
    texts = [load(name, MOST_RESULT_BYTES if place == 2 else MOST_BYTES) for place, name in enumerate(files)]
    if command == "run":
        return any_run(*texts, limits, given.get("seed"))
    return {"sync": sync, "graph": graph, "judge": judge}[command](*texts, limits)


def run(words):
    """What this command answers to words: the status, and the bytes on standard output and standard error."""
    return answer(lambda: do(*read_words(words)))


def deeply(work):
    """Does this work on a thread that may recurse as deeply as terms nest, and gives its result."""
    results = []
    sys.setrecursionlimit(1_000_000)
    threading.stack_size(512 * 1024 * 1024)
    thread = threading.Thread(target=lambda: results.append(work()))
    thread.start()
    thread.join()
    if not results:
        sys.exit(70)
    return results[0]


def main():
    status, out, err = deeply(lambda: run(sys.argv[1:]))
    try:
        with open(1, "wb", closefd=False) as stdout:
            stdout.write(out)
    except OSError:
        status, err = 11, b"felm: cannot write\n"
    os.write(2, err)
    return status


if __name__ == "__main__":
    sys.exit(main())

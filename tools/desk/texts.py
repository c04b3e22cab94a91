"""Tables as text: reading with line numbers and names, all that is wrong in one go, and writing."""

import re
import unicodedata
from collections import namedtuple

from desk import tables
from desk.tables import Table, Transition

# A word, a sign, or any other character by itself. A byte that is no UTF-8 is decoded to a lone surrogate.
TOKEN = re.compile(r"->|[(),\[\]]|-?(?:[\w.]|[^\s\x00-\x7f\ud800-\udfff])+|[^ \t]")
NUMBER = re.compile(r"[0-9]+")
LINE_END = re.compile(r"\r\n|\r|\n")

LISTS = ("input", "output", "state")  # of names
ARTICLE = {"input": "an input", "output": "an output", "state": "a state"}
GIVES = {"input": ("input",), "output": ("output",), "letter": ("input", "output"), "state": ("state",)}
BEGINS = ("states",) + tuple(GIVES)  # words that begin a line; a state's number or name does too
WORDS = ("states", "initial", "letter", "input", "output", "delay")  # no letter has such a name, no state either
MOST_FAULTS = 100  # of a text, told one by one

Fault = namedtuple("Fault", "line what number")  # number: that of the refusal of its file; None: it has no file
Written = namedtuple("Written", "departure input output arrival")  # states and letters as a text has them


class BadLine(Exception):
    """What is wrong with a line."""


class Skipped(Exception):
    """A line that rests on a bad one, which is told already."""


def quoted(word):
    """A word as it is shown: bytes that are no UTF-8 as bytes, a strange character with its name."""
    if "\udc80" <= word <= "\udcff":
        return f"byte 0x{ord(word) - 0xDC00:02x}"
    name = unicodedata.name(word, "") if len(word) == 1 and not word.isascii() else ""
    return repr(word) + (f" ({name})" if name else "")


def is_name(word):
    """Letters of any script, digits and _, the first no digit."""
    return word.isidentifier()


class Line:
    """The words of one line, taken from left to right."""

    def __init__(self, number, text):
        self.number = number
        self.words = TOKEN.findall(text.split("#", 1)[0])
        self.taken = 0

    def next(self):
        """The next word, or None at the line's end."""
        return self.words[self.taken] if self.taken < len(self.words) else None

    def take(self, wanted):
        word = self.next()
        if word is None:
            raise BadLine(f"the line ends where {wanted} must stand")
        self.taken += 1
        return word

    def take_word(self, expected):
        word = self.take(f"'{expected}'")
        if word != expected:
            raise BadLine(f"{quoted(word)} where '{expected}' must stand")

    def take_number(self, what):
        word = self.take(f"a number ({what})")
        if not NUMBER.fullmatch(word):
            raise BadLine(f"{what}: {quoted(word)} is not a whole number")
        digits = word.lstrip("0") or "0"
        if len(digits) > 9:
            raise BadLine(f"{what}: {word!r} is far too large")
        return int(digits)

    def take_named(self, what, names, kind):
        """A number, or a name from that list."""
        word = self.next()
        if word is None or not is_name(word):
            return self.take_number(what)
        if word in WORDS:
            raise BadLine(f"{word!r} where a {'state' if kind == 'state' else 'letter'} for the {what} must stand")
        self.taken += 1
        return names.number(kind, word, what)

    def end(self):
        if self.next() is not None:
            raise BadLine(f"{quoted(self.next())} after the end of what this line says")


class Names:
    """Names for input letters, output letters and states."""

    def __init__(self):
        self.given = {kind: {} for kind in LISTS}  # name: (number or None if it was bad, line)
        self.used = {kind: {} for kind in LISTS}   # number: the name that a transition gives it first
        self.lines = []                            # (first word, name, number), in order

    def number(self, kind, word, what):
        name = unicodedata.normalize("NFC", word)
        if name not in self.given[kind]:
            for other in LISTS:
                if name in self.given[other]:
                    line = self.given[other][name][1]
                    raise BadLine(f"{what}: {word!r} names {ARTICLE[other]} (line {line}), no {kind}")
            raise BadLine(f"{what}: no line above gives {'a state' if kind == 'state' else 'a letter'} the name {word!r}")
        number = self.given[kind][name][0]
        if number is None:
            raise Skipped()
        self.used[kind].setdefault(number, name)
        return number

    def add(self, line):
        """A line that gives a name."""
        word = line.take("a name's list")
        name = line.take("a name")
        if not is_name(name):
            raise BadLine(f"{quoted(name)} is no name: letters, digits and _, the first no digit")
        name = unicodedata.normalize("NFC", name)
        if name in WORDS or (word == "state" and name in BEGINS):
            raise BadLine(f"{name!r} has its own meaning and can't name a {'state' if word == 'state' else 'letter'}")
        for kind in GIVES[word]:
            if name in self.given[kind]:
                raise BadLine(f"the name {name!r} was given on line {self.given[kind][name][1]}")
        for kind in GIVES[word]:
            self.given[kind][name] = (None, line.number)
        number = line.take_number(f"{word} {name}")
        line.end()
        wrong = [] if word == "state" else tables.wrong_letter(f"{word} {name}", number)
        if wrong:
            raise BadLine(wrong[0])
        for kind in GIVES[word]:
            self.given[kind][name] = (number, line.number)
        self.lines.append((word, name, number))

    def show(self, kind, number):
        """A name for a number: one that a transition uses, else the first given; else the number."""
        if number in self.used[kind]:
            return self.used[kind][number]
        return next((name for name, (named, _) in self.given[kind].items() if named == number), str(number))


class Text:
    """A table read from a text: what is wrong with it, and where each transition stands.

    Of a bad line that begins a transition the place in `transitions` is None, so that later ones keep their numbers."""

    def __init__(self, text):
        self.names = Names()
        self.faults = []
        self.head = None
        self.head_line = None
        self.transitions = []
        self.lines = []    # of the transitions
        self.written = []  # their states and letters, as the text has them
        self.first = {}    # transition: its number
        self.early = False  # a transition came before the head
        self.content = LINE_END.split(text)
        for number, content in enumerate(self.content, 1):
            if content and content[0] != "#":
                self.read_line(Line(number, content))
        if self.head_line is None:
            self.fault(max(1, len(self.content) - (self.content[-1] == "")),
                       "the text ends without a head (states N initial S)")
        self.check_state_names()
        self.faults.sort(key=lambda fault: fault.line)

    def fault(self, line, what, number=None):
        self.faults.append(Fault(line, what, number))

    def read_line(self, line):
        first = line.next()
        if first is None:
            return
        try:
            if first == "states":
                self.read_head(line)
            elif first in GIVES:
                self.names.add(line)
            elif NUMBER.fullmatch(first) or unicodedata.normalize("NFC", first) in self.names.given["state"]:
                self.read_transition(line)
            else:
                raise BadLine(f"{quoted(first)} where 'states', 'letter', 'input', 'output', 'state' or a state must stand")
        except BadLine as bad:
            self.fault(line.number, bad.args[0])
        except Skipped:
            pass

    def read_head(self, line):
        if self.head_line is not None:
            raise BadLine(f"a second head; the first is on line {self.head_line}")
        self.head_line = line.number
        line.take_word("states")
        states = line.take_number("number of states")
        line.take_word("initial")
        initial = line.take_named("initial state", self.names, "state")
        line.end()
        for what in tables.wrong_head(states, initial):
            self.fault(line.number, what, 4)
        self.head = states, initial

    def states(self):
        """How many there are, if that is known and can be."""
        return self.head[0] if self.head and 1 <= self.head[0] <= tables.MOST_STATES else None

    def read_transition(self, line):
        number = len(self.transitions)
        if number > tables.MOST_TRANSITIONS:
            return  # told at the first of them
        self.transitions.append(None)
        self.lines.append(line.number)
        self.written.append(None)
        transition, written = parse_transition(line, self.names)
        self.transitions[number], self.written[number] = transition, written
        if self.head_line is None and not self.early:
            self.early = True
            self.fault(line.number, "a transition before the head (states N initial S)")
        if number == tables.MOST_TRANSITIONS:
            self.fault(line.number, f"more than {tables.MOST_TRANSITIONS} transitions", 3)
            return
        for what in tables.wrong_transition(transition, self.states()):
            self.fault(line.number, what, 4)
        if transition in self.first:
            other = self.first[transition]
            self.fault(line.number, f"equal to transition {other} on line {self.lines[other]}", 5)
        self.first.setdefault(transition, number)

    def check_state_names(self):
        for name, (number, line) in self.names.given["state"].items():
            if number is not None:
                for what in tables.wrong_state(f"state {name}:", number, self.states()):
                    self.fault(line, what)

    def table(self):
        """The table that the lines say, or None if some can't be read. It may be out of range: see the faults."""
        if any(fault.number is None for fault in self.faults) or self.head is None or None in self.transitions:
            return None
        return Table(self.head[0], self.head[1], self.transitions)

    def line_at(self, offset):
        """The line of the record at an offset of the file."""
        transition = tables.transition_at(offset)
        if transition is None:
            return self.head_line
        return self.lines[transition] if transition < len(self.lines) else len(self.content)

    def told(self, name):
        """What is wrong, a line each; too many are counted."""
        lines = [f"{name}:{fault.line}: {fault.what}" for fault in self.faults[:MOST_FAULTS]]
        if len(self.faults) > MOST_FAULTS:
            lines.append(f"{name}: {len(self.faults) - MOST_FAULTS} more lines like these")
        return lines


def parse_transition(line, names):
    """A transition, and its states and letters as they are written."""
    start = line.taken
    departure = line.take_named("departure state", names, "state")
    line.take_word("->")
    arrival = line.take_named("arrival state", names, "state")
    line.take_word("input")
    given = line.take_named("input", names, "input")
    line.take_word("output")
    response = line.take_named("output", names, "output")
    words = line.words[start:line.taken]
    line.take_word("(")
    u = line.take_number("lower bound of the guard")
    line.take_word(",")
    v = line.take_number("upper bound of the guard")
    line.take_word("]")
    line.take_word("delay")
    d = line.take_number("delay")
    line.end()
    return Transition(departure, given, response, arrival, u, v, d), Written(words[0], words[4], words[6], words[2])


def begins_text(word):
    """Does this word begin a line of a text, if it is the first?"""
    return word in BEGINS or NUMBER.fullmatch(word) is not None


def written_by(names, transition):
    """A transition's states and letters by their names."""
    return Written(names.show("state", transition.departure), names.show("input", transition.input),
                   names.show("output", transition.output), names.show("state", transition.arrival))


def one_line(written, transition):
    """A transition as a line of a text."""
    return (f"{written.departure} -> {written.arrival}  input {written.input} output {written.output}"
            f"  ({transition.u},{transition.v}] delay {transition.d}")


def write_text(table, names=None):
    """The table as text, in columns, each transition with its number; with the names, if some are given."""
    names = names or Names()
    lines = [f"{word} {name} {number}" for word, name, number in names.lines
             if word != "state" or number < table.states]
    lines += [""] if lines else []
    lines.append(f"states {table.states} initial {names.show('state', table.initial)}")
    if table.transitions:
        lines.append("")
    written = [written_by(names, t) for t in table.transitions]
    rows = [(w.departure, w.arrival, w.input, w.output, f"({t.u},{t.v}]", f"{t.d}")
            for w, t in zip(written, table.transitions)]
    wide = [max(map(len, column)) for column in zip(*rows)]
    for number, row in enumerate(rows):
        departure, arrival, given, response, guard, d = (cell.ljust(width) for cell, width in zip(row, wide))
        lines.append(f"{departure} -> {arrival}  input {given} output {response}"
                     f"  {guard} delay {d}  # {number}")
    return "\n".join(lines) + "\n"

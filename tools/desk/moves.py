"""Moves in lines: what a line asks for, what is wrong with it in words, and the line that answers it."""

import difflib
import unicodedata

from desk import bench, files, texts
from desk.timing import ticks

MOST_LINE = 4096       # bytes
MOST_TIME = 2**32 - 1  # in one move
MOST_HANDED = 2**16 - 1
FORMS = "a move is 'time N', 'input LETTER', 'output' or 'run'"
SPLIT = "the table is split: two transitions answer one input at one time; ./judge shows them"


class NoMove(Exception):
    """What is wrong with a line."""


def no_start(number):
    return SPLIT if number == 13 else "the player can't be started"


def lines_of(stream):
    """The lines with their numbers; of a line that is too long None."""
    number = 0
    while True:
        raw = stream.readline(MOST_LINE)
        if not raw:
            return
        number += 1
        whole = raw
        while len(whole) == MOST_LINE and not whole.endswith(b"\n"):
            whole, raw = stream.readline(MOST_LINE), None
        yield number, None if raw is None else raw.decode("utf-8", "surrogateescape")


def number_of(word, most, rule):
    digits = word.lstrip("0") or "0"
    if len(digits) > len(str(most)) or int(digits) > most:
        raise NoMove(f"{word[:40]} is too large: {rule}")
    return int(digits)


class Player:
    """Plays lines on a bench, with the names of the table's text."""

    def __init__(self, source, played):
        self.source, self.bench = source, played
        self.names = source.text.names if source.text else texts.Names()
        self.status = 0

    def all(self, stream):
        """Plays all lines; the status."""
        try:
            for number, line in lines_of(stream):
                self.line(number, line)
        except OSError as error:
            raise files.Trouble(f"standard input: can't be read: {error.strerror}") from None
        left = len(self.bench.waiting)
        if left:
            files.say(f"play: the moves end while {left} {'response waits' if left == 1 else 'responses wait'}; "
                      "'run' would issue what waits")
        return self.status

    def line(self, number, line):
        try:
            if line is None:
                raise NoMove("the line is far too long")
            words = line.split("#", 1)[0].split()
            if words:
                self.put(self.played(words, number))
        except NoMove as wrong:
            self.status = 1
            files.say(f"standard input:{number}: {wrong}")

    @staticmethod
    def put(line):
        files.put_out((line + "\n").encode("utf-8", "surrogateescape"))

    # ---- What is asked ----

    def played(self, words, number):
        """Plays one move; the line that answers it."""
        word, *rest = words
        wanted = {"time": 1, "input": 1, "output": 0, "run": 0}.get(word)
        if wanted is None:
            raise NoMove(f"{texts.quoted(word)} is no move: {FORMS}")
        if len(rest) < wanted:
            raise NoMove(f"the line ends after '{word}': {FORMS}")
        if len(rest) > wanted:
            raise NoMove(f"{texts.quoted(rest[wanted])} after the end of the move: {FORMS}")
        if word == "time":
            made, done = self.bench.move(bench.TIME, self.time(rest[0])), ""
        elif word == "input":
            made = self.bench.move(bench.INPUT, self.letter(rest[0]))
            done = f"; step {self.bench.inputs} takes {self.source.where(self.bench.told[0])}" if made else ""
        elif word == "output":
            made = self.bench.move(bench.OUTPUT)
            done = "; issued: " + self.issued() if made else ""
        else:
            made, done = True, "; issued: " + (", ".join(self.run()) or "none")
        if made:
            return self.place() + done + self.waits()
        self.status = 1
        return f"refused {self.bench.number}: line {number}, {' '.join(words)}: {self.why(words)}; {self.place()}{self.waits()}"

    def time(self, word):
        if not texts.NUMBER.fullmatch(word):
            raise NoMove(f"time: {texts.quoted(word)} is not a whole number of 1/256 tick")
        return number_of(word, MOST_TIME, f"at most {MOST_TIME} of 1/256 tick pass in one move")

    def letter(self, word):
        """An input letter by its number or its name."""
        if texts.NUMBER.fullmatch(word):
            return number_of(word, MOST_HANDED, "letters are 0 to 255")
        name = unicodedata.normalize("NFC", word)
        known = self.names.given["input"]
        if name in known:
            return known[name][0]
        if self.source.text is None:
            raise NoMove(f"input: {texts.quoted(word)} is no number, and a table file has no names")
        for other in texts.LISTS:
            if name in self.names.given[other]:
                line = self.names.given[other][name][1]
                raise NoMove(f"input: {word!r} names {texts.ARTICLE[other]} ({self.source.name}:{line}), no input")
        near = difflib.get_close_matches(name, known, 1)
        raise NoMove(f"input: {self.source.name} gives no input the name {texts.quoted(word)}"
                     + (f"; is {near[0]!r} meant?" if near else ""))

    def run(self):
        """Time and outputs until none waits; what was issued."""
        issued = []
        while self.bench.waiting:
            least = self.bench.least()
            if not (self.bench.move(bench.TIME, least) if least else self.bench.move(bench.OUTPUT)):
                raise files.Trouble(f"refused {self.bench.number} in a run; this is a fault of tools/desk")
            if not least:
                issued.append(self.issued())
        return issued

    # ---- What is answered ----

    def place(self):
        return f"at {self.bench.now} in {self.names.show('state', self.bench.state)}"

    def response(self, step, letter):
        return f"{step} {self.names.show('output', letter)}"

    def issued(self):
        return f"{self.response(*self.bench.told)} at {self.bench.now}"

    def waits(self):
        if not self.bench.waiting:
            return "; none waits"
        return "; waits: " + ", ".join(f"{self.response(one.step, one.letter)} {one.left}" for one in self.bench.waiting)

    def why(self, words):
        """A refusal in words."""
        number, least = self.bench.number, self.bench.least()
        if number == 10:
            return self.closed(self.letter(words[1]))
        if number == 11 and least == 0:
            return "a response is due, and must be issued first"
        if number == 11:
            return "no response waits" if least is None else f"the next response falls due in {least}"
        return {13: SPLIT, 14: "512 inputs were played, and no more can be"}.get(number, "the player can't go on")

    def closed(self, letter):
        """Why no transition is open, as far as the table shows it."""
        guards = [f"({t.u},{t.v}]" for t in self.source.table().transitions
                  if t.departure == self.bench.state and t.input == letter]
        state, shown = self.names.show("state", self.bench.state), self.names.show("input", letter)
        if not guards:
            return f"no transition leaves {state} with {shown}"
        since = "the input before" if self.bench.inputs else "the start"
        return f"no transition is open: {state} takes {shown} in {', '.join(guards)}, and it is {ticks(self.bench.timer)} ticks after {since}"

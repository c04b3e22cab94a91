"""How far each guard may be widened, each end alone, with the table still strict.

Widening a guard only adds timings: a word that activated a trace still does, and neither the times of a word's responses nor
their letters depend on the guards. So a table that is not strict stays so if the guard is widened further, and each end is found
by halving between a value at which the judge says strict and one at which it does not. The next value to try is not always the
middle: a witness of the judge says at which value this one witness would be gone, and that is often the end itself. It is no more
than a guess: an end counts when the judge has said strict there and something else one further, or when there is no further.

A refusal would count as not strict: two equal transitions answer one request. None comes up, since of a strict table no
transition can be widened to be equal to another: before that they would share a bound, and so a gap.
"""

import concurrent.futures
import os
from collections import namedtuple

from desk import answers, progress, tables
from desk.files import Trouble
from desk.timing import Fork, Turn

Width = namedtuple("Width", "transition low high")
LIMITS = {"u": 1, "v": tables.MOST_V}  # the widest bounds that there are
End = namedtuple("End", "value stop")  # stop: the answer one further, or None where there is no further


def widened(table, number, side, value):
    transitions = list(table.transitions)
    transitions[number] = transitions[number]._replace(**{side: value})
    return table._replace(transitions=transitions)


def guess(table, answer, number, side):
    """The value next to the old one at which this witness is gone; a table is given with the value at which it was found."""
    if answer.word == "split":
        fork = Fork(answer, table)
        other = fork.j if number == fork.i else fork.i
        if number in (fork.i, fork.j):
            return table.transitions[other].v if side == "u" else table.transitions[other].u
    if answer.word == "turning":
        turn = Turn(answer, table)
        times = turn.between.count(number)
        t = table.transitions[number]
        if times and side == "u":  # U at least D
            return -((turn.u - times * t.u - turn.d) // times)
        if times:  # V below D
            return (turn.d - 1 - turn.v + times * t.v) // times
    return None


class Search:
    """One end of one guard: a strict value and a value that is not, ever closer."""

    def __init__(self, judge, table, number, side):
        self.judge, self.table, self.number, self.side = judge, table, number, side
        self.said = {}  # value: the judge's answer

    def ask(self, value):
        if value not in self.said:
            table = widened(self.table, self.number, self.side, value)
            self.said[value] = answers.understood(self.judge.answer(tables.write_file(table)))
        return self.said[value]

    def strict(self, value):
        return self.ask(value).word == "strict"

    def next_value(self, good, bad, tries):
        """Two guesses, then the middle, so that the range is halved in any case."""
        if tries % 3 < 2:
            table = widened(self.table, self.number, self.side, bad)
            value = guess(table, self.ask(bad), self.number, self.side)
            if value == good:
                return good + (1 if bad > good else -1)
            if value is not None and min(good, bad) < value < max(good, bad):
                return value
        return (good + bad) // 2

    def end(self):
        good, bad = getattr(self.table.transitions[self.number], self.side), LIMITS[self.side]
        if good == bad or self.strict(bad):
            return self.confirmed(bad, None)
        tries = 0
        while abs(good - bad) > 1:
            value = self.next_value(good, bad, tries)
            good, bad = (value, bad) if self.strict(value) else (good, value)
            tries += 1
        return self.confirmed(good, bad)

    def confirmed(self, good, bad):
        """Two of the judge's own answers: strict there, not strict one further."""
        if not self.strict(good) or (bad is not None and (abs(good - bad) != 1 or self.strict(bad))):
            raise Trouble(f"transition {self.number}: its widths can't be confirmed; this is a fault of tools/desk")
        return End(good, None if bad is None else self.ask(bad))


def found(judge, table):
    """The widths of every transition that can be reached; the table is strict."""
    lost = set(tables.unreached(table))
    searches = [Search(judge, table, number, side) for number in range(len(table.transitions)) if number not in lost
                for side in ("u", "v")]
    bar = progress.Bar("widths", max(1, len(searches)))
    with concurrent.futures.ThreadPoolExecutor(len(os.sched_getaffinity(0))) as pool:
        futures = [pool.submit(search.end) for search in searches]
        try:
            for future in concurrent.futures.as_completed(futures):
                future.result()
                bar.step()
        except BaseException:
            for future in futures:
                future.cancel()
            raise
        finally:
            bar.end()
    ends = [future.result() for future in futures]
    return [Width(search.number, low, high) for search, low, high in zip(searches[::2], ends[::2], ends[1::2])]


def line(width):
    return f"{width.transition} {width.low.value} {width.high.value}"


def stopped(source, number, side, end):
    """What stops a bound at its end, in words."""
    name, further = ("lower", end.value - 1) if side == "u" else ("upper", end.value + 1)
    if end.stop is None:
        return f"{name} bound {end.value}: there is no {'lower' if side == 'u' else 'greater'} one"
    table = widened(source.table(), number, side, further)
    text = f"{name} bound {end.value}: at {further} "
    if end.stop.word == "split":
        fork = Fork(end.stop, table)
        return text + f"split, {source.where(fork.i)} and {source.where(fork.j)} share ({fork.shared[0]},{fork.shared[1]}]"
    if end.stop.word == "turning":
        turn = Turn(end.stop, table)
        return text + (f"turning, {source.where(turn.first)} ({source.written(turn.first).output}) and {source.where(turn.last)} "
                       f"({source.written(turn.last).output}): {turn.u} < {turn.d} <= {turn.v}")
    return text + "equal to another transition"


def explained(source, width):
    """A width's line with its transition and what stops it."""
    t = source.table().transitions[width.transition]
    return [f"{line(width)}    {source.where(width.transition)}:  {source.line(width.transition)}",
            "    " + stopped(source, width.transition, "u", width.low) + (" (as it is)" if width.low.value == t.u else ""),
            "    " + stopped(source, width.transition, "v", width.high) + (" (as it is)" if width.high.value == t.v else "")]

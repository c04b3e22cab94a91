"""Tables: their ranges, their file, what can be reached. The limits are those of docs/RULES.md; of a file the proved reader decides."""

import struct
from collections import namedtuple

MOST_STATES = 32
MOST_TRANSITIONS = 256
MOST_LETTER = 255
MOST_V = 4095
MOST_DELAY = 240
MOST_NUMBER = 65535  # what two bytes hold

HEAD, TRANSITION, END = 1, 2, 3
LENGTH = {HEAD: 6, TRANSITION: 16, END: 2}  # counts all after the length itself

Transition = namedtuple("Transition", "departure input output arrival u v d")  # as in the file
Table = namedtuple("Table", "states initial transitions")


class Refused(Exception):
    """A table file is refused: number, offset, and why in words."""


# ---- Ranges, for texts and files alike: all that is wrong, in words ----

def wrong_head(states, initial):
    if not 1 <= states <= MOST_STATES:
        return [f"{states} states: a table has 1 to {MOST_STATES}"]
    return wrong_state("initial", initial, states)


def wrong_state(what, state, states):
    """No states: how many there are is not known."""
    if states is not None and state >= states:
        return [f"{what} state {state}: the states are 0 to {states - 1}"]
    return []


def wrong_letter(what, letter):
    if letter > MOST_LETTER:
        return [f"{what} {letter}: letters are 0 to {MOST_LETTER}"]
    return []


def wrong_guard(u, v):
    if u < 1:
        return [f"guard ({u},{v}]: the lower bound must be at least 1"]
    if v > MOST_V:
        return [f"guard ({u},{v}]: the upper bound must be at most {MOST_V}"]
    if u >= v:
        return [f"guard ({u},{v}]: the lower bound must be below the upper one"]
    return []


def wrong_delay(d):
    if not 1 <= d <= MOST_DELAY:
        return [f"delay {d}: delays are 1 to {MOST_DELAY}"]
    return []


def wrong_transition(t, states):
    return (wrong_state("departure", t.departure, states)
            + wrong_letter("input", t.input)
            + wrong_letter("output", t.output)
            + wrong_state("arrival", t.arrival, states)
            + wrong_guard(t.u, t.v)
            + wrong_delay(t.d))


# ---- Table files ----

def offset_of(transition):
    """Where a transition's record begins."""
    return 2 + LENGTH[HEAD] + transition * (2 + LENGTH[TRANSITION])


def transition_at(offset):
    """The transition whose record begins there, or None: the head's."""
    return None if offset < offset_of(0) else (offset - offset_of(0)) // (2 + LENGTH[TRANSITION])


def read_record(data, at, head):
    """Kind and body of the record at that offset; tests in the reader's order."""
    if len(data) - at < 4:
        raise Refused(1, at, "fewer than four bytes left where a record must begin")
    length, kind = struct.unpack_from("<HH", data, at)
    if kind not in LENGTH:
        raise Refused(2, at, f"no record is of kind {kind}")
    if head is None and kind != HEAD:
        raise Refused(2, at, "the first record must be a head")
    if head is not None and kind == HEAD:
        raise Refused(2, at, "a second head")
    if length != LENGTH[kind]:
        raise Refused(1, at, f"length {length}: a record of kind {kind} has {LENGTH[kind]}")
    if len(data) - at < 2 + length:
        raise Refused(1, at, "the record's body is cut off")
    return kind, struct.unpack_from(f"<{length // 2 - 1}H", data, at + 4)


def add_transition(transitions, transition, at, states):
    if len(transitions) == MOST_TRANSITIONS:
        raise Refused(3, at, f"more than {MOST_TRANSITIONS} transitions")
    wrong = wrong_transition(transition, states)
    if wrong:
        raise Refused(4, at, "; ".join(wrong))
    if transition in transitions:
        raise Refused(5, at, f"transition {len(transitions)} is equal to transition {transitions.index(transition)}")
    transitions.append(transition)


def read_file(data):
    """The table of a table file."""
    head = None
    transitions = []
    at = 0
    while True:
        kind, body = read_record(data, at, head)
        if kind == HEAD:
            wrong = wrong_head(*body)
            if wrong:
                raise Refused(4, at, "; ".join(wrong))
            head = body
        elif kind == TRANSITION:
            add_transition(transitions, Transition(*body), at, head[0])
        at += 2 + LENGTH[kind]
        if kind == END:
            if at < len(data):
                raise Refused(2, at, "bytes after the end record")
            return Table(head[0], head[1], transitions)


def write_file(table):
    """The bytes of the table file. A number that two bytes can't hold is out of range whatever it is: 65535 stands for it."""
    def numbers(*values):
        return (min(value, MOST_NUMBER) for value in values)

    records = [struct.pack("<4H", LENGTH[HEAD], HEAD, *numbers(table.states, table.initial))]
    records += [struct.pack("<9H", LENGTH[TRANSITION], TRANSITION, *numbers(*t)) for t in table.transitions]
    records.append(struct.pack("<2H", LENGTH[END], END))
    return b"".join(records)


# ---- Letters ----

def told_apart(table):
    """The table with an output letter of its own for each transition: there are as many letters. Every two steps that come in
    either order turn in it, since a transition never changes places with itself."""
    return table._replace(transitions=[t._replace(output=number) for number, t in enumerate(table.transitions)])


# ---- What can be reached ----

def reached_states(table):
    found, wave = {table.initial}, {table.initial}
    while wave:
        wave = {t.arrival for t in table.transitions if t.departure in wave} - found
        found |= wave
    return found


def unreached(table):
    """The transitions that no trace from the initial state takes."""
    found = reached_states(table)
    return [number for number, t in enumerate(table.transitions) if t.departure not in found]

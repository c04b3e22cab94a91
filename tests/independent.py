#!/usr/bin/env python3
"""The independent program: tries the calls against what the rules say (docs/RULES.md).

    independent.py DRIVER [--cases N] [--runs N] [--seed S] [--only CASE] [--named START] [--first] [--no-fixed] [--no-random]
                   [--run PREFIX]

It makes table files, traces, stamps and rooms, hands them to the calls through the C driver, and compares the answer
and the final content of every lent buffer with what the rules ask for. It is written from them, never from the code, and keeps whole sets
of sums where a quick judge would keep one number. Of a witness that they leave free it checks everything that is not
free. The last line is 'N passed, 0 failed'; the status is 0 exactly if nothing failed.
"""
import argparse
import functools
import heapq
import itertools
import os
import random
import select
import shlex
import signal
import struct
import subprocess
import sys
import time

# ---------------------------------------------------------------------------------------------------------------------
# Numbers, table file

MAX_STATES, MAX_TRANSITIONS, MAX_STEPS, MAX_WORDS = 32, 256, 512, 256
MAX_LETTER, MAX_V, MAX_D = 255, 4095, 240
TABLE_TRACE, TABLE_STAMPS, ORDER_STAMPS = 270, 540, 270
TURN = 1 << 32                                  # one turn of the counter
SPLIT, TURNING, OVERTAKEN = 256, 257, 258
JUDGE, JUDGE_TRACE, REPLAY, REWRITE, ORDER, WORDS = 1, 2, 3, 4, 5, 6
PLAYER_START, PLAYER_TIME, PLAYER_INPUT, PLAYER_OUTPUT = PLAYER = 7, 8, 9, 10
CALLS = {JUDGE: "judge", JUDGE_TRACE: "judge_trace", REPLAY: "replay", REWRITE: "rewrite", ORDER: "order",
         WORDS: "replay_words", PLAYER_START: "player_start", PLAYER_TIME: "player_time", PLAYER_INPUT: "player_input",
         PLAYER_OUTPUT: "player_output"}
BUFFERS = {JUDGE: ("file", "trace", "stamps"), JUDGE_TRACE: ("file", "trace", "stamps"),
           REPLAY: ("file", "trace", "stamps", "order", "due"), REWRITE: ("file", "out"),
           ORDER: ("file", "trace", "stamps"),
           WORDS: ("file", "trace", "starts", "stamps", "order", "due", "marks"),
           **{call: ("file", "config", "waiting") for call in PLAYER}}
LENGTH_OF_KIND = {1: 6, 2: 16, 3: 2}

FROM, INPUT, OUTPUT, TO, U, V, D = range(7)     # the seven numbers of a transition


class Table:
    def __init__(self, states, initial, rows):
        self.states, self.initial, self.rows = states, initial, [tuple(row) for row in rows]


def pack(status, first=0, second=0, steps=0):
    return status | first << 16 | second << 32 | steps << 48


def unpack(answer):
    return answer & 0xFFFF, answer >> 16 & 0xFFFF, answer >> 32 & 0xFFFF, answer >> 48


def show(answer):
    status, first, second, steps = unpack(answer)
    names = {0: "done", SPLIT: "split", TURNING: "turning", OVERTAKEN: "overtaken"}
    return "%s (status %d, first %d, second %d, steps %d)" % (
        names.get(status, "refused %d" % status), status, first, second, steps)


def record(kind, numbers, length=None):
    return struct.pack("<HH", 2 + 2 * len(numbers) if length is None else length, kind) + \
        struct.pack("<%dH" % len(numbers), *numbers)


def write_file(table):
    """The table file of a table."""
    return record(1, (table.states, table.initial)) + b"".join(record(2, row) for row in table.rows) + record(3, ())


@functools.lru_cache(maxsize=64)
def read_file(data, length):
    """(0, table), or (number, offset). Bytes from len(data) to length are 0."""
    at, states, initial, rows = 0, None, None, []
    data = data[:5000] + bytes(64)
    while True:
        left = length - at
        if left < 4:
            return 1, at
        size, kind = struct.unpack_from("<HH", data, at)
        if kind not in ((1,) if states is None else (2, 3)):
            return 2, at
        if size != LENGTH_OF_KIND[kind] or left < 2 + size:
            return 1, at
        numbers = struct.unpack_from("<%dH" % ((size - 2) // 2), data, at + 4)
        if kind == 1:
            if not (1 <= numbers[0] <= MAX_STATES and numbers[1] < numbers[0]):
                return 4, at
            states, initial = numbers
        elif kind == 2:
            if len(rows) == MAX_TRANSITIONS:
                return 3, at
            a, i, o, b, u, v, d = numbers
            if not (a < states and b < states and i <= MAX_LETTER and o <= MAX_LETTER and
                    1 <= u < v <= MAX_V and 1 <= d <= MAX_D):
                return 4, at
            if numbers in rows:
                return 5, at
            rows.append(numbers)
        at += 2 + size
        if kind == 3:
            return (2, at) if length > at else (0, Table(states, initial, rows))


# ---------------------------------------------------------------------------------------------------------------------
# Traces, words, responses

def joined(rows):
    return all(a[TO] == b[FROM] for a, b in zip(rows, rows[1:]))


def activates(gaps, rows, q):
    """Gaps in 1/q tick; the letters are those of the trace."""
    return len(gaps) == len(rows) and all(r[U] * q < g <= r[V] * q for g, r in zip(gaps, rows))


def responses(gaps, rows, q):
    """(due, step) of every step in the order of responses, steps from 1."""
    arrival = itertools.accumulate(gaps)
    return sorted((at + r[D] * q, j) for j, (at, r) in enumerate(zip(arrival, rows), 1))


def told_apart(a, b):
    """The order of two steps counts exactly if their output letters differ."""
    return a[OUTPUT] != b[OUTPUT]


def turning_pair(rows):
    """Least k, then least m, with U < D <= V and unlike output letters; or None."""
    us = [0] + list(itertools.accumulate(r[U] for r in rows))
    vs = [0] + list(itertools.accumulate(r[V] for r in rows))
    for k, first in enumerate(rows, 1):
        for m, last in enumerate(rows[k:], k + 1):
            if us[m] - us[k] < first[D] - last[D] <= vs[m] - vs[k] and told_apart(first, last):
                return k, m
    return None


def turning_pair_by_words(rows):
    """The same by the sentence itself: two words order two steps with unlike letters in opposite ways. Every gap of n parts
    of a tick is tried, n being the number of steps. None if there are too many words, else (pair or None,). A finer cut
    than n can't show more: the sum of at most n - 1 added parts stays below a tick."""
    n = len(rows)
    count = 1
    for r in rows:
        count *= (r[V] - r[U]) * n
        if count > 4000:
            return None
    after, before = set(), set()
    for gaps in itertools.product(*(range(r[U] * n + 1, r[V] * n + 1) for r in rows)):
        order = [step for _, step in responses(gaps, rows, n)]
        place = {step: i for i, step in enumerate(order)}
        for k, m in itertools.combinations(range(1, n + 1), 2):
            if told_apart(rows[k - 1], rows[m - 1]):
                (before if place[k] < place[m] else after).add((k, m))
    both = sorted(before & after)
    return (both[0] if both else None,)


def late_word(rows):
    return [256 * r[V] for r in rows]


def early_word(rows, k, m):
    return [256 * r[U] + 1 if k < j <= m else 256 * r[V] for j, r in enumerate(rows, 1)]


def stamps_of(gaps, start=0):
    return [at % TURN for at in itertools.accumulate(gaps, initial=start)][1:]


# ---------------------------------------------------------------------------------------------------------------------
# Verdict on a table

class Disagreement(Exception):
    """Two readings of the rules in this program differ: a fault of this program."""


def reachable(table):
    found, wave = {table.initial}, [table.initial]
    while wave:
        wave = list({r[TO] for r in table.rows if r[FROM] in wave and r[TO] not in found})
        found.update(wave)
    return found


def word_for_two_traces(table):
    """Does some word activate two different traces from the initial state? Walks two traces side by side."""
    seen, todo = {(table.initial, table.initial, False)}, [(table.initial, table.initial, False)]
    leaving = [[(i, r) for i, r in enumerate(table.rows) if r[FROM] == s] for s in range(table.states)]
    while todo:
        a, b, differ = todo.pop()
        if differ:
            return True
        for i, x in leaving[a]:
            for j, y in leaving[b]:
                if x[INPUT] == y[INPUT] and max(x[U], y[U]) < min(x[V], y[V]):
                    after = (x[TO], y[TO], differ or i != j)
                    if after not in seen:
                        seen.add(after)
                        todo.append(after)
    return False


def find_split(table):
    reach = reachable(table)
    for i, a in enumerate(table.rows):
        if a[FROM] in reach:
            for j in range(i + 1, len(table.rows)):
                b = table.rows[j]
                if b[FROM] == a[FROM] and b[INPUT] == a[INPUT] and max(a[U], b[U]) < min(a[V], b[V]):
                    return i, j
    return None


CAP = MAX_D                                     # D is at most 239: sums of v from 240 on are all alike
BELOW_CAP = (1 << CAP) - 1


class Walks:
    """All walks from a state with a sum of u of at most `most`: at[x][s] is the set of the sums of v of the walks that
    end in state s with a sum of u of at most x (the empty walk too). A set is a number whose bit y says that y is in
    it; bit 240 stands for all from 240 on."""

    def __init__(self, table, leaving, start, most):
        exact = [[0] * table.states for _ in range(most + 1)]
        exact[0][start] = 1
        for x in range(most + 1):
            for s, sums in enumerate(exact[x]):
                if sums:
                    for u, v, to in leaving[s]:
                        if x + u <= most:
                            longer = sums << v
                            if longer >> CAP:
                                longer = longer & BELOW_CAP | 1 << CAP
                            exact[x + u][to] |= longer
        self.at = [exact[0]]
        for row in exact[1:]:
            self.at.append([a | b for a, b in zip(self.at[-1], row)])


def find_by_sets(table, turning):
    """The lowest-numbered reachable transition that can be step k of a pair with U < D and, if `turning` asks for it, with
    D <= V and unlike output letters; or None."""
    reach = reachable(table)
    leaving = [[(r[U], min(r[V], CAP), r[TO]) for r in table.rows if r[FROM] == s] for s in range(table.states)]
    least = min((r[D] for r in table.rows), default=0)
    walks = {}
    for k, first in enumerate(table.rows):
        if first[FROM] not in reach:
            continue
        start = first[TO]
        for last in table.rows:
            difference = first[D] - last[D]
            room = difference - 1 - last[U]     # U < D: the walk before m has at most this sum of u
            if room < 0 or turning and not told_apart(first, last):
                continue
            if start not in walks:
                most = max(r[D] for r in table.rows if r[TO] == start and r[FROM] in reach) - least
                walks[start] = Walks(table, leaving, start, most).at
            if walks[start][room][last[FROM]] >> (max(0, difference - last[V]) if turning else 0):
                return k
    return None


def find_by_traces(table, turning):
    """The same by going through all walks one by one. None if there are too many, else (k or None,)."""
    reach = reachable(table)
    leaving = [[r for r in table.rows if r[FROM] == s] for s in range(table.states)]
    budget = 3000
    for k, first in enumerate(table.rows):
        if first[FROM] not in reach:
            continue
        todo = [(first[TO], 0, 0)]
        while todo:
            state, us, vs = todo.pop()
            for r in leaving[state]:
                budget -= 1
                if budget < 0:
                    return None
                difference = first[D] - r[D]
                if us + r[U] < difference and not (turning and (difference > vs + r[V] or not told_apart(first, r))):
                    return (k,)
                if us + r[U] < MAX_D:
                    todo.append((r[TO], us + r[U], vs + r[V]))
    return (None,)


def judge(table):
    """('strict',), ('split', I, J) or ('turning', transition)."""
    split = find_split(table)
    if len(table.rows) <= 64 and word_for_two_traces(table) != (split is not None):
        raise Disagreement("split by pairs and by words")
    if split is not None:
        return ("split",) + split
    k = find_by_sets(table, True)
    if len(table.rows) <= 12:
        other = find_by_traces(table, True)
        if other is not None and other[0] != k:
            raise Disagreement("turning by sets and by traces")
    return ("strict",) if k is None else ("turning", k)


# ---------------------------------------------------------------------------------------------------------------------
# Does the table keep request order?

def least_sums(leaving, start):
    """The least sum of u of the walks from a state to each state (0 for the empty one), by Dijkstra."""
    sums, todo = {}, [(0, start)]
    while todo:
        us, state = heapq.heappop(todo)
        if state not in sums:
            sums[state] = us
            for r in leaving[state]:
                heapq.heappush(todo, (us + r[U], r[TO]))
    return sums


def find_overtaken(table):
    """The lowest-numbered reachable transition that can be overtaken, or None. Gaps can come as near to their u as one
    likes, so a later step m can respond before k exactly if U < D; the least U to each m decides."""
    reach = reachable(table)
    leaving = [[r for r in table.rows if r[FROM] == s] for s in range(table.states)]
    sums = {}
    for k, first in enumerate(table.rows):
        if first[FROM] not in reach:
            continue
        if first[TO] not in sums:
            sums[first[TO]] = least_sums(leaving, first[TO])
        for state, us in sums[first[TO]].items():
            if any(us + last[U] < first[D] - last[D] for last in leaving[state]):
                return k
    return None


def find_overtaken_by_words(table):
    """The same by the sentence itself: every trace from the initial state under every word, up to two steps for each
    state, gaps in as many parts of a tick. Longer traces show no other transition: a round on the way to k or between k
    and m can be left out. Finer gaps don't either: fewer than q added parts stay below a tick. None if there are too many
    words, else (k or None,)."""
    q = 2 * table.states
    leaving = [[(i, r) for i, r in enumerate(table.rows) if r[FROM] == s] for s in range(table.states)]
    found, todo, budget = set(), [(table.initial, 0, ())], 6000
    while todo:
        state, now, dues = todo.pop()
        for i, r in leaving[state] if len(dues) < q else ():
            for gap in range(r[U] * q + 1, r[V] * q + 1):
                budget -= 1
                if budget < 0:
                    return None
                due = now + gap + r[D] * q
                found.update(k for k, earlier in dues if due < earlier)
                todo.append((r[TO], now + gap, dues + ((i, due),)))
    return (min(found, default=None),)


def overtaken_by_next(table):
    """Is a reachable transition overtaken by one that can come right after it? Sums add up: so it is exactly if any is
    overtaken at all."""
    reach = reachable(table)
    return any(a[FROM] in reach and a[TO] == b[FROM] and b[U] < a[D] - b[D] for a in table.rows for b in table.rows)


def request_order(table):
    """('in order',) or ('overtaken', transition)."""
    k = find_overtaken(table)
    if len(table.rows) <= 64 and (overtaken_by_next(table) != (k is not None) or find_by_sets(table, False) != k):
        raise Disagreement("overtaken by least sums, by neighbours and by sets")
    if len(table.rows) <= 12:
        for other in (find_by_traces(table, False), find_overtaken_by_words(table)):
            if other is not None and other[0] != k:
                raise Disagreement("overtaken by least sums, by traces and by words")
    return ("in order",) if k is None else ("overtaken", k)


# ---------------------------------------------------------------------------------------------------------------------
# What a call must do: its answer and the final content of all buffers

class Buf:
    """A lent buffer: its content, and its length if that is more (zeros beyond)."""

    def __init__(self, data, length=None):
        self.data, self.length = bytes(data), len(data) if length is None else length


def u16s(data, count):
    return list(struct.unpack_from("<%dH" % count, data, 0))


def u32s(data, count, at=0):
    return list(struct.unpack_from("<%dI" % count, data, at))


def put(old, new):
    return new + old[len(new):]


def take_trace(table, buf):
    """The rows of a trace, or None if it is refused with 6."""
    count = buf.length // 2
    if buf.length % 2 or not 1 <= count <= MAX_STEPS:
        return None
    numbers = u16s(buf.data, count)
    if any(i >= len(table.rows) for i in numbers):
        return None
    rows = [table.rows[i] for i in numbers]
    return rows if joined(rows) else None


class Want:
    """What the rules ask of one case. check() returns None or what is wrong."""

    def __init__(self, bufs):
        self.contents = [b.data for b in bufs]      # as they must be after the call
        self.answer = 0
        self.shown = None                           # for a table verdict with a free trace: checks the witness

    def kind(self, call):
        """For the tally."""
        if self.shown is not None:
            return self.shown[1][0]
        status = unpack(self.answer)[0]
        if status == TURNING:
            return "turning"
        return "refused %d" % status if status else {JUDGE: "strict", JUDGE_TRACE: "steady", REPLAY: "replayed",
                                                     REWRITE: "written", ORDER: "in order", WORDS: "replayed"}.get(call, "played")

    def text(self):
        if self.shown is not None:
            return "%s" % (self.shown[1],)
        return show(self.answer)

    def check(self, answer, contents, names):
        if self.shown is None:
            if answer != self.answer:
                return "answer %s, wanted %s" % (show(answer), show(self.answer))
            for name, is_now, must in zip(names, contents, self.contents):
                if is_now != must:
                    at = next(i for i in range(len(must)) if is_now[i] != must[i])
                    return "%s has %d at byte %d, wanted %d" % (name, is_now[at], at, must[at])
            return None
        if contents[0] != self.contents[0]:
            return "the file was changed"
        return check_witness(*self.shown, answer, self.contents, contents)


def check_witness(table, verdict, answer, old, new):
    status, first, second, n = unpack(answer)
    if status != {"split": SPLIT, "turning": TURNING, "overtaken": OVERTAKEN}[verdict[0]]:
        return "answer %s, wanted %s" % (show(answer), verdict)
    if not 1 <= n <= TABLE_TRACE:
        return "%d steps are shown" % n
    numbers = u16s(new[1], n)
    if any(i >= len(table.rows) for i in numbers):
        return "the shown trace names no transition: %s" % numbers
    rows = [table.rows[i] for i in numbers]
    if rows[0][FROM] != table.initial:
        return "the shown trace does not begin in the initial state: %s" % numbers
    if not joined(rows):
        return "the shown trace is not joined: %s" % numbers
    if new[1][2 * n:] != old[1][2 * n:]:
        return "an unused trace place was changed"
    if verdict[0] == "split":
        _, i, j = verdict
        if (first, second) != (i, j):
            return "split %d %d, wanted %d %d" % (first, second, i, j)
        if numbers[-1] != i:
            return "the first trace ends in %d, not in %d" % (numbers[-1], i)
        other = rows[:-1] + [table.rows[j]]
        gaps = late_word(rows[:-1]) + [256 * min(table.rows[i][V], table.rows[j][V])]
        stamps = u32s(new[2], n)
        if stamps != stamps_of(gaps):
            return "stamps %s, wanted %s" % (stamps, stamps_of(gaps))
        gaps = [b - a for a, b in zip([0] + stamps, stamps)]
        if not (joined(other) and activates(gaps, rows, 256) and activates(gaps, other, 256) and
                all(a[INPUT] == b[INPUT] for a, b in zip(rows, other)) and rows != other):
            return "the shown word does not activate two traces"
        used = 4 * n
    else:
        k, m = first, second
        if m != n:
            return "M is %d, the shown trace has %d steps" % (m, n)
        if not 1 <= k < m:
            return "K is %d, M is %d" % (k, m)
        if numbers[k - 1] != verdict[1]:
            return "step K is transition %d, wanted the lowest that is %s, %d" % (numbers[k - 1], *verdict)
        if numbers.index(verdict[1]) != k - 1:
            return "K is not the first place of transition %d" % verdict[1]
        if verdict[0] == "turning" and not told_apart(rows[k - 1], rows[m - 1]):
            return "steps K and M have like letters"
        words = [("early", early_word(rows, k, m), m, k)]
        if verdict[0] == "turning":
            words.insert(0, ("late", late_word(rows), k, m))
        used = 0
        for name, gaps, before, after in words:
            stamps = u32s(new[2], n, used)
            if stamps != stamps_of(gaps):
                return "%s word %s, wanted %s" % (name, stamps, stamps_of(gaps))
            gaps = [b - a for a, b in zip([0] + stamps, stamps)]
            if not activates(gaps, rows, 256):
                return "the %s word does not activate the trace" % name
            order = [step for _, step in responses(gaps, rows, 256)]
            if not order.index(before) < order.index(after):
                return "under the %s word step %d is not before step %d" % (name, before, after)
            used += 4 * n
    if new[2][used:] != old[2][used:]:
        return "an unused stamp place was changed"
    return None


VERDICTS = {}


def verdict_on(call, data, table):
    if (call, data) not in VERDICTS:
        if len(VERDICTS) > 500:
            VERDICTS.clear()
        VERDICTS[call, data] = judge(table) if call == JUDGE else request_order(table)
    return VERDICTS[call, data]


def side(gap, row):
    """9 if a gap in 1/256 tick is early, at most u; 12 if it is late, more than v; else 0."""
    return 9 if gap <= 256 * row[U] else 12 if gap > 256 * row[V] else 0


def replay(rows, start, stamps, order, due):
    """Replay on a trace, with early and late: the answer, and what order and due hold then."""
    n = len(rows)
    if stamps.length != 4 * n:
        return pack(7), order.data, due.data
    if order.length // 2 < n or due.length // 4 < n:
        return pack(8), order.data, due.data
    numbers = u32s(stamps.data, n)
    gaps = [(b - a) % TURN for a, b in zip([start] + numbers, numbers)]
    for j, (g, r) in enumerate(zip(gaps, rows), 1):
        number = side(g, r)
        if (number == 0) != activates([g], [r], 256):
            raise Disagreement("a gap %d and a guard (%d,%d]" % (g, r[U], r[V]))
        if number:
            return pack(number, j), order.data, due.data
    found = responses(gaps, rows, 256)
    return (pack(0), put(order.data, struct.pack("<%dH" % n, *(step for _, step in found))),
            put(due.data, struct.pack("<%dI" % n, *(at for at, _ in found))))


def replay_words(rows, starts, stamps, order, due, marks):
    """A night of words: the answer, and what order, due and marks hold then. Each word is a single replay that is lent
    its own places alone; its mark is the place that the single replay names, 0 or the step."""
    n, words = len(rows), starts.length // 4
    kept = [order.data, due.data, marks.data]
    if starts.length % 4 or words > MAX_WORDS or stamps.length != 4 * words * n:
        return pack(7), *kept
    if order.length // 2 < words * n or due.length // 4 < words * n or marks.length // 2 < words:
        return pack(8), *kept
    orders, dues, places = [], [], []
    for w, start in enumerate(u32s(starts.data, words)):
        twos, fours = slice(2 * n * w, 2 * n * (w + 1)), slice(4 * n * w, 4 * n * (w + 1))
        answer, *after = replay(rows, start, Buf(stamps.data[fours]), Buf(order.data[twos]), Buf(due.data[fours]))
        orders.append(after[0])
        dues.append(after[1])
        places.append(unpack(answer)[1])
    return (pack(0, words), put(order.data, b"".join(orders)), put(due.data, b"".join(dues)),
            put(marks.data, struct.pack("<%dH" % words, *places)))


# The player
CONFIG, RECORD = struct.Struct("<HHHI"), struct.Struct("<HHI")  # state, inputs, number waiting, timer; step, letter, time left
MAX_INPUTS, RECORDS, MAX_TIMER, MAX_LEFT = 512, 240, 4096 * 256, 240 * 256


@functools.lru_cache(maxsize=64)
def is_split(data, length):
    return find_split(read_file(data, length)[1]) is not None


def configuration(states, config, waiting):
    """State, inputs so far, timer and the waiting responses, (step, letter, time left) each; None if it is damaged."""
    if config.length < CONFIG.size:
        return None
    state, inputs, count, timer = CONFIG.unpack_from(config.data)
    if state >= states or timer > MAX_TIMER or inputs > MAX_INPUTS or count > RECORDS or count > waiting.length // RECORD.size:
        return None
    waits = [RECORD.unpack_from(waiting.data, RECORD.size * i) for i in range(count)]
    steps = [step for step, _, _ in waits]
    if steps != sorted(set(steps)) or not all(1 <= step <= inputs for step in steps):
        return None
    return None if any(left > MAX_LEFT for _, _, left in waits) else (state, inputs, timer, waits)


def time_moved(number, state, inputs, timer, waits):
    """Number of refusal or 0, the values named, and the next configuration."""
    if any(left < number for _, _, left in waits):
        return 11, (), None
    return 0, (), (state, inputs, min(timer + number, MAX_TIMER), [(step, o, left - number) for step, o, left in waits])


def output_moved(state, inputs, timer, waits):
    due = [response for response in waits if response[2] == 0]
    if not due:
        return 11, (), None
    return 0, min(due)[:2], (state, inputs, timer, [response for response in waits if response != min(due)])


def input_moved(table, split, letter, state, inputs, timer, waits):
    found = [i for i, r in enumerate(table.rows) if r[FROM] == state and r[INPUT] == letter and activates([timer], [r], 256)]
    for refusal, given in ((10, not found), (11, any(left == 0 for _, _, left in waits)), (13, split),
                           (14, inputs + 1 > MAX_INPUTS), (15, len(waits) + 1 > RECORDS)):
        if given:
            return refusal, (), None
    row = table.rows[found[0]]
    return 0, (found[0],), (row[TO], inputs + 1, 0, waits + [(inputs + 1, row[OUTPUT], 256 * row[D])])


def player(call, table, number, file, config, waiting):
    """A move of the player: the answer, and what the configuration and the records hold then."""
    room = waiting.length // RECORD.size >= RECORDS
    kept = config.data, waiting.data
    if call == PLAYER_START:
        if config.length < CONFIG.size or not room:
            return pack(8), *kept
        if is_split(file.data, file.length):
            return pack(13), *kept
        return pack(0), put(config.data, CONFIG.pack(table.initial, 0, 0, 0)), waiting.data
    now = configuration(table.states, config, waiting)
    if now is None or not room:
        return pack(15 if now is None else 8), *kept
    if call == PLAYER_TIME:
        refusal, named, after = time_moved(number, *now)
    elif call == PLAYER_INPUT:
        refusal, named, after = input_moved(table, is_split(file.data, file.length), number, *now)
    else:
        refusal, named, after = output_moved(*now)
    if refusal:
        return pack(refusal), *kept
    state, inputs, timer, waits = after
    return (pack(0, *named), put(config.data, CONFIG.pack(state, inputs, len(waits), timer)),
            put(waiting.data, b"".join(RECORD.pack(*response) for response in waits)))


class Past:
    """What happened since the last start: the inputs' gaps and transitions, and the outputs with their times."""

    def __init__(self, table):
        self.table, self.begun = table, False

    def add(self, call, number, answer, waits):
        """A move and its answer, and what waits then: never more than the ceiling of greatest d over least u."""
        status, first, second, _ = unpack(answer)
        if status == 0 and call == PLAYER_START:
            self.begun, self.gaps, self.rows, self.issued, self.now, self.since, self.most = True, [], [], [], 0, 0, 0
        elif status == 0 and self.begun:
            if call == PLAYER_TIME:
                self.now, self.since = self.now + number, self.since + number
            elif call == PLAYER_INPUT:
                self.gaps, self.rows, self.since = self.gaps + [self.since], self.rows + [self.table.rows[first]], 0
            else:
                self.issued.append((self.now, first, second))
        if self.begun:
            rows = self.table.rows
            self.most = max(self.most, len(waits))
            if len(waits) > (-(-max(r[D] for r in rows) // min(r[U] for r in rows)) if rows else 0):
                raise Disagreement("what waits and the ceiling of greatest d over least u")
            if call == PLAYER_OUTPUT and not waits and self.issued != self.conversion():
                raise Disagreement("what the player issued and what replay gives")

    def conversion(self):
        """Replay's answer for the word of the gaps on the trace that the inputs took: time, step and letter."""
        if self.rows and not (joined(self.rows) and activates(self.gaps, self.rows, 256)):
            raise Disagreement("inputs that were taken and a word that activates their trace")
        return [(due, step, self.rows[step - 1][OUTPUT]) for due, step in responses(self.gaps, self.rows, 256)]


def law(call, start, bufs):
    """What the rules ask of a call with these buffers."""
    want = Want(bufs)
    number, table = read_file(bufs[0].data, bufs[0].length)
    if number:
        want.answer = pack(number, table)
        return want
    if call in PLAYER:
        want.answer, *want.contents[1:] = player(call, table, start, *bufs)
        return want
    if call == REWRITE:
        data = write_file(table)
        if bufs[1].length < len(data):
            want.answer = pack(8)
        else:
            want.answer = pack(0, len(data))
            want.contents[1] = put(want.contents[1], data)
        return want
    if call in (JUDGE, ORDER):
        if bufs[1].length // 2 < TABLE_TRACE or bufs[2].length // 4 < {JUDGE: TABLE_STAMPS, ORDER: ORDER_STAMPS}[call]:
            want.answer = pack(8)
            return want
        verdict = verdict_on(call, bufs[0].data, table)
        if len(verdict) > 1:
            want.shown = (table, verdict)
        return want
    rows = take_trace(table, bufs[1])
    if rows is None:
        want.answer = pack(6)
        return want
    n = len(rows)
    if call == JUDGE_TRACE:
        if bufs[2].length // 4 < 2 * n:
            want.answer = pack(8)
            return want
        pair = turning_pair(rows)
        if n <= 5:
            other = turning_pair_by_words(rows)
            if other is not None and other[0] != pair:
                raise Disagreement("a trace turns by sums and by words")
        if pair is not None:
            want.answer = pack(TURNING, *pair, n)
            stamps = stamps_of(late_word(rows)) + stamps_of(early_word(rows, *pair))
            want.contents[2] = put(want.contents[2], struct.pack("<%dI" % (2 * n), *stamps))
        return want
    if call == REPLAY:
        want.answer, *want.contents[3:] = replay(rows, start, *bufs[2:])
    else:
        want.answer, *want.contents[4:] = replay_words(rows, *bufs[2:])
    return want


# ---------------------------------------------------------------------------------------------------------------------
# The driver

AFTER, BEFORE, LOOSE = 0, 1, 2
LAYOUTS = {AFTER: "forbidden pages after", BEFORE: "forbidden pages before", LOOSE: "guard bytes on both sides"}
GUARD = 64
NO_MEMORY = 255


class Lost(Exception):
    pass


class Driver:
    def __init__(self, command):
        self.command = command
        self.process = None

    def open(self):
        self.process = subprocess.Popen(self.command, stdin=subprocess.PIPE, stdout=subprocess.PIPE, bufsize=0)
        os.set_blocking(self.process.stdin.fileno(), False)

    def close(self):
        if self.process is not None:
            self.process.stdin.close()
            self.process.stdout.close()
            try:
                self.process.wait(5)
            except subprocess.TimeoutExpired:
                self.process.kill()
                self.process.wait()
            self.process = None

    def exchange(self, data, size):
        """Writes a request and reads `size` bytes of the answer (fewer if the driver had no memory)."""
        out, into = self.process.stdin.fileno(), self.process.stdout.fileno()
        data, got, end = memoryview(data), bytearray(), time.monotonic() + 90
        while len(got) < size:
            if len(got) >= 5 and got[4] == NO_MEMORY and len(got) >= 21:
                break
            ready = select.select([into], [out] if data else [], [], max(0.1, end - time.monotonic()))
            if not ready[0] and not ready[1]:
                raise Lost("the driver does not answer")
            if ready[1]:
                try:
                    data = data[os.write(out, data[:65536]):]
                except BlockingIOError:
                    pass
                except BrokenPipeError:
                    raise Lost("the driver ended") from None
            if ready[0]:
                some = os.read(into, 1 << 20)
                if not some:
                    raise Lost("the driver ended")
                got += some
        return bytes(got)

    def ask(self, call, start, bufs, guards, layout, null_empty):
        """(signal or 0, answer, contents, guards, helpers agree)"""
        if self.process is None:
            self.open()
        request = [b"SGRQ", struct.pack("<BBBBI", call, layout, null_empty, len(bufs), start)]
        for b, guard in zip(bufs, guards):
            request += [struct.pack("<QI", b.length, len(b.data)), guard, b.data]
        size = 21 + sum(GUARD + len(b.data) for b in bufs)
        try:
            got = self.exchange(b"".join(request), size)
        except Lost:
            self.close()
            raise
        outcome, answer = got[4], int.from_bytes(got[5:13], "little")
        if got[:4] != b"SGRS":
            raise Lost("the driver's answer is none")
        contents, after, at = [], [], 21
        if outcome != NO_MEMORY:
            for b in bufs:
                after.append(got[at:at + GUARD])
                contents.append(got[at + GUARD:at + GUARD + len(b.data)])
                at += GUARD + len(b.data)
        return outcome, answer, contents, after, struct.unpack("<4H", got[13:21]) == unpack(answer)


class Case:
    """One case. `pinned` is what is written down for it, beside what law() says: an answer, or a function
    of answer and contents that returns None or what is wrong."""

    def __init__(self, call, bufs, start=0, name="", pinned=None):
        self.call, self.start, self.name, self.pinned = call, start, name, pinned
        self.bufs = [b if isinstance(b, Buf) else Buf(b) for b in bufs]


def try_layout(driver, case, want, rng, layout, null_empty):
    """None, 'skipped', or what is wrong."""
    names = BUFFERS[case.call]
    guards = [rng.randbytes(GUARD) for _ in case.bufs]
    where = "(%s%s)" % (LAYOUTS[layout], ", empty buffers NULL" if null_empty else "")
    try:
        outcome, answer, contents, after, agree = driver.ask(case.call, case.start, case.bufs, guards, layout, null_empty)
    except Lost as lost:
        return "%s %s; wanted %s" % (lost, where, want.text())
    if outcome == NO_MEMORY:
        return "skipped"
    if outcome:
        return "ended by %s %s; wanted %s" % (signal.Signals(outcome).name, where, want.text())
    if not agree:
        return "the header's helpers take %#x apart wrongly" % answer
    wrong = want.check(answer, contents, names)
    if wrong is None and case.pinned is not None:
        if callable(case.pinned):
            wrong = case.pinned(answer, contents)
        elif answer != case.pinned:
            wrong = "answer %s, written down is %s" % (show(answer), show(case.pinned))
    if wrong is None:
        for name, guard, is_now in zip(names, guards, after):
            if guard != is_now:
                wrong = "guard bytes of %s were changed" % name
    return None if wrong is None else "%s %s" % (wrong, where)


def try_case(driver, case, rng):
    """None, 'skipped', or what is wrong."""
    want = law(case.call, case.start, case.bufs)
    case.kinds = [(case.call, want.kind(case.call))]
    null = rng.randrange(2)
    layouts = [(AFTER, null), (BEFORE, 1 - null)]
    if rng.randrange(4) == 0:
        layouts.append((LOOSE, null))
    for layout, null_empty in layouts:
        wrong = try_layout(driver, case, want, rng, layout, null_empty)
        if wrong is not None:
            return wrong
    return None


class Run:
    """Moves of the player, one after the other on the same buffers. `choose` is handed the configuration (None if it is
    damaged) and the last answer (None before the first move), and gives the next move: a call and its number, or None.
    `pinned` is what is written down of the whole: a function of the past that returns None or what is wrong."""

    def __init__(self, bufs, choose, name="", pinned=None):
        self.bufs, self.choose, self.name, self.pinned = bufs, choose, name, pinned


def try_run(driver, run, rng):
    """None, 'skipped', or what is wrong. Every byte is compared after every move."""
    file, config, waiting = (b if isinstance(b, Buf) else Buf(b) for b in run.bufs)
    number, table = read_file(file.data, file.length)
    past, answer, run.kinds = None if number else Past(table), None, []
    while True:
        now = None if number else configuration(table.states, config, waiting)
        move = run.choose(now, answer)
        if move is None:
            return run.pinned(past) if run.pinned is not None else None
        run.last = Case(move[0], [file, config, waiting], move[1])
        want = law(move[0], move[1], run.last.bufs)
        wrong = try_layout(driver, run.last, want, rng, rng.choice((AFTER, BEFORE, LOOSE)), rng.randrange(2))
        run.kinds.append((move[0], want.kind(move[0])))
        if wrong is not None:
            return wrong if wrong == "skipped" else "move %d, %s: %s" % (len(run.kinds), CALLS[move[0]], wrong)
        answer = want.answer
        config, waiting = Buf(want.contents[1], config.length), Buf(want.contents[2], waiting.length)
        if past is not None:
            after = configuration(table.states, config, waiting)
            past.add(move[0], move[1], answer, after[3] if after else [])


# ---------------------------------------------------------------------------------------------------------------------
# Random tables

def outputs(rng):
    """The output letters of a table: one throughout, two that differ in a bit, few that are often alike, or any."""
    one, bit = rng.randrange(256), 1 << rng.randrange(8)
    return rng.choice(((one,), (one, one ^ bit), (one, one ^ bit), (0, 1, 2), (0, 1, 2, one), (0, 0, 0, 1), range(256),
                       range(256)))


def finish(rng, states, initial, rows, inputs="apart", shuffle=None):
    """Gives letters, numbers the transitions, leaves no two equal. Rows are [from, to, u, v, d] or whole rows, of which
    input and output may be None."""
    whole, letters = [], outputs(rng)
    for r in rows:
        if len(r) == 5:
            a, b, u, v, d = r
            r = [a, None, None, b, u, v, d]
        whole.append(list(r))
        if whole[-1][OUTPUT] is None:
            whole[-1][OUTPUT] = rng.choice(letters)
    if shuffle if shuffle is not None else rng.randrange(2):
        rng.shuffle(whole)
    whole = whole[:MAX_TRANSITIONS]
    used = {}
    for r in whole:
        if r[INPUT] is None:
            if inputs == "apart":
                if r[FROM] not in used:
                    used[r[FROM]] = list(range(256)) if rng.randrange(2) else rng.sample(range(256), 256)
                r[INPUT] = used[r[FROM]].pop(0)
            elif inputs == "few":
                r[INPUT] = rng.randrange(3)
            else:
                r[INPUT] = rng.randrange(256)
    seen, kept = set(), []
    for r in whole:
        for _ in range(300):
            if tuple(r) not in seen:
                seen.add(tuple(r))
                kept.append(r)
                break
            r[OUTPUT] = (r[OUTPUT] + 1) % 256
    return Table(states, initial, kept)


def renamed(rng, table):
    """The same table with other state numbers."""
    names = rng.sample(range(table.states), table.states)
    return Table(table.states, names[table.initial],
                 [(names[r[FROM]], r[INPUT], r[OUTPUT], names[r[TO]]) + r[U:] for r in table.rows])


def guard_of(rng, low, width):
    u = rng.randint(1, low)
    return u, min(MAX_V, u + rng.randint(1, width))


def clip(d):
    return max(1, min(MAX_D, d))


def shape_tiny(rng):
    states = rng.randint(1, 4)
    low, width, most = rng.choice((1, 2, 4)), rng.choice((1, 2, 4)), rng.choice((3, 6, 12, 30))
    rows = [[rng.randrange(states), rng.randrange(states), *guard_of(rng, low, width), rng.randint(1, most)]
            for _ in range(rng.choice((0, 1, 2, 2, 3, 3, 4, 5, 6, 8)))]
    return finish(rng, states, rng.randrange(states), rows, rng.choice(("apart", "apart", "few")))


def around(rng, us, vs):
    """A difference of delays at or next to one of the limits, or between."""
    return rng.choice((us - 1, us, us, us + 1, us + 1, vs - 1, vs, vs, vs + 1, vs + 1, rng.randint(us, vs)))


def delays(rng, difference):
    """d of k and d of m with this difference, or the nearest."""
    difference = max(-239, min(239, difference))
    dm = rng.randint(max(1, 1 - difference), min(MAX_D, MAX_D - difference))
    return dm + difference, dm


def shape_pair(rng):
    """A way to k, then a walk, then m; the difference of delays next to a limit."""
    before, between = rng.choice((0, 0, 1, 2, 5)), rng.choice((0, 0, 1, 1, 2, 3, 6, 12))
    low, width = rng.choice((1, 3, 10, 40)), rng.choice((1, 2, 5, 20))
    guards = [guard_of(rng, low, width) for _ in range(between + 1)]
    us, vs = sum(g[0] for g in guards), sum(g[1] for g in guards)
    dk, dm = delays(rng, around(rng, us, vs))
    state, rows = 0, []
    for _ in range(before):
        rows.append([state, state + 1, *guard_of(rng, 3, 3), rng.choice((1, dm, clip(dk - 1)))])
        state += 1
    rows.append([state, state + 1, *guard_of(rng, 4, 4), dk])
    state += 1
    so_far, way = 0, rng.randrange(3)
    for u, v in guards[:-1]:
        so_far += u
        d = clip(dk - so_far) if way == 0 else dk if way == 1 else rng.randint(1, 240)
        rows.append([state, state + 1, u, v, d])
        state += 1
    rows.append([state, state + 1, *guards[-1], dm])
    table = finish(rng, state + 2, 0, rows, rng.choice(("apart", "apart", "any")))
    return renamed(rng, table) if rng.randrange(2) else table


def shape_ways(rng):
    """Several walks with different sums from k's arrival to m's departure; only some of them turn."""
    rows, nxt, ways = [], 3, []
    for _ in range(rng.choice((2, 2, 3, 4))):
        steps = rng.choice((1, 1, 2, 3))
        low, width = rng.choice((1, 2, 8, 30)), rng.choice((1, 2, 10, 40))
        guards = [guard_of(rng, low, width) for _ in range(steps)]
        state = 1
        for i, (u, v) in enumerate(guards):
            to = 2 if i == steps - 1 else nxt
            nxt += to == nxt
            rows.append([state, to, u, v, None])
            state = to
        ways.append((sum(g[0] for g in guards), sum(g[1] for g in guards)))
    um, vm = guard_of(rng, 3, 3)
    us, vs = rng.choice(ways)
    dk, dm = delays(rng, around(rng, us + um, vs + vm))
    middle = rng.choice((dk, 240, dm, rng.randint(1, 240)))
    for r in rows:
        r[4] = middle
    if rng.randrange(3) == 0:
        rows.append([2, 1, *guard_of(rng, 9, 5), middle])
    rows = [[0, 1, *guard_of(rng, 3, 3), dk]] + rows + [[2, nxt, um, vm, dm]]
    table = finish(rng, nxt + 1, 0, rows, shuffle=rng.randrange(3) == 0)
    return renamed(rng, table) if rng.randrange(2) else table


def shape_loop(rng):
    """Long walks: loops of small steps between a great delay and a small one."""
    rows = [[0, 1, *guard_of(rng, 5, 5), rng.choice((240, 239, rng.randint(2, 240)))]]
    states = rng.randint(1, 4)
    for s in range(1, states + 1):
        rows.append([s, s % states + 1, *guard_of(rng, rng.choice((1, 1, 3, 9)), rng.choice((1, 1, 2, 9))),
                     rng.choice((240, rows[0][4], rng.randint(1, 240)))])
    rows.append([rng.randint(1, states), states + 1, *guard_of(rng, rng.choice((1, 20, 238)), rng.choice((1, 5))),
                 rng.choice((1, 1, 2, rng.randint(1, 240)))])
    return finish(rng, states + 2, 0, rows, shuffle=rng.randrange(3) == 0)


def shape_steady(rng, states=None, count=None, reversed_end=True):
    """Delays that fall along a walk at most as fast as the lower sums grow, often exactly as fast: strict and in order.
    Then perhaps one number is changed by one, and perhaps two are added that are always reversed."""
    states = states or rng.randint(2, 10)
    count = count or rng.randint(1, 30)
    top = rng.choice((5, 20, 240))
    level = [rng.randint(1, top) for _ in range(states)]
    rows = []
    for i in range(count):
        a = i % states if i < states else rng.randrange(states)
        b = (a + 1) % states if i < states else rng.randrange(states)
        d = level[b] if rng.randrange(3) else rng.randint(1, level[b])
        u = max(1, level[a] - d) + rng.choice((0, 0, 0, 1, 3))
        rows.append([a, b, u, u + rng.choice((1, 2, rng.randint(1, 50))), d])
    change = rng.randrange(5)
    row = rng.choice(rows)
    if change == 1:
        row[4] = clip(row[4] + 1)
    elif change == 2:
        row[4] = clip(row[4] - 1)
    elif change == 3 and row[2] > 1:
        row[2] -= 1
    if reversed_end and rng.randrange(3) == 0 and states < MAX_STATES - 1:
        rows.append([0, states, 1, 2, 240])     # always overtaken by the next, which ends there
        rows.append([states, states + 1, 1, 2, 1])
        states += 2
    return finish(rng, states, 0, rows, shuffle=True)


def shape_dense(rng, states=None, count=None):
    states = states or rng.randint(2, 8)
    count = count or rng.randint(5, 60)
    low, width, most = rng.choice((1, 3, 10, 60)), rng.choice((1, 3, 30)), rng.choice((4, 20, 80, 240))
    base = rng.randint(1, MAX_D - most) if most < MAX_D and rng.randrange(2) else 1
    rows = [[rng.randrange(states), rng.randrange(states), *guard_of(rng, low, width),
             rng.randint(base, min(MAX_D, base + most))] for _ in range(count)]
    return finish(rng, states, rng.randrange(states), rows, rng.choice(("apart", "apart", "apart", "any")))


def shape_chain(rng):
    """A long way to the states that matter, and a part that can't be reached."""
    length = rng.choice((3, 10, 30, 31))
    rows = [[s, s + 1, *guard_of(rng, 2, 2), rng.choice((1, 1, 2, 3))] for s in range(length)]
    states = length + 1
    end = length if rng.randrange(3) else rng.randint(0, length)
    kind = rng.randrange(4)
    if kind == 0:
        rows.append([end, None, 5, end, 1, 4, 9])
        rows.append([end, None, 6, end, rng.choice((3, 4)), 6, 9])
        rows[-1][INPUT] = rows[-2][INPUT] = 7
    elif kind == 1:
        rows.append([end, end, 1, 2, 240])
        rows.append([end, 0, *guard_of(rng, 2, 2), rng.randint(1, 240)])
    elif kind == 2:
        rows.append([end, rng.randrange(states), *guard_of(rng, 9, 9), rng.randint(1, 240)])
        rows.append([rng.randrange(states), end, *guard_of(rng, 9, 9), rng.randint(1, 240)])
    if states < MAX_STATES - 2:
        a = states
        states += 2
        rows.append([a, 1, 3, a + 1, 1, 2, 20])
        rows.append([a, 1, 4, a + 1, 1, 3, 20])
        rows.append([a + 1, a, 1, 30, 2])
        rows.append([a, rng.randrange(length), 1, 30, 2])
    initial = 0 if rng.randrange(4) else rng.randrange(states)
    table = finish(rng, states, initial, rows)
    return renamed(rng, table) if rng.randrange(2) else table


def shape_touching(rng):
    """Equal inputs with guards that touch, overlap by little or much; like or unlike otherwise."""
    states = rng.randint(1, 5)
    rows = []
    for _ in range(rng.randint(1, 6)):
        s, letter, at = rng.randrange(states), rng.randrange(3), rng.randint(1, 5)
        for _ in range(rng.randint(1, 4)):
            top = at + rng.randint(1, 4)
            d = rng.choice((10, 10, 11, 14))
            rows.append([s, letter, rng.choice((0, 0, 1)), rng.randrange(states), at, top, d])
            at = top - (rng.randrange(8) == 0 and top > 1)
    return finish(rng, states, rng.randrange(states), rows)


def shape_wide(rng):
    """Great numbers: long guards, extreme delays and letters."""
    states = rng.choice((1, 2, 5, 32))
    rows = []
    for _ in range(rng.randint(1, 20)):
        u = rng.choice((1, 238, 239, 240, 4094, rng.randint(1, 4094)))
        v = rng.choice((u + 1, 4095, rng.randint(u + 1, 4095)))
        rows.append([rng.randrange(states), rng.choice((0, 255, rng.randrange(256))), rng.choice((0, 255)),
                     rng.randrange(states), u, v, rng.choice((1, 2, 239, 240, rng.randint(1, 240)))])
    return finish(rng, states, rng.randrange(states), rows)


def shape_small_full(rng):
    """256 transitions, few sums: quick to judge."""
    states = rng.choice((1, 2, 32))
    low = rng.choice((50, 1000, 4000))
    rows = [[rng.randrange(states), rng.randrange(states), *guard_of(rng, low, 90), rng.randint(1, 240)]
            for _ in range(256)]
    return finish(rng, states, rng.randrange(states), rows, rng.choice(("apart", "any")))


def shape_full(rng):
    """32 states and 256 transitions."""
    if rng.randrange(2):
        return shape_steady(rng, 32, 256)
    return shape_dense(rng, 32, 256)


def shape_heavy(rng):
    """32 states and 256 transitions with very many walks: a core of small steps with great delays, from which slow
    steps with smaller delays lead on, D = U or nearly so. One bridge out of the core may turn, late in the file."""
    rows = []
    for i in range(250):
        a, b = (i + 1, (i + 1) % 28 + 1) if i < 28 else (rng.randint(1, 28), rng.randint(1, 28))
        if i % 4 or i < 28:
            u, d = rng.randint(1, 4), rng.choice((239, 240))
        else:
            d = rng.randint(1, 239)
            u = 240 - d
        rows.append([a, b, u, u + rng.randint(1, 3), d])
    if rng.randrange(3) == 0:
        rows[rng.randrange(28, 250)][2] -= 1
        rows = [r for r in rows if r[2] > 0]
    rows.insert(0, [0, 1, 1, 2, 240])
    rows += [[0, 30, 1, 2, 240], [30, 31, 1, 2, 1]]     # always overtaken
    if rng.randrange(2):
        rows += [[rng.randint(1, 28), 29, 239, 240, 240], [29, 29, 1, 2, 240], [29, 31, rng.randint(1, 238), 239, 1]]
    return finish(rng, 32, 0, rows, shuffle=False)


def summed(rng, lows, whole):
    """Numbers of at most 4,095, each above its low one, with this sum; or None."""
    numbers = [MAX_V] * len(lows)
    spare = sum(numbers) - whole
    places = list(range(len(lows)))
    rng.shuffle(places)
    for place in places:
        less = min(spare, MAX_V - lows[place] - 1)
        if place != places[-1] and rng.randrange(2):
            less = rng.randint(0, less)
        numbers[place] -= less
        spare -= less
    return numbers if spare == 0 else None


def wrapping_chain(rng):
    """Guards, and the difference of delays, of a pair whose sum of v (or of u) is a multiple of a power of two and little
    more: of 65,536 ticks, or of 256, which is 65,536 parts. A judge that keeps 16 bits of it would take it for small."""
    turn = rng.choice((65536, 65536, 256))
    if rng.randrange(3):
        us = [rng.choice((1, 1, 1, 2)) for _ in range(rng.randint(17, 40) if turn == 65536 else rng.randint(1, 9))]
        difference = rng.randint(sum(us) + 1, MAX_D - 1)
        vs = summed(rng, us, turn * rng.randint(1, len(us) * MAX_V // turn) + rng.randrange(difference))
    else:
        rest = rng.randrange(200)
        us = summed(rng, [0] * (17 if turn == 65536 else rng.randint(1, 9)), turn + rest)
        us = us and [min(u, MAX_V - 1) for u in us]
        vs = us and [min(MAX_V, u + rng.randint(1, 9)) for u in us]
        difference = rest + rng.randint(1, 9)
    return None if vs is None else (list(zip(us, vs)), difference)


def shape_wrapping(rng):
    """A chain with sums beyond 16 bits; the steps between respond with the first, so that it alone spans the whole sum."""
    found = None
    while found is None:
        found = wrapping_chain(rng)
    guards, difference = found
    dk, dm = delays(rng, difference)
    rows = [[0, 1, *guard_of(rng, 4, 4), dk]]
    for j, (u, v) in enumerate(guards, 1):
        rows.append([j, j + 1, u, v, dm if j == len(guards) else dk])
    if len(rows) >= MAX_STATES or rng.randrange(3) == 0:
        return finish(rng, 1, 0, [[0, 0] + row[2:] for row in rows], shuffle=False)
    return finish(rng, MAX_STATES, 0, rows, shuffle=False)


def shape_words(rng):
    """So small that every word can be tried."""
    states = rng.choice((1, 1, 2, 2, 3))
    rows = []
    for _ in range(rng.randint(1, 4 - states) + 1):
        u = rng.randint(1, 3)
        rows.append([rng.randrange(states), rng.randrange(states), u, u + 1, rng.randint(1, 8)])
    return finish(rng, states, rng.randrange(states), rows, rng.choice(("apart", "few")))


def shape_order(rng):
    """In order, or nearly so."""
    return shape_steady(rng, reversed_end=False)


def shape_far(rng):
    """From k a long walk and a short one lead to m, the steps between responding no sooner than k; D next to the long
    walk's U. Beside them what must not count: small delays before k, after another step, and where nothing leads."""
    before, between = rng.choice((0, 0, 1, 2)), rng.choice((1, 2, 3, 5, 12, 22))
    low = rng.choice((1, 2, 9)) if between < 20 else 9
    guards = [guard_of(rng, low, rng.choice((1, 2, 30))) for _ in range(between + 1)]
    us = sum(g[0] for g in guards)
    dk, dm = delays(rng, us + rng.choice((-1, 0, 0, 1, 1, 2, 40)))
    first, last = before + 1, before + 1 + between
    end, side, hidden = last + 1, last + 2, last + 3
    rows = [[before, first, *guard_of(rng, 4, 4), dk]]
    for j, (u, v) in enumerate(guards[:-1]):
        rows.append([first + j, first + j + 1, u, v, clip(dk + rng.choice((0, 0, 1, 9)))])
    rows.append([last, end, *guards[-1], dm])
    short = us - guards[-1][0] + rng.choice((-1, 0, 1, 5))
    if between > 1 and rng.randrange(2):
        rows.append([first, last, max(1, short), max(1, short) + rng.choice((1, 2)), dk])
    rows += [[s, s + 1, *guard_of(rng, 3, 3), 1] for s in range(before)]
    if rng.randrange(2):
        rows.append([0, side, 1, 2, 1])
    if rng.randrange(2):
        rows += [[hidden, first, 1, 2, 1], [hidden, hidden, 1, 2, 1]]
        rows.insert(0, [hidden, hidden, 1, 3, 240])
    if rng.randrange(3) == 0:
        rows.append([last, rng.randrange(first, last + 1), *guard_of(rng, 9, 9), dk])
    return renamed(rng, finish(rng, hidden + 1, 0, rows, rng.choice(("apart", "any", "few")), rng.randrange(3) == 0))


def shape_alike(rng):
    """A chain on which most pairs turn or nearly so, with two letters: the first steps are alike, and so are the least
    pairs. Beside some steps there is one with the other letter, or with another delay."""
    length, alike = rng.randint(2, 9), rng.randint(1, 6)
    letters, d, rows = rng.sample(range(256), 2), rng.randint(60, 240), []
    for s in range(length):
        u, v = guard_of(rng, 3, rng.choice((2, 4, 9)))
        d = clip(d - rng.choice((u, u + 1, v, v + 1, (u + v + 1) // 2)))
        letter = letters[0] if s < alike else rng.choice(letters)
        rows.append([s, None, letter, s + 1, u, v, d])
        if rng.randrange(3) == 0:
            more = rng.choice((0, 0, 1, -1))
            rows.append([s, None, letters[letter == letters[0]] if more == 0 else letter, s + 1, u, v, clip(d + more)])
    if rng.randrange(3) == 0:
        rows.append([length, None, rng.choice(letters), rng.randrange(length), *guard_of(rng, 9, 9), rng.randint(1, 240)])
    table = finish(rng, length + 1, 0 if rng.randrange(4) else rng.randrange(length), rows,
                   rng.choice(("apart", "apart", "apart", "few")), rng.randrange(3) == 0)
    return renamed(rng, table) if rng.randrange(2) else table


SMALL = (shape_tiny, shape_tiny, shape_tiny, shape_pair, shape_pair, shape_pair, shape_ways, shape_ways, shape_ways,
         shape_steady, shape_steady, shape_dense, shape_chain, shape_touching, shape_wide, shape_loop, shape_alike,
         shape_alike)


def any_table(rng):
    if rng.randrange(25) == 0:
        return shape_small_full(rng)
    return rng.choice(SMALL)(rng)


# ---------------------------------------------------------------------------------------------------------------------
# Random traces, stamps, rooms, damage

def random_trace(rng, table, length):
    """Transition numbers of a walk of at most this length; [] if the table has none."""
    if not table.rows:
        return []
    leaving = [[i for i, r in enumerate(table.rows) if r[FROM] == s] for s in range(table.states)]
    starts = leaving[table.initial] if rng.randrange(2) else []
    trace = [rng.choice(starts) if starts else rng.randrange(len(table.rows))]
    while len(trace) < length and leaving[table.rows[trace[-1]][TO]]:
        trace.append(rng.choice(leaving[table.rows[trace[-1]][TO]]))
    return trace


def table_for_trace(rng):
    """A table made for one trace, with the difference of delays of some pair next to a limit."""
    n = rng.choice((2, 2, 3, 3, 4, 5, 8, 20, 60, 240))
    k = rng.randint(1, n - 1)
    m = rng.choice((k + 1, n, rng.randint(k + 1, n)))
    low = rng.choice((1, 1, 3, 12))
    guards = [guard_of(rng, low, rng.choice((1, 2, 6))) for _ in range(n)]
    us, vs = sum(g[0] for g in guards[k:m]), sum(g[1] for g in guards[k:m])
    dk, dm = delays(rng, around(rng, us, vs))
    middle = rng.choice((dk, dm, 240, 1, None))
    states = rng.choice((1, 2, 32))
    rows = []
    for j, (u, v) in enumerate(guards, 1):
        d = dk if j == k else dm if j == m else middle if middle is not None else rng.randint(1, 240)
        rows.append([j % states, (j + 1) % states, u, v, d])
    table = finish(rng, states, rng.randrange(states), rows, rng.choice(("apart", "any")), shuffle=False)
    return table, list(range(min(n, len(table.rows))))


def table_and_trace(rng):
    if rng.randrange(3) == 0:
        return table_for_trace(rng)
    table = any_table(rng)
    return table, random_trace(rng, table, rng.choice((1, 2, 2, 3, 3, 4, 5, 8, 20, 100, 239, 511, 512)))


def spoiled_trace(rng, table, trace):
    """Bytes of a trace that is mostly refused."""
    trace = list(trace) or [0]
    kind = rng.randrange(7)
    if kind == 0:
        return b""
    if kind == 1:
        data = struct.pack("<%dH" % len(trace), *trace)
        return data + rng.randbytes(1) if rng.randrange(2) else data[:-1]
    if kind == 2:
        trace[rng.randrange(len(trace))] = rng.choice((len(table.rows), len(table.rows) + 1, 256, 257, 65535, 32768))
    elif kind == 3:
        trace[rng.randrange(len(trace))] = rng.randrange(max(1, len(table.rows)))
    elif kind == 4:
        trace = (trace * 520)[:rng.choice((513, 514, 1024))]
    elif kind == 5:
        rng.shuffle(trace)
    else:
        trace = [rng.randrange(300) for _ in range(rng.randint(1, 9))]
    return struct.pack("<%dH" % len(trace), *trace)


def random_start(rng):
    return rng.choice((0, 1, TURN - 1, TURN - rng.randint(1, 5000), TURN - rng.randint(1, 1 << 20), TURN // 2,
                       rng.randrange(TURN)))


def random_gaps(rng, rows):
    """Gaps inside the guards, at the limits or anywhere; sometimes so that due times are equal."""
    way = rng.choice(("late", "early", "limits", "any", "any", "ties", "ties"))
    gaps, now, dues = [], 0, []
    for r in rows:
        low, high = 256 * r[U] + 1, 256 * r[V]
        gap = high if way == "late" else low if way == "early" else rng.choice((low, high)) if way == "limits" \
            else rng.randint(low, high)
        if way == "ties" and dues:
            wanted = [due - now - 256 * r[D] + rng.choice((0, 0, 0, 1, -1)) for due in dues[-8:]]
            wanted = [g for g in wanted if low <= g <= high]
            gap = rng.choice(wanted) if wanted else gap
        gaps.append(gap)
        now += gap
        dues.append(now + 256 * r[D])
    return gaps


def spoil_gap(rng, rows, gaps):
    j = rng.randrange(len(gaps))
    r = rows[j]
    gaps[j] = rng.choice((256 * r[U], 256 * r[U] - 1, 256 * r[V] + 1, 0, 1, TURN - 1, TURN - 256 * r[V],
                          rng.randrange(TURN))) % TURN


def room(rng, needed, width):
    """Bytes of random content for a room that needs so many places: enough or not, whole or not."""
    size = needed * width + rng.choice((0, 0, 0, 0, 1, width - 1, width, 40, -1, -1, -width, -needed * width))
    return rng.randbytes(max(0, size))


def mutate(rng, data):
    """One damage."""
    data = bytearray(data)
    kind = rng.choice((0, 1, 2, 3, 4, 5, 6, 6, 6, 6, 7, 8, 9, 10, 11))
    records = max(1, (len(data) - 12) // 18)
    at = 8 + 18 * rng.randrange(records)
    if kind == 0:
        del data[rng.randrange(len(data) + 1):]
    elif kind == 1 and data:
        data[rng.randrange(len(data))] ^= 1 << rng.randrange(8)
    elif kind == 2 and data:
        data[rng.randrange(len(data))] = rng.randrange(256)
    elif kind == 3:
        data += rng.choice((bytes(rng.randint(1, 20)), rng.randbytes(rng.randint(1, 6)), record(3, ()),
                            record(2, (0, 0, 0, 0, 1, 2, 3)), record(1, (1, 0))))
    elif kind == 4:
        del data[at:at + rng.choice((1, 2, 4, 17, 18))]
    elif kind == 5:
        at = rng.choice((0, at, len(data) - 4))
        data[at:at] = rng.choice((rng.randbytes(1), record(1, (3, 0)), record(3, ()), bytes(data[at:at + 18]),
                                  record(rng.choice((0, 4, 5, 256, 513)), ())))
    elif kind == 6 and len(data) >= at + 18:
        field = rng.randrange(7)
        limits = {FROM: (0, 1, 31, 32, 33, 65535), TO: (0, 1, 31, 32, 33), INPUT: (255, 256, 65535),
                  OUTPUT: (255, 256, 65535), U: (0, 1, 4094, 4095, 65535), V: (0, 1, 2, 4095, 4096, 4096, 65535),
                  D: (0, 1, 240, 241, 65535)}
        struct.pack_into("<H", data, at + 4 + 2 * field, rng.choice(limits[field]))
    elif kind == 7 and len(data) >= 8:
        struct.pack_into("<H", data, rng.choice((4, 6)), rng.choice((0, 1, 2, 31, 32, 33, 65535)))
    elif kind == 8 and len(data) >= at + 4:
        struct.pack_into("<H", data, rng.choice((0, at, len(data) - 4)),
                         rng.choice((0, 1, 2, 3, 4, 5, 6, 7, 14, 15, 16, 17, 18, 256 + 16, 65535)))
    elif kind == 9 and len(data) >= at + 4:
        struct.pack_into("<H", data, rng.choice((0, at, len(data) - 4)) + 2,
                         rng.choice((0, 1, 2, 3, 4, 256 + 2, 512 + 3, 65535)))
    elif kind == 10 and len(data) >= at + 18:
        other = 8 + 18 * rng.randrange(records)
        data[other:other + 18] = data[at:at + 18]
    else:
        data = bytearray(rng.randbytes(rng.randrange(40)))
    return bytes(data)


def damaged_file(rng):
    if rng.randrange(20) == 0:
        rows = [(0, i % 256, i // 256, 0, 1, 2, 3) for i in range(256)]
        extra = rng.choice(((0, 7, 9, 0, 1, 2, 3), rows[5], (0, 7, 9, 0, 2, 2, 3)))
        data = write_file(Table(1, 0, rows + [extra]))
        if rng.randrange(2):
            data = data[:rng.randint(8 + 18 * 256, len(data))]
        return data
    data = write_file(any_table(rng))
    for _ in range(rng.choice((1, 1, 1, 2, 3))):
        data = mutate(rng, data)
    return data


# ---------------------------------------------------------------------------------------------------------------------
# Random cases: one function per kind

def good_rooms(rng, stamps=TABLE_STAMPS):
    if rng.randrange(3):
        return [rng.randbytes(540), rng.randbytes(4 * stamps)]
    more = rng.choice((70, 70, 70, 70, 20000))
    return [rng.randbytes(540 + rng.randint(0, more)), rng.randbytes(4 * stamps + rng.randint(0, more))]


def case_judge(rng):
    return Case(JUDGE, [write_file(rng.choice(SMALL)(rng))] + good_rooms(rng))


def case_judge_many(rng):
    return Case(JUDGE, [write_file(shape_small_full(rng))] + good_rooms(rng))


def case_judge_full(rng):
    return Case(JUDGE, [write_file(shape_full(rng))] + good_rooms(rng))


def case_judge_heavy(rng):
    return Case(JUDGE, [write_file(shape_heavy(rng))] + good_rooms(rng))


def case_judge_wrapping(rng):
    return Case(JUDGE, [write_file(shape_wrapping(rng))] + good_rooms(rng))


def case_trace_wrapping(rng):
    table = shape_wrapping(rng)
    trace = list(range(len(table.rows)))
    return Case(JUDGE_TRACE, [write_file(table), struct.pack("<%dH" % len(trace), *trace), rng.randbytes(8 * len(trace))])


def case_judge_rooms(rng):
    data = damaged_file(rng) if rng.randrange(4) == 0 else write_file(any_table(rng))
    return Case(JUDGE, [data, room(rng, 270, 2), room(rng, 540, 4)])


def case_trace(rng):
    table, trace = table_and_trace(rng)
    return Case(JUDGE_TRACE, [write_file(table), struct.pack("<%dH" % len(trace), *trace),
                              rng.randbytes(8 * len(trace) + rng.choice((0, 0, 0, 0, 1, 3, 4, 100, 9000)))])


def case_trace_wrong(rng):
    table, trace = table_and_trace(rng)
    data = damaged_file(rng) if rng.randrange(5) == 0 else write_file(table)
    given = spoiled_trace(rng, table, trace) if rng.randrange(2) else struct.pack("<%dH" % len(trace), *trace)
    return Case(JUDGE_TRACE, [data, given, room(rng, 2 * (len(given) // 2), 4)])


def replay_case(rng, faults):
    table, trace = table_and_trace(rng)
    rows = [table.rows[i] for i in trace]
    start = random_start(rng)
    gaps = random_gaps(rng, rows)
    data, given = write_file(table), struct.pack("<%dH" % len(trace), *trace)
    n = len(trace)
    if "file" in faults:
        data = damaged_file(rng)
    if "trace" in faults:
        given = spoiled_trace(rng, table, trace)
    if "gap" in faults and gaps:
        for _ in range(rng.choice((1, 1, 2))):
            spoil_gap(rng, rows, gaps)
    stamps = stamps_of(gaps, start)
    stamps = struct.pack("<%dI" % len(stamps), *stamps)
    if "stamps" in faults:
        cut = rng.choice((-4, -1, -3, 1, 3, 4, 8, -len(stamps)))
        stamps = stamps[:cut] if cut < 0 else stamps + rng.randbytes(cut)
    order = rng.randbytes(2 * n + rng.choice((0, 0, 0, 0, 0, 1, 2, 9, 5000)))
    due = rng.randbytes(4 * n + rng.choice((0, 0, 0, 0, 0, 3, 9, 5000)))
    if "room" in faults:
        order, due = room(rng, n, 2), room(rng, n, 4)
    return Case(REPLAY, [data, given, stamps, order, due], start)


def case_replay(rng):
    return replay_case(rng, ())


def case_replay_wrong(rng):
    return replay_case(rng, [f for f, weight in (("file", 8), ("trace", 4), ("stamps", 3), ("room", 3), ("gap", 2))
                             if rng.randrange(weight) == 0])


def case_rewrite(rng):
    data = write_file(any_table(rng))
    return Case(REWRITE, [data, room(rng, len(data), 1)])


def case_rewrite_damaged(rng):
    data = damaged_file(rng)
    return Case(REWRITE, [data, rng.randbytes(rng.choice((len(data), len(data) + 30, 4620, 0)))])


def case_rewrite_noise(rng):
    """Full-sized files, cut or changed at one place."""
    data = write_file(shape_small_full(rng))
    kind = rng.randrange(4)
    if kind == 0:
        data = data[:rng.randrange(len(data))]
    elif kind == 1:
        changed = bytearray(data)
        changed[rng.randrange(len(data))] ^= 1 << rng.randrange(8)
        data = bytes(changed)
    elif kind == 2:
        data += rng.randbytes(rng.choice((1, 2, 3, 4, 5, 18, 4000)))
    return Case(REWRITE, [data, rng.randbytes(rng.choice((4619, 4620, 4621, 9000)))])


def order_case(rng, table):
    return Case(ORDER, [write_file(table)] + good_rooms(rng, ORDER_STAMPS))


def case_order(rng):
    return order_case(rng, rng.choice(SMALL + (shape_words, shape_words, shape_order, shape_order, shape_order))(rng))


def case_order_far(rng):
    return order_case(rng, shape_far(rng))


def case_order_many(rng):
    return order_case(rng, shape_small_full(rng))


def case_order_full(rng):
    return order_case(rng, rng.choice((shape_full, shape_heavy, lambda r: shape_steady(r, 32, 256, False)))(rng))


def case_order_wrapping(rng):
    return order_case(rng, shape_wrapping(rng))


def case_order_rooms(rng):
    data = damaged_file(rng) if rng.randrange(3) == 0 else write_file(any_table(rng))
    return Case(ORDER, [data, room(rng, 270, 2), room(rng, 270, 4)])


def word_of(rng, rows, gaps, start):
    """The bytes of a word of stamps; one in four has gaps outside their guards."""
    if rows and rng.randrange(4) == 0:
        for _ in range(rng.choice((1, 1, 2))):
            spoil_gap(rng, rows, gaps)
    return struct.pack("<%dI" % len(gaps), *stamps_of(gaps, start))


def random_words(rng, rows):
    """Start stamps and words, as lists of bytes: mostly few, or as many as there may be and about 3,000 steps."""
    most = min(MAX_WORDS + 1, 3000 // max(1, len(rows)))
    count = min(most, rng.choice((0, 1, 1, 2, 2, 3, 5, 17, 100, 255, 256, 257)))
    starts = [random_start(rng) for _ in range(count)]
    if rng.randrange(4) == 0:
        starts = starts[:1] * count
    return ([struct.pack("<I", start) for start in starts],
            [word_of(rng, rows, random_gaps(rng, rows), start) for start in starts])


def spoiled_words(rng, n, starts, words):
    """Bytes of starts and stamps that mostly don't fit the steps."""
    starts, words = list(starts), list(words)
    kind = rng.randrange(5)
    if kind == 0:
        (starts or [b""]).pop(rng.randrange(len(starts) or 1))
    elif kind == 1:
        (words or [b""]).pop(rng.randrange(len(words) or 1))
    elif kind == 2:
        starts.append(rng.randbytes(rng.choice((1, 2, 3, 4))))
    elif kind == 3:
        words.append(rng.randbytes(rng.choice((1, 3, 4, 4 * n))))
    else:
        more = rng.choice((1, 2, 257))
        starts, words = starts + [bytes(4)] * more, words + [rng.randbytes(4 * n)] * more
    return b"".join(starts), b"".join(words)


def words_case(rng, faults):
    table, trace = table_and_trace(rng)
    rows = [table.rows[i] for i in trace]
    n, given, data = len(trace), struct.pack("<%dH" % len(trace), *trace), write_file(table)
    starts, words = random_words(rng, rows)
    count = len(starts)
    lent = [rng.randbytes(places * width + rng.choice((0, 0, 0, 0, 0, 1, width, 9, 5000)))
            for places, width in ((count * n, 2), (count * n, 4), (count, 2))]
    if "room" in faults:
        lent = [room(rng, places, width) if rng.randrange(2) else old
                for old, places, width in zip(lent, (count * n, count * n, count), (2, 4, 2))]
    if "file" in faults:
        data = damaged_file(rng)
    if "trace" in faults:
        given = spoiled_trace(rng, table, trace)
    starts, words = spoiled_words(rng, n, starts, words) if "words" in faults else (b"".join(starts), b"".join(words))
    return Case(WORDS, [data, given, starts, words] + lent)


def case_words(rng):
    return words_case(rng, ())


def case_words_wrong(rng):
    return words_case(rng, [f for f, weight in (("file", 8), ("trace", 4), ("words", 3), ("room", 2))
                            if rng.randrange(weight) == 0])


# Random runs of the player, one function per kind

def shape_crowd(rng):
    """Small u and great d: many wait at once."""
    states = rng.choice((1, 1, 2, 3))
    rows = []
    for s in range(states):
        for _ in range(rng.choice((1, 1, 2, 3))):
            rows.append([s, rng.choice(((s + 1) % states, rng.randrange(states))), *guard_of(rng, rng.choice((1, 1, 2, 9)), 3),
                         rng.choice((240, 240, 239, rng.randint(20, 240), rng.randint(1, 240)))])
    return finish(rng, states, 0, rows)


def unsplit_table(rng):
    while True:
        table = rng.choice((any_table, any_table, shape_crowd))(rng)
        if find_split(table) is None:
            return table


def least_left(waits):
    return min((left for _, _, left in waits), default=TURN - 1)


def any_time(rng, table, state, timer, waits):
    """Time next to what matters: the next due response, the ends of guards, the end of the timer, 32 bits."""
    limits = [least_left(waits), MAX_TIMER - timer, TURN - 1, rng.randrange(TURN), rng.randrange(3000), 0]
    for r in table.rows:
        if r[FROM] == state:
            limits += [256 * r[U] - timer, 256 * r[V] - timer]
    return min(TURN - 1, max(0, rng.choice(limits) + rng.choice((-1, 0, 0, 0, 1, 1))))


def any_letter(rng, table, state):
    letters = [r[INPUT] for r in table.rows if r[FROM] == state] or [0]
    return rng.choice(letters * 3 + [rng.randrange(256), 256 + rng.choice(letters), 65535, rng.randrange(3)])


def any_move(rng, table, now):
    """Any move, often one that is refused."""
    state, _, timer, waits = now or (0, 0, 0, [])
    call = rng.choice((PLAYER_TIME, PLAYER_TIME, PLAYER_INPUT, PLAYER_INPUT, PLAYER_OUTPUT))
    return call, {PLAYER_TIME: any_time(rng, table, state, timer, waits),
                  PLAYER_INPUT: any_letter(rng, table, state)}.get(call, 0)


def likely_gap(rng, row, timer, waits):
    """A gap in the guard that is still to come: at its ends, anywhere, or so that two due times are equal."""
    low, high = max(timer, 256 * row[U] + 1), 256 * row[V]
    gap = rng.choice((low, high, rng.randint(low, high), rng.randint(low, min(high, low + 2000))))
    for _, _, left in waits:
        if low <= timer + left - 256 * row[D] <= high and rng.randrange(3) == 0:
            gap = timer + left - 256 * row[D]
    return gap


class Walk:
    """Starts, plays so many inputs that are open, issues what falls due, and lets all come out in the end. One move in so
    many is any move."""

    def __init__(self, rng, table, inputs, astray):
        self.rng, self.table, self.inputs, self.astray, self.goal = rng, table, inputs, astray, None

    def aim(self, state, inputs, timer, waits):
        """The letter and the gap of the next input, or None."""
        rows = [r for r in self.table.rows if r[FROM] == state and 256 * r[V] >= timer] if inputs < self.inputs else []
        if not rows:
            return None
        row = self.rng.choice(rows)
        return inputs, row[INPUT], likely_gap(self.rng, row, timer, waits)

    def __call__(self, now, answer):
        if answer is None:
            return PLAYER_START, 0
        state, inputs, timer, waits = now
        next_due = least_left(waits)
        if self.rng.randrange(self.astray) == 0:
            return any_move(self.rng, self.table, now)
        if next_due == 0:
            found = [r[INPUT] for r in self.table.rows if r[FROM] == state and activates([timer], [r], 256)]
            return (PLAYER_INPUT, found[0]) if found and self.rng.randrange(8) == 0 else (PLAYER_OUTPUT, 0)
        if self.goal is None or self.goal[0] != inputs or self.goal[2] < timer:
            self.goal = self.aim(*now)
        if self.goal is None:
            return (PLAYER_TIME, next_due) if waits else None
        if self.goal[2] == timer:
            return PLAYER_INPUT, self.goal[1]
        most = min(next_due, self.goal[2] - timer)
        return PLAYER_TIME, most if self.rng.randrange(5) else self.rng.randint(0, most)


class Moves:
    """So many moves of any sort."""

    def __init__(self, rng, table, count, start):
        self.rng, self.table, self.count, self.start = rng, table, count, start

    def __call__(self, now, answer):
        self.count -= 1
        if self.count < 0:
            return None
        if answer is None and self.start or self.rng.randrange(40) == 0:
            return PLAYER_START, 0
        return any_move(self.rng, self.table, now)


def in_turn(moves):
    """A choice that makes these moves, whatever they are answered."""
    left = iter(moves)
    return lambda now, answer: next(left, None)


def some_config(rng):
    return rng.randbytes(CONFIG.size + rng.choice((0, 0, 0, 0, 1, 6, 100)))


def some_records(rng):
    return rng.randbytes(RECORD.size * RECORDS + rng.choice((0, 0, 0, 0, 1, 7, 8, 800)))


def run_whole(rng):
    """From the start until none waits."""
    table = unsplit_table(rng)
    inputs = rng.choice((0, 1, 1, 2, 2, 3, 3, 4, 5, 8, 12, 12, 30))
    return Run([write_file(table), some_config(rng), some_records(rng)], Walk(rng, table, inputs, rng.choice((6, 40, 1000))))


def run_any(rng):
    """From the start, any moves, on tables that may be split."""
    table = rng.choice((any_table, any_table, shape_touching, shape_crowd))(rng)
    return Run([write_file(table), some_config(rng), some_records(rng)], Moves(rng, table, rng.choice((3, 10, 20)), True))


def forged(rng, table):
    """State, inputs, timer and waiting responses: not damaged, but mostly such as no run comes to."""
    inputs = rng.choice((0, 1, 2, 3, 9, 240, 241, 511, 512, 512, rng.randint(0, 512)))
    count = min(inputs, rng.choice((0, 1, 1, 2, 2, 3, 3, 9, 60, 239, 240, 240)))
    times = rng.choice(((0, 1, 256, 600, MAX_LEFT), (1, 1, 2, 256), (MAX_LEFT, MAX_LEFT - 1), range(MAX_LEFT + 1)))
    waits = [(step, rng.choice((0, 255, 256, 65535, rng.randrange(256))), rng.choice(times))
             for step in sorted(rng.sample(range(1, inputs + 1), count))]
    state, timer = rng.randrange(table.states), rng.choice((0, 1, MAX_TIMER, MAX_TIMER - 1, rng.randint(0, MAX_TIMER)))
    if table.rows and rng.randrange(4):
        row = rng.choice(table.rows)
        state, timer = row[FROM], rng.choice((256 * row[U], 256 * row[U] + 1, 256 * row[V], 256 * row[V] + 1,
                                              rng.randint(256 * row[U], 256 * row[V]) + 1))
    return state, inputs, timer, waits


def damage(rng, table, state, inputs, timer, waits):
    """The same with one number out of its range; the last is the number of waiting responses that is written."""
    kind, count = rng.randrange(8), len(waits)
    at = rng.randrange(count) if count else 0
    if kind == 0:
        state = rng.choice((table.states, table.states + 1, 32, 256, 65535))
    elif kind == 1:
        timer = rng.choice((MAX_TIMER + 1, MAX_TIMER + 256, TURN - 1, rng.randint(MAX_TIMER + 1, TURN - 1)))
    elif kind == 2:
        inputs = rng.choice((513, 514, 1024, 65535))
    elif kind == 3:
        count = rng.choice((241, 242, 65535, 256 + count))
    elif count == 0:
        count = rng.randint(1, 240)                                     # records of noise
    elif kind == 4:
        waits[at] = waits[at][:2] + (rng.choice((MAX_LEFT + 1, MAX_LEFT + 256, TURN - 1)),)
    elif kind == 5:
        waits[at] = (rng.choice((0, inputs + 1, 513, 65535)),) + waits[at][1:]
    elif kind == 6:
        waits[at] = (waits[at - 1][0],) + waits[at][1:]
    else:
        waits[at], waits[at - 1] = waits[at - 1], waits[at]
    return state, inputs, timer, waits, count


def run_forged(rng):
    """A configuration that was not played, damaged or not, in rooms that are enough or not; some moves."""
    table = rng.choice((any_table, any_table, shape_touching, shape_crowd))(rng)
    data = damaged_file(rng) if rng.randrange(20) == 0 else write_file(table)
    now = forged(rng, table)
    state, inputs, timer, waits, count = damage(rng, table, *now) if rng.randrange(2) else now + (len(now[3]),)
    config = put(some_config(rng), CONFIG.pack(state, inputs, count, timer))
    waiting = put(some_records(rng), b"".join(RECORD.pack(*response) for response in waits))
    if rng.randrange(8) == 0:
        config = config[:rng.choice((0, 1, 5, 8, 9, 10))]
    if rng.randrange(5) == 0:
        waiting = waiting[:rng.choice((0, 7, 8, 8 * len(waits), 8 * len(waits) - 1, 1912, 1919, rng.randrange(1920)))]
    return Run([data, config, waiting], Moves(rng, table, rng.choice((2, 4, 6)), rng.randrange(8) == 0))


def run_edge(rng):
    """An input to which a transition is open, next to the last refusals: due or not, split or not, as many as may be."""
    table = Table(1, 0, [])
    while not table.rows:
        table = rng.choice((any_table, shape_touching, shape_crowd))(rng)
    row, count = rng.choice(table.rows), rng.choice((0, 1, 3, 239, 240, 241))
    inputs = max(count, rng.choice((0, 300, 511, 512)))
    waits = [[step, rng.randrange(65536), rng.randint(1, MAX_LEFT)] for step in sorted(rng.sample(range(1, inputs + 1), count))]
    if waits and rng.randrange(3) == 0:
        rng.choice(waits)[2] = 0
    config = CONFIG.pack(row[FROM], inputs, count, rng.randint(256 * row[U] + 1, 256 * row[V]))
    waiting = b"".join(RECORD.pack(*response) for response in waits) + rng.randbytes(1920)
    return Run([write_file(table), put(some_config(rng), config), waiting[:rng.choice((1920, 1920, 1928, 1935))]],
               in_turn([(PLAYER_INPUT, row[INPUT]), any_move(rng, table, None), (PLAYER_OUTPUT, 0)]))


RUNS = [(run_whole, 50), (run_any, 20), (run_forged, 40), (run_edge, 20)]


def random_run(seed, index):
    rng = random.Random("sandgusset player %d %d" % (seed, index))
    make = rng.choices([k for k, _ in RUNS], [w for _, w in RUNS])[0]
    run = make(rng)
    run.name = "run %d (%s)" % (index, make.__name__[4:])
    return run, rng


# ---------------------------------------------------------------------------------------------------------------------

KINDS = [(case_judge, 300), (case_judge_many, 12), (case_judge_full, 6), (case_judge_heavy, 2), (case_judge_rooms, 60),
         (case_trace, 200), (case_trace_wrong, 80), (case_replay, 160), (case_replay_wrong, 160), (case_rewrite, 60),
         (case_rewrite_damaged, 160), (case_rewrite_noise, 30), (case_judge_wrapping, 12), (case_trace_wrapping, 12),
         (case_order, 140), (case_order_far, 60), (case_order_many, 8), (case_order_full, 10), (case_order_wrapping, 12),
         (case_order_rooms, 40), (case_words, 100), (case_words_wrong, 80)]


def random_case(seed, index):
    rng = random.Random("sandgusset %d %d" % (seed, index))
    make = rng.choices([k for k, _ in KINDS], [w for _, w in KINDS])[0]
    case = make(rng)
    case.name = "random %d (%s)" % (index, make.__name__[5:].replace("_", " "))
    return case, rng


# ---------------------------------------------------------------------------------------------------------------------
# Fixed cases

# of the worked cases the whole case, the dead end, the loop with a pair of 121 steps; and a loop
WHOLE = Table(4, 0, [(0, 0, 1, 1, 5, 20, 40), (1, 0, 2, 2, 15, 20, 30), (2, 0, 3, 3, 10, 15, 10)])
DEAD_END = Table(3, 0, [(0, 0, 1, 1, 1, 2, 9), (1, 0, 2, 2, 3, 4, 5)])
LONG_LOOP = Table(3, 0, [(0, 1, 1, 1, 1, 2, 240), (1, 1, 2, 1, 1, 2, 240), (1, 2, 3, 2, 1, 2, 1)])
ONE = Table(1, 0, [(0, 0, 1, 0, 1, 2, 1)])


def two_steps(difference):
    """The worked two steps, the second with guard (3,5]."""
    return Table(3, 0, [(0, 0, 1, 1, 2, 7, 20 + difference), (1, 0, 2, 2, 3, 5, 20)])


def u16(*numbers):
    return struct.pack("<%dH" % len(numbers), *numbers)


def u32(*numbers):
    return struct.pack("<%dI" % len(numbers), *numbers)


def exactly(answer, **contents):
    """This answer, and buffers that begin so."""
    def check(got, after):
        names = next(names for names in BUFFERS.values() if len(names) == len(after) and set(contents) <= set(names))
        if got != answer:
            return "answer %s, written down is %s" % (show(got), show(answer))
        for name, data in contents.items():
            if after[names.index(name)][:len(data)] != data:
                return "%s differs from what is written down" % name
        return None
    return check


def showing(trace, k, status=OVERTAKEN):
    """The one trace that can be shown, with a pair of its k-th step and its last one."""
    return exactly(pack(status, k, len(trace), len(trace)), trace=u16(*trace))


def by(first, last=None):
    """Which transitions the shown pair has."""
    def check(answer, after):
        _, k, _, steps = unpack(answer)
        trace = u16s(after[1], steps)
        return None if trace[k - 1] == first and last in (None, trace[-1]) else "not the pair that was expected"
    return check


def table_case(rng, name, table, pinned=None, call=JUDGE):
    stamps = {JUDGE: TABLE_STAMPS, ORDER: ORDER_STAMPS}[call]
    return Case(call, [write_file(table), rng.randbytes(2 * TABLE_TRACE), rng.randbytes(4 * stamps)], 0, name, pinned)


def trace_case(rng, name, table, trace, pinned=None):
    return Case(JUDGE_TRACE, [write_file(table), u16(*trace), rng.randbytes(8 * len(trace))], 0, name, pinned)


def played_case(rng, name, table, trace, stamps, start=0, pinned=None):
    return Case(REPLAY, [write_file(table), u16(*trace), u32(*stamps), rng.randbytes(2 * len(trace)),
                         rng.randbytes(4 * len(trace))], start, name, pinned)


# Nights of words. A word is its start and its stamps; three are the worked ones on the whole case: order 1, 3, 2, order 3, 1,
# 2 and a first gap outside.
FIRST, SECOND, LATE = (0, (2560, 6912, 10496)), (0, (3840, 8192, 11008)), (0, (5888, 10240, 14080))


def from_start(start, gaps):
    return start, stamps_of(gaps, start)


def night(rng, name, table, trace, words, pinned=None, rooms=None):
    """A case with these words; the rooms have the bytes that they need, or so many."""
    steps = len(words) * len(trace)
    rooms = rooms or (2 * steps, 4 * steps, 2 * len(words))
    return Case(WORDS, [write_file(table), u16(*trace), u32(*(start for start, _ in words)),
                        u32(*(stamp for _, stamps in words for stamp in stamps)), *map(rng.randbytes, rooms)],
                name="words: " + name, pinned=pinned)


def words_answered(rng):
    """What each word is answered, and its mark."""
    three = (0, 1, 2)
    yield night(rng, "the three words of the whole case", WHOLE, three, (FIRST, SECOND, LATE),
                exactly(pack(0, 3), order=u16(1, 3, 2, 3, 1, 2), due=u32(12800, 13056, 14592, 13568, 14080, 15872),
                        marks=u16(0, 0, 1)))
    for word, order in ((FIRST, (1, 3, 2)), (SECOND, (3, 1, 2))):
        yield night(rng, "one word, order %d, %d, %d" % order, WHOLE, three, (word,),
                    exactly(pack(0, 1), order=u16(*order), marks=u16(0)))
    for refused in itertools.product((0, 1), repeat=3):
        words = [LATE if now else word for now, word in zip(refused, (FIRST, SECOND, FIRST))]
        yield night(rng, "three words with marks %d %d %d" % refused, WHOLE, three, words,
                    exactly(pack(0, 3), marks=u16(*refused)))
    starts = (0, 1000, TURN - 1, TURN - 6000, TURN - 13000, TURN // 2)
    yield night(rng, "every word counts from its own start", WHOLE, three,
                [from_start(start, (2560, 4352, 3584)) for start in starts],
                exactly(pack(0, 6), order=u16(*(1, 3, 2) * 6), due=u32(*(12800, 13056, 14592) * 6), marks=u16(*[0] * 6)))
    outside = list(itertools.product((0, 1), repeat=3))
    yield night(rng, "the first of several steps outside is marked", WHOLE, three,
                [from_start(0, [1 if out else gap for out, gap in zip(steps, (3840, 4352, 2816))]) for steps in outside],
                exactly(pack(0, 8), marks=u16(*(steps.index(1) + 1 if 1 in steps else 0 for steps in outside))))
    gaps = (256, 257, 300, 512, 513, 0, TURN - 1)
    for start in (0, TURN - 300, 7):
        yield night(rng, "guard (1,2], gaps at both ends from start %d" % start, ONE, (0,),
                    [from_start(start, (gap,)) for gap in gaps], exactly(pack(0, 7), marks=u16(1, 0, 0, 0, 1, 1, 1)))
    tie = Table(3, 0, [(0, 0, 1, 1, 1, 2, 10), (1, 0, 1, 2, 3, 5, 6)])
    yield night(rng, "equal due times, and 1/256 tick apart", tie, (0, 1),
                [from_start(5, (512, gap)) for gap in (1024, 1023, 1025)],
                exactly(pack(0, 3), order=u16(1, 2, 2, 1, 1, 2), due=u32(3072, 3072, 3071, 3072, 3072, 3073)))


# Early and late: for each step of the whole case, (5,20], (15,20] and (10,15], a gap inside, an early one and a late one.
SIDES = {0: (3840, 4352, 2816), 9: (1280, 3840, 2560), 12: (5121, 5121, 3841)}


def guard_ends(rng):
    """Gaps at and next to both ends of a guard, none, and those that only the counter's turn makes: from starts of all sorts."""
    for u, v in ((1, 2), (5, 20), (1, 4095), (4094, 4095)):
        table = Table(2, 0, [(0, 0, 1, 1, u, v, 7)])
        for start in (0, 1, 256 * u, 256 * v + 1, TURN - 256 * v, TURN - 256 * u, TURN - 1, TURN // 2):
            for gap in (0, 1, 256 * u - 1, 256 * u, 256 * u + 1, 256 * v - 1, 256 * v, 256 * v + 1, TURN // 2 - 1,
                        TURN // 2, TURN - 256 * v, TURN - 256 * u, TURN - 1):
                number = 9 if gap <= 256 * u else 12 if gap > 256 * v else 0
                yield played_case(rng, "guard: (%d,%d], gap %d from start %d: %s" % (
                    u, v, gap, start, {0: "inside", 9: "early", 12: "late"}[number]), table, (0,), ((start + gap) % TURN,), start,
                    pack(number, 1) if number else pack(0))


def guard_steps(rng):
    """The first step outside its guard decides whether it is early or late, in a word alone and in a night, whose marks name
    the step alone."""
    three, all_ways = (0, 1, 2), list(itertools.product((0, 9, 12), repeat=3))
    words = [[SIDES[number][j] for j, number in enumerate(way)] for way in all_ways]
    first = [next(((number, j) for j, number in enumerate(way, 1) if number), (0, 0)) for way in all_ways]
    for start in (0, TURN - 5000):
        for gaps, way, found in zip(words, all_ways, first):
            yield played_case(rng, "guard: steps %d, %d and %d from start %d" % (*way, start), WHOLE, three, stamps_of(gaps, start),
                              start, pack(*found))
        yield night(rng, "early and late steps from start %d" % start, WHOLE, three, [from_start(start, gaps) for gaps in words],
                    exactly(pack(0, 27), marks=u16(*(j for _, j in first))))
    yield played_case(rng, "guard: one part back is late", WHOLE, three, (3840, 3839, 8000), pinned=pack(12, 2))
    yield played_case(rng, "guard: no time between two steps is early", WHOLE, three, (3840, 3840, 8000), pinned=pack(9, 2))
    yield played_case(rng, "guard: a lower stamp across the wrap is inside", WHOLE, three,
                      ((3840 - 6000) % TURN, 2192, 5008), (-6000) % TURN, exactly(pack(0), order=u16(3, 1, 2)))
    yield played_case(rng, "guard: a lower stamp across the wrap is early", WHOLE, three,
                      ((3840 - 5000) % TURN, 2680, 3000), (-5000) % TURN, pack(9, 2))
    yield played_case(rng, "guard: a lower stamp across the wrap is late", WHOLE, three,
                      ((3840 - 5000) % TURN, 5000, 8000), (-5000) % TURN, pack(12, 2))
    for number in (9, 12):
        stamps = u32(*stamps_of(SIDES[number]))
        for lacking, answer in (("a stamp", 7), ("room for the order", 8), ("room for due times", 8)):
            yield Case(REPLAY, [write_file(WHOLE), u16(*three), stamps[:8] if lacking == "a stamp" else stamps,
                                rng.randbytes(5 if "order" in lacking else 6), rng.randbytes(11 if "due" in lacking else 12)],
                       name="guard: %s steps and %s too little: %d" % ("early" if number == 9 else "late", lacking, answer),
                       pinned=pack(answer))


def words_counted(rng):
    """As many words and steps as there may be, and one more."""
    for count in (0, 1, 2, 255, 256, 257):
        yield night(rng, "%d words of one step" % count, ONE, (0,), [from_start(9 * w, (257 + w % 256,)) for w in range(count)],
                    exactly(pack(0, count), order=u16(*[1] * count), due=u32(*(513 + w for w in range(count))),
                            marks=u16(*[0] * count)) if count <= 256 else pack(7))
    ramp, down = Table(1, 0, [(0, i, i, 0, 1, 2, 3 * i + 1) for i in range(80)]), [79 - j % 80 for j in range(513)]
    for count in (0, 1, 2, 255, 256, 257):
        words = [from_start(-999 * w % TURN, [257 + (j + 1) * w % 256 for j in range(512)]) for w in range(count)]
        yield night(rng, "%d words of 512 steps" % count, ramp, down[:512], words,
                    pack(0, count) if count <= 256 else pack(7))
    at = [0 if w % 5 == 0 else 2 * w + 2 for w in range(256)]
    words = [from_start(w, [256 if j == at[w] else 512 for j in range(1, 513)]) for w in range(256)]
    yield night(rng, "256 words of 512 steps, many refused, each at another one", ramp, down[:512], words,
                exactly(pack(0, 256), marks=u16(*at)))
    for count in (0, 1):
        yield night(rng, "a trace of 513 steps and %d words: 6" % count, ramp, down,
                    [from_start(0, [300] * 513)] * count, pack(6))


def words_lent(rng):
    """Rooms of two words of three steps."""
    for what, words in (("accepted", (FIRST, SECOND)), ("of which one is refused", (LATE, SECOND)), ("refused", (LATE, LATE))):
        for rooms in ((12, 24, 4), (11, 24, 4), (10, 24, 4), (12, 23, 4), (12, 20, 4), (12, 24, 3), (12, 24, 2), (12, 24, 0),
                      (0, 24, 4), (12, 0, 4), (0, 0, 4), (0, 0, 0), (6, 12, 4), (6, 12, 2), (13, 24, 4), (12, 25, 4),
                      (12, 24, 5), (13, 27, 5), (14, 28, 6), (600, 900, 300)):
            enough = all(have >= need for have, need in zip(rooms, (12, 24, 4)))
            yield night(rng, "two words %s, with %d, %d and %d bytes of room" % (what, *rooms), WHOLE, (0, 1, 2), words,
                        pack(0, 2) if enough else pack(8), rooms)
    case = night(rng, "rooms of 2^32 bytes", WHOLE, (0, 1, 2), (FIRST, SECOND), pack(0, 2))
    case.bufs[4:] = [Buf(lent.data, 1 << 32) for lent in case.bufs[4:]]
    yield case


def words_refused(rng):
    """What the whole call is refused for, and in which order it is tested."""
    file, three, words = write_file(WHOLE), u16(0, 1, 2), u32(*FIRST[1], *SECOND[1])

    def case(name, number, data, trace, starts, stamps, rooms=(12, 24, 4)):
        return Case(WORDS, [data, trace, starts, stamps, *map(rng.randbytes, rooms)], name="words: " + name, pinned=number)
    for rooms in ((0, 0, 0), (12, 24, 4), (60, 120, 20)):
        text = " (rooms of %d, %d and %d bytes)" % rooms
        for starts, stamps in ((8, 23), (8, 25), (8, 20), (8, 28), (8, 12), (8, 36), (8, 0), (4, 24), (12, 24), (7, 24), (9, 24),
                               (10, 24), (11, 24), (0, 24), (0, 12), (0, 4), (0, 1), (1, 0), (2, 0), (3, 0), (4, 0), (3, 12),
                               (24, 8), (1028, 0), (1028, 24), (1028, 3084)):
            yield case("3 steps, %d bytes of starts, %d of stamps: 7" % (starts, stamps) + text, pack(7), file, three,
                       bytes(starts), (words * 200)[:stamps], rooms)
        for name, trace in (("empty", b""), ("of one byte", b"\0"), ("of 5 bytes", three[:5]), ("of 7 bytes", three + b"\0"),
                            ("naming transition 3 of 3", u16(0, 1, 3)), ("naming transition 65535", u16(0, 65535)),
                            ("that is not joined", u16(0, 2)), ("backwards", u16(2, 1, 0))):
            for count, stamps in sorted({(0, 0), (2, 8 * (len(trace) // 2)), (2, 0), (0, 12), (257, 0)}):
                yield case("a trace %s, %d words and %d bytes of stamps: 6" % (name, count, stamps) + text, pack(6), file, trace,
                           bytes(4 * count), words[:stamps], rooms)
        for name, data, number in (("a cut file", file[:60], pack(1, 44)), ("a byte after the end", file + b"\0", pack(2, 66)),
                                   ("a repeated transition", file[:26] + file[8:26] + file[26:], pack(5, 26))):
            for starts, stamps in ((b"", b""), (bytes(8), words), (b"\0", b"\0")):
                yield case("%s, %d bytes of starts and %d of stamps" % (name, len(starts), len(stamps)) + text, number, data,
                           three if stamps else b"", starts, stamps, rooms)
        yield case("no words" + text, pack(0), file, three, b"", b"", rooms)
    for starts, stamps, text in ((1 << 16 | 2, 6, "65,538 starts"), (2, 1 << 16 | 6, "65,542 stamps")):
        yield case("%s: 7" % text, pack(7), file, three, bytes(4 * starts), (words * 11000)[:4 * stamps])
    yield case("128 words of 512 steps, no stamps: 7", pack(7), write_file(ONE), bytes(1024), bytes(512), b"", (0, 0, 256))
    big = 1 << 32
    yield case("starts of 2^32 + 8 bytes: 7", pack(7), file, three, Buf(bytes(8), big + 8), words)
    yield case("stamps of 2^32 + 24 bytes: 7", pack(7), file, three, bytes(8), Buf(words, big + 24))


# The player's table. From state 1, where it starts, guards touch; state 3 can't be reached, and two guards overlap there.
PLAYED = Table(4, 1, [(0, 5, 70, 1, 2, 4, 9), (1, 5, 71, 2, 1, 3, 6), (1, 5, 72, 0, 3, 5, 240), (1, 255, 73, 1, 1, 4095, 1),
                      (2, 0, 74, 2, 4094, 4095, 2), (3, 5, 75, 3, 1, 3, 5), (3, 5, 76, 1, 2, 4, 7)])
SPLIT_HERE = Table(4, 1, PLAYED.rows + [(1, 5, 77, 1, 2, 4, 9)])        # where it starts
SPLIT_THERE = Table(4, 1, PLAYED.rows + [(2, 0, 78, 1, 4093, 4095, 2)])  # a step on
SPLIT_ALIKE = Table(4, 1, PLAYED.rows + [(2, 0, 74, 2, 4093, 4095, 2)])  # in a guard alone
WAITS = ((3, 9, 700), (5, 65535, 256), (9, 0, MAX_LEFT))                # the second is the next


def move(rng, name, call, number=0, pinned=None, table=PLAYED, state=1, inputs=9, timer=600, waits=(), count=None, config=10,
         waiting=1920, data=None):
    """A move in a configuration, which need not be one; a configuration and records of so many bytes."""
    count = len(waits) if count is None else count
    given = CONFIG.pack(state, inputs, count, timer) + rng.randbytes(90)
    lent = b"".join(RECORD.pack(*response) for response in waits) + rng.randbytes(4000)
    return Case(call, [write_file(table) if data is None else data, given[:config], lent[:waiting]], number, "player: " + name,
                pinned)


def held(answer, state, inputs, timer, waits):
    """This answer, and this configuration then."""
    return exactly(answer, config=CONFIG.pack(state, inputs, len(waits), timer),
                   waiting=b"".join(RECORD.pack(*response) for response in waits))


def first_given(*causes):
    """The number of the first cause that is given, or 0."""
    return next((number for number, given in causes if given), 0)


def player_starts(rng):
    many = Table(32, 31, [(i % 32, i // 32, i % 256, (i + 1) % 32, 1, 2, 3) for i in range(256)])
    for name, table in (("where guards touch", PLAYED), ("on the whole case", WHOLE), ("without transitions", Table(5, 4, [])),
                        ("on 256 transitions", many)):
        yield move(rng, "start " + name, PLAYER_START, 0, held(pack(0), table.initial, 0, 0, ()), table)
    for config, waiting in itertools.product((0, 1, 9, 10, 11, 12, 64), (0, 8, 1911, 1912, 1919, 1920, 1921, 1928, 4000)):
        yield move(rng, "start with %d and %d bytes" % (config, waiting), PLAYER_START, 0,
                   pack(0 if config >= 10 and waiting >= 1920 else 8), config=config, waiting=waiting)
    yield move(rng, "start over a damaged configuration", PLAYER_START, 0, held(pack(0), 1, 0, 0, ()), state=9, inputs=900,
               timer=TURN - 1, count=999)
    yield move(rng, "start while responses wait", PLAYER_START, 0, held(pack(0), 1, 0, 0, ()), waits=WAITS)
    like, far = (0, 0, 1, 0, 1, 4, 9), [(s, 0, 1, s + 1, 1, 2, 3) for s in range(31)]
    for name, table, letter in (("where it starts", SPLIT_HERE, 5), ("a step on", SPLIT_THERE, 5),
                                ("by guards alone", SPLIT_ALIKE, 5),
                                ("31 steps on", Table(32, 0, far + [(31, 0, 1, 31, 1, 3, 3), (31, 0, 2, 31, 2, 4, 3)]), 0),
                                ("in outputs alone", Table(1, 0, [like, (0, 0, 2, 0, 1, 4, 9)]), 0),
                                ("with like outputs", Table(2, 0, [like, (0, 0, 1, 1, 1, 4, 8)]), 0)):
        yield move(rng, "start: split " + name, PLAYER_START, 0, pack(13), table)
        yield move(rng, "input: split " + name, PLAYER_INPUT, letter, pack(13), table, table.initial, timer=300)
    file = write_file(SPLIT_THERE)
    for cut, config, waiting, split in itertools.product((0, 1), repeat=4):
        data = file if split else write_file(PLAYED)
        number = first_given((pack(1, 134), cut), (8, config or waiting), (13, split))
        yield move(rng, "start, refused first of %s" % [text for text, is_so in (
            ("cut", cut), ("short configuration", config), ("short records", waiting), ("split", split)) if is_so],
            PLAYER_START, 0, number, data=data[:134] if cut else data, config=9 if config else 10,
            waiting=1919 if waiting else 1920)


def player_times(rng):
    for timer, parts in ((0, 0), (0, 1), (600, 0), (600, 65536), (600, 4095 * 256), (0, MAX_TIMER - 1), (0, MAX_TIMER),
                         (0, MAX_TIMER + 1), (600, MAX_TIMER - 601), (600, MAX_TIMER - 600), (600, MAX_TIMER - 599),
                         (MAX_TIMER - 1, 0), (MAX_TIMER - 1, 1), (MAX_TIMER - 1, 2), (MAX_TIMER, 0), (MAX_TIMER, 1),
                         (0, TURN - 1), (600, TURN - 1), (600, TURN - 600), (600, TURN - 601), (MAX_TIMER, TURN - 1)):
        yield move(rng, "time %d at timer %d" % (parts, timer), PLAYER_TIME, parts,
                   held(pack(0), 1, 9, min(MAX_TIMER, timer + parts), ()), timer=timer)
    for three in ((700, 256, MAX_LEFT), (1, 2, 3), (0, 5, 9), (0, 0, 7), (256, 256, 256)):
        for lefts in sorted(set(itertools.permutations(three))):
            waits = [(step, letter, left) for (step, letter, _), left in zip(WAITS, lefts)]
            least = min(lefts)
            for parts in sorted({0, 1, max(0, least - 1), least, least + 1, max(lefts), TURN - 1}):
                after = [(step, letter, left - parts) for step, letter, left in waits]
                yield move(rng, "time %d with %d, %d and %d left" % (parts, *lefts), PLAYER_TIME, parts,
                           held(pack(0), 1, 9, 600 + parts, after) if parts <= least else held(pack(11), 1, 9, 600, waits),
                           waits=waits)
    crowd = [(2 * j + 2, j, 1000 + 7 * j % 900) for j in range(240)]
    for parts, number in ((1000, 0), (1001, 11)):
        yield move(rng, "time %d while 240 wait" % parts, PLAYER_TIME, parts, pack(number), inputs=512, waits=crowd)
    yield move(rng, "time stops the timer while one waits", PLAYER_TIME, 60000,
               held(pack(0), 1, 9, MAX_TIMER, [(9, 4, 1440)]), timer=MAX_TIMER - 5, waits=[(9, 4, MAX_LEFT)])
    for name, table in (("a split table", SPLIT_HERE), ("a table without transitions", Table(2, 0, []))):
        yield move(rng, "time on " + name, PLAYER_TIME, 256, pack(0), table, waits=WAITS)


def player_inputs(rng):
    for timer, letter, state, taken in (
            (0, 5, 1, None), (1, 5, 1, None), (255, 5, 1, None), (256, 5, 1, None), (257, 5, 1, 1), (511, 5, 1, 1), (512, 5, 1, 1),
            (767, 5, 1, 1), (768, 5, 1, 1), (769, 5, 1, 2), (1024, 5, 1, 2), (1280, 5, 1, 2), (1281, 5, 1, None),
            (1535, 5, 1, None), (600, 255, 1, 3), (257, 255, 1, 3), (4095 * 256, 255, 1, 3), (4095 * 256 + 1, 255, 1, None),
            (MAX_TIMER - 1, 255, 1, None), (MAX_TIMER, 255, 1, None), (MAX_TIMER, 0, 2, None), (4095 * 256, 0, 2, 4),
            (4094 * 256, 0, 2, None), (4094 * 256 + 1, 0, 2, 4), (600, 5, 0, 0), (512, 5, 0, None), (513, 5, 0, 0),
            (600, 0, 1, None), (600, 70, 1, None), (600, 256 + 5, 1, None), (600, 511, 1, None), (600, 256, 2, None),
            (600, 65535, 1, None), (4095 * 256, 256, 2, None), (512, 5, 3, 5), (513, 5, 3, 5), (600, 5, 3, 5), (768, 5, 3, 5),
            (769, 5, 3, 6), (1024, 5, 3, 6), (256, 5, 3, None), (600, 255, 0, None), (600, 0, 2, None)):
        for waits in ((), WAITS):
            row = None if taken is None else PLAYED.rows[taken]
            yield move(rng, "input %d in state %d at timer %d, %d waiting" % (letter, state, timer, len(waits)), PLAYER_INPUT,
                       letter, pack(10) if row is None else
                       held(pack(0, taken), row[TO], 10, 0, waits + ((10, row[OUTPUT], 256 * row[D]),)),
                       state=state, timer=timer, waits=waits)
    back = backwards(PLAYED)
    yield move(rng, "input where two are open, numbered backwards", PLAYER_INPUT, 5,
               held(pack(0, 0), 1, 10, 0, [(10, 76, 7 * 256)]), back, 3)
    for inputs, number in ((0, 0), (1, 0), (510, 0), (511, 0), (512, 14)):
        yield move(rng, "input after %d" % inputs, PLAYER_INPUT, 5,
                   held(pack(0, 1), 2, inputs + 1, 0, [(inputs + 1, 71, 1536)]) if number == 0 else pack(number), inputs=inputs)
    for count, lent, number in ((238, 1920, 0), (239, 1920, 0), (240, 1920, 15), (240, 1928, 15), (240, 4000, 15)):
        crowd = [(j + 2, j, 5 + j) for j in range(count)]
        yield move(rng, "input while %d wait, %d bytes of records" % (count, lent), PLAYER_INPUT, 5,
                   held(pack(0, 1), 2, 401, 0, crowd + [(401, 71, 1536)]) if number == 0 else pack(number), inputs=400,
                   waits=crowd, waiting=lent)
    for at in range(3):
        waits = [(step, letter, 0 if i == at else left) for i, (step, letter, left) in enumerate(WAITS)]
        yield move(rng, "input while response %d of 3 is due" % (at + 1), PLAYER_INPUT, 5, pack(11), waits=waits)
        waits = [(step, letter, 1 if i == at else left) for i, (step, letter, left) in enumerate(WAITS)]
        yield move(rng, "input 1/256 tick before response %d of 3 is due" % (at + 1), PLAYER_INPUT, 5, pack(0, 1), waits=waits)
    yield move(rng, "input on a table without transitions", PLAYER_INPUT, 0, pack(10), Table(2, 0, []))


def player_outputs(rng):
    for lefts in itertools.product((0, 1, 600), repeat=3):
        waits = [(step, letter, left) for (step, letter, _), left in zip(WAITS, lefts)]
        at = lefts.index(0) if 0 in lefts else None
        yield move(rng, "output with %d, %d and %d left" % lefts, PLAYER_OUTPUT, 0, pack(11) if at is None else
                   held(pack(0, *waits[at][:2]), 1, 9, 600, waits[:at] + waits[at + 1:]), waits=waits)
    yield move(rng, "output with none waiting", PLAYER_OUTPUT, 0, pack(11))
    yield move(rng, "output with none waiting, and a record without time left", PLAYER_OUTPUT, 0, pack(11), waits=[(1, 2, 0)],
               count=0)
    for letter in (0, 1, 255, 256, 32768, 65535):
        yield move(rng, "output of letter %d" % letter, PLAYER_OUTPUT, 0, held(pack(0, 9, letter), 1, 9, 600, ()),
                   waits=[(9, letter, 0)])
    for at in (0, 1, 120, 238, 239):
        crowd = [(2 * j + 2, j, 0 if j >= at else 3) for j in range(240)]
        yield move(rng, "output of record %d of 240" % at, PLAYER_OUTPUT, 0,
                   held(pack(0, 2 * at + 2, at), 1, 512, 600, crowd[:at] + crowd[at + 1:]), inputs=512, waits=crowd)
    for name, table in (("a split table", SPLIT_HERE), ("a table without transitions", Table(2, 0, []))):
        yield move(rng, "output on " + name, PLAYER_OUTPUT, 0, pack(0, 3, 9), table, waits=[(3, 9, 0)])


MOVES = ((PLAYER_TIME, 0), (PLAYER_INPUT, 5), (PLAYER_OUTPUT, 0))


def waiting_for(call, waits):
    """The same with the first response due if the move is an output."""
    return [waits[0][:2] + (0,)] + list(waits[1:]) if call == PLAYER_OUTPUT and waits else list(waits)


def player_damage(rng):
    """Both sides of every limit, in each of the three moves."""
    named = {PLAYER_TIME: pack(0), PLAYER_INPUT: pack(0, 1), PLAYER_OUTPUT: pack(0, 3, 9)}
    for (call, number), text in zip(MOVES, ("time", "input", "output")):
        def case(name, good, waits=WAITS, **changed):
            waits = waiting_for(call, waits)
            return move(rng, "%s: %s" % (text, name), call, number, good, waits=waits, **changed)
        for state in (4, 5, 31, 32, 257, 65535):
            yield case("state %d" % state, pack(15), state=state)
        yield case("the last state", {PLAYER_INPUT: pack(0, 5)}.get(call, named[call]), state=3)
        for timer in (MAX_TIMER - 1, MAX_TIMER, MAX_TIMER + 1, MAX_TIMER + 256, TURN - 1):
            good = pack(10) if call == PLAYER_INPUT else named[call]
            yield case("timer %d" % timer, good if timer <= MAX_TIMER else pack(15), timer=timer)
        for inputs in (9, 511, 512, 513, 514, 65535):
            good = pack(14) if call == PLAYER_INPUT and inputs == 512 else named[call]
            yield case("%d inputs" % inputs, good if inputs <= 512 else pack(15), inputs=inputs)
        crowd = [(j + 3, 9, 6 + j) for j in range(241)]
        for count, lent in ((239, 1920), (240, 1920), (240, 1928), (241, 1928), (241, 4000), (241, 1920), (240, 1919), (240, 1912),
                            (239, 1919), (239, 1912), (239, 1911), (1, 8), (1, 7), (1, 0), (2, 16), (2, 15), (65535, 4000),
                            (256, 4000)):
            good = pack(15) if count > min(240, lent // 8) else pack(8) if lent < 1920 else \
                pack(15) if call == PLAYER_INPUT and count == 240 else named[call]
            yield case("%d waiting in %d bytes" % (count, lent), good, crowd, inputs=400, count=count, waiting=lent)
        for steps in ((3, 5, 9), (1, 2, 3), (7, 8, 9), (0, 5, 9), (3, 0, 9), (3, 3, 9), (3, 9, 9), (5, 3, 9), (3, 9, 5), (9, 5, 3),
                      (3, 5, 10), (3, 10, 11), (10, 11, 12), (3, 5, 65535), (3, 5, 265), (0, 0, 0), (1, 1, 2), (2, 1, 3)):
            good = steps[0] >= 1 and steps[0] < steps[1] < steps[2] <= 9
            yield case("steps %d, %d and %d" % steps,
                       (pack(0, steps[0], 9) if call == PLAYER_OUTPUT else named[call]) if good else pack(15),
                       [(step, 9, 300) for step in steps])
        yield case("one step 0", pack(15), [(0, 9, 300)])
        yield case("one step above the inputs", pack(15), [(10, 9, 300)])
        yield case("the step of the last input", pack(0, 9, 9) if call == PLAYER_OUTPUT else named[call], [(9, 9, 300)])
        for at in range(3):
            for left in (MAX_LEFT - 1, MAX_LEFT, MAX_LEFT + 1, MAX_LEFT + 65536, TURN - 1):
                waits = [(step, 9, left if i == at else 300) for i, (step, _, _) in enumerate(WAITS)]
                bad = left > MAX_LEFT
                if call == PLAYER_OUTPUT and at == 0:
                    continue
                yield case("record %d has %d left" % (at, left), pack(15) if bad else named[call], waits)
        for letter in (255, 256, 65535):
            yield case("a record with letter %d" % letter, named[call], ((3, 9, 300), (5, letter, 300)))
        yield case("none waiting, records of noise", pack(11) if call == PLAYER_OUTPUT else named[call], ())
        for config in (0, 1, 2, 6, 8, 9, 10, 11, 12, 16, 100):
            for waiting in (1920, 1912, 0):
                good = pack(15) if config < 10 or waiting == 0 else pack(8) if waiting < 1920 else named[call]
                yield case("a configuration of %d bytes, %d of records" % (config, waiting), good, config=config, waiting=waiting)
        for waiting in (1919, 1920, 1921, 1927, 1928, 4000, 24, 31, 23):
            yield case("%d bytes of records" % waiting,
                       pack(15) if waiting < 24 else pack(8) if waiting < 1920 else named[call], waiting=waiting)


def player_refused(rng):
    """What is refused first, of all causes together."""
    texts = ("cut", "damaged", "short", "closed", "due", "split", "513th", "241st")
    for given in itertools.product((0, 1), repeat=8):
        cut, damaged, short, closed, due, split, last, full = given
        inputs, count = 512 if last else 300, 240 if full else 2
        waits = [(j + 1, 9, 0 if due and j == 1 else 50) for j in range(count)]
        if damaged:
            waits[-1] = (count, 9, MAX_LEFT + 1)
            waits[0] = (1, 9, 0 if due else 50)
        number = first_given((pack(1, 134), cut), (15, damaged or short and full), (8, short), (10, closed), (11, due), (13, split),
                             (14, last), (15, full))
        data = write_file(SPLIT_THERE if split else PLAYED)
        yield move(rng, "input, refused first of %s" % [text for text, is_so in zip(texts, given) if is_so], PLAYER_INPUT,
                   6 if closed else 5, number or pack(0, 1), inputs=inputs, waits=waits, waiting=1919 if short else 1920,
                   data=data[:134] if cut else data)
    texts = ("cut", "damaged", "short", "not now", "split")
    for (call, text), given in itertools.product(((PLAYER_TIME, "time"), (PLAYER_OUTPUT, "output")),
                                                 itertools.product((0, 1), repeat=5)):
        cut, damaged, short, not_now, split = given
        data = write_file(SPLIT_HERE if split else PLAYED)
        good = pack(0, 2, 8) if call == PLAYER_OUTPUT else pack(0)
        number = first_given((pack(1, 134), cut), (15, damaged), (8, short), (11, not_now))
        left = 1 if call == PLAYER_OUTPUT and not_now else 0 if call == PLAYER_OUTPUT else 300
        yield move(rng, "%s, refused first of %s" % (text, [name for name, is_so in zip(texts, given) if is_so]), call,
                   0 if call == PLAYER_OUTPUT else 300 + not_now, number or good, state=4 if damaged else 1,
                   waits=((1, 9, 400), (2, 8, left)), waiting=1919 if short else 1920, data=data[:134] if cut else data)


def player_files(rng):
    """Files that are refused, and lengths that don't fit 32 bits."""
    file, big = write_file(PLAYED), 1 << 32
    full = Table(1, 0, [(0, i % 256, i // 256, 0, 1, 2, 3) for i in range(257)])
    for call, number in ((PLAYER_START, 0),) + MOVES:
        for name, data, refused in (("no file", b"", pack(1)), ("a cut file", file[:60], pack(1, 44)),
                                    ("a byte after the end", file + b"\0", pack(2, len(file))),
                                    ("257 transitions", write_file(full), pack(3, 8 + 18 * 256)),
                                    ("a number out of range", file[:8] + record(2, (0, 0, 0, 0, 4, 4, 5)) + file[26:], pack(4, 8)),
                                    ("a repeated transition", file[:26] + file[8:26] + file[26:], pack(5, 26))):
            for config, waiting in ((0, 0), (10, 1920)):
                yield move(rng, "%s with %s, %d and %d bytes" % (CALLS[call], name, config, waiting), call, number, refused,
                           data=data, config=config, waiting=waiting)
        waits = waiting_for(call, WAITS)
        good = {PLAYER_INPUT: pack(0, 1), PLAYER_OUTPUT: pack(0, 3, 9)}.get(call, pack(0))
        for name, place, length in (("records of 2^32 bytes", 2, big), ("records of 2^32 + 1912 bytes", 2, big + 1912),
                                    ("a configuration of 2^32 + 5 bytes", 1, big + 5)):
            case = move(rng, "%s with %s" % (CALLS[call], name), call, number, good, waits=waits)
            case.bufs[place] = Buf(case.bufs[place].data, length)
            yield case
        case = move(rng, "%s with a file of 2^32 + %d bytes" % (CALLS[call], len(file)), call, number, pack(2, len(file)),
                    waits=waits)
        case.bufs[0] = Buf(file, big + len(file))
        yield case


class Column:
    """Plays a word of letters and gaps; issues what falls due, in the end all. A refused move ends it."""

    def __init__(self, word):
        self.word = word

    def __call__(self, now, answer):
        if answer is None:
            return PLAYER_START, 0
        _, inputs, timer, waits = now
        next_due = least_left(waits)
        if unpack(answer)[0] != 0:
            return None
        if next_due == 0:
            return PLAYER_OUTPUT, 0
        if inputs < len(self.word):
            letter, gap = self.word[inputs]
            return (PLAYER_INPUT, letter) if timer == gap else (PLAYER_TIME, min(gap - timer, next_due))
        return (PLAYER_TIME, next_due) if waits else None


def column(rng, name, table, trace, gaps, pinned):
    """A run that plays gaps on a trace from the initial state."""
    return Run([write_file(table), rng.randbytes(16), rng.randbytes(1930)],
               Column([(table.rows[i][INPUT], gap) for i, gap in zip(trace, gaps)]), "player: " + name, pinned)


def issues(*wanted):
    """Exactly these outputs: time, step, letter."""
    return lambda past: None if past.issued == list(wanted) else "issued %s, written down is %s" % (past.issued, list(wanted))


def before(a, b):
    """Both steps are issued, a before b."""
    def check(past):
        steps = [step for _, step, _ in past.issued]
        return None if steps.index(a) < steps.index(b) else "step %d was not issued before step %d" % (a, b)
    return check


def player_runs(rng):
    three = (0, 1, 2)
    for text, gaps, wanted in (("first", (2560, 4352, 3584), issues((12800, 1, 1), (13056, 3, 3), (14592, 2, 2))),
                               ("second", (3840, 4352, 2816), issues((13568, 3, 3), (14080, 1, 1), (15872, 2, 2))),
                               ("third", (5888, 4352, 3840), lambda past: None if not past.rows and not past.issued else "played")):
        yield column(rng, "the %s word of the whole case" % text, WHOLE, three, gaps, wanted)
    loop = (0,) + 119 * (1,) + (2,)
    for name, table, trace, k, m in (("the whole case", WHOLE, three, 1, 3), ("the dead end", DEAD_END, (0, 1), 1, 2),
                                     ("the loop of 121 steps", LONG_LOOP, loop, 1, 121)):
        rows = [table.rows[i] for i in trace]
        yield column(rng, "the late word of %s" % name, table, trace, late_word(rows), before(k, m))
        yield column(rng, "the early word of %s" % name, table, trace, early_word(rows, k, m), before(m, k))
    tie = Table(3, 0, [(0, 0, 1, 1, 1, 2, 10), (1, 0, 2, 2, 3, 5, 6)])
    for gap, order in ((1024, (1, 2)), (1023, (2, 1)), (1025, (1, 2))):
        yield column(rng, "due times %d parts apart" % (gap - 1024), tie, (0, 1), (512, gap),
                     issues(*sorted(((3072, 1, 1), (2048 + gap, 2, 2)))) if gap != 1024 else issues((3072, 1, 1), (3072, 2, 2)))
    crowd = Table(1, 0, [(0, 0, 1, 0, 1, 2, 240)])

    def full(past):
        return None if past.most == 240 and len(past.issued) == 300 else "%d waited at most" % past.most
    yield column(rng, "300 inputs, of which 240 wait", crowd, 300 * (0,), 300 * (257,), full)
    most = 512 * ((PLAYER_TIME, 257), (PLAYER_INPUT, 0), (PLAYER_TIME, 256), (PLAYER_OUTPUT, 0))

    def last(past):
        return None if len(past.issued) == 512 else "%d outputs" % len(past.issued)
    yield Run([write_file(Table(1, 0, [(0, 0, 1, 0, 1, 3, 1)])), rng.randbytes(10), rng.randbytes(1920)],
              in_turn([(PLAYER_START, 0), *most, (PLAYER_TIME, 257), (PLAYER_INPUT, 0), (PLAYER_OUTPUT, 0), (PLAYER_TIME, 9)]),
              "player: 512 inputs and one more", last)
    for name, moves in (
            ("pauses that stop the timer", ((PLAYER_TIME, TURN - 1), (PLAYER_INPUT, 0), (PLAYER_TIME, TURN - 1), (PLAYER_INPUT, 0),
                                            (PLAYER_START, 0), (PLAYER_TIME, 400), (PLAYER_INPUT, 0), (PLAYER_TIME, 257),
                                            (PLAYER_TIME, 256), (PLAYER_INPUT, 0), (PLAYER_TIME, 0), (PLAYER_OUTPUT, 0),
                                            (PLAYER_OUTPUT, 0), (PLAYER_TIME, TURN - 256), (PLAYER_INPUT, 0))),
            ("a new start while one waits", ((PLAYER_TIME, 300), (PLAYER_INPUT, 0), (PLAYER_TIME, 100), (PLAYER_START, 0),
                                             (PLAYER_OUTPUT, 0), (PLAYER_TIME, 300), (PLAYER_INPUT, 0), (PLAYER_TIME, 256),
                                             (PLAYER_OUTPUT, 0)))):
        yield Run([write_file(ONE), rng.randbytes(10), rng.randbytes(1920)], in_turn(((PLAYER_START, 0),) + moves),
                  "player: " + name)
    for name, table in (("without transitions", Table(2, 1, [])), ("that is split", SPLIT_HERE)):
        yield Run([write_file(table), CONFIG.pack(1, 0, 0, 0), rng.randbytes(1920)],
                  in_turn(((PLAYER_START, 0), (PLAYER_TIME, 600), (PLAYER_INPUT, 5), (PLAYER_OUTPUT, 0), (PLAYER_TIME, 5))),
                  "player: moves on a table " + name)


# Like letters. Letters are written 1 and 2, or a and b: the same places of a table with them in all ways.

def lettered(table, *letters):
    """The same table with these output letters, the last one to its end."""
    letters = letters + letters[-1:] * len(table.rows)
    return Table(table.states, table.initial, [r[:OUTPUT] + (o,) + r[TO:] for r, o in zip(table.rows, letters)])


def chain_of(*steps):
    """A chain of steps (u, v, d), all with input 0."""
    return Table(len(steps) + 1, 0, [(s, 0, 0, s + 1, *step) for s, step in enumerate(steps)])


def backwards(table):
    """The same table with its transitions numbered backwards."""
    return Table(table.states, table.initial, table.rows[::-1])


def turning_in(trace, k):
    return showing(trace, k, TURNING)


def both_verdicts(rng, name, table, trace, pair):
    """A trace and the table that has no other one, with this pair or None."""
    yield trace_case(rng, "letters: %s" % name, table, trace, pack(TURNING, *pair, len(trace)) if pair else pack(0))
    yield table_case(rng, "letters: %s (table)" % name, table,
                     turning_in(trace[:pair[1]], pair[0]) if pair else pack(0))


def letters_throughout(rng):
    """The turning worked cases with one letter throughout: steady, strict, still overtaken. (As they stand they are the
    first fixed cases.)"""
    loop = (0,) + (1,) * 119 + (2,)
    yield trace_case(rng, "letters: 121 steps of the long loop", LONG_LOOP, loop, pack(TURNING, 1, 121, 121))
    for letter in (7, 0, 255):
        for name, table, trace, overtaken in (
                ("the whole case", WHOLE, (0, 1, 2), showing((0, 1, 2), 1)),
                ("second guard (3,5], D = 4", two_steps(4), (0, 1), showing((0, 1), 1)),
                ("second guard (3,5], D = 5", two_steps(5), (0, 1), showing((0, 1), 1)),
                ("the dead end", DEAD_END, (0, 1), showing((0, 1), 1)),
                ("the long loop", LONG_LOOP, loop, by(0, 2))):
            table, name = lettered(table, letter), "%s with letter %d throughout" % (name, letter)
            yield from both_verdicts(rng, name, table, trace, None)
            yield table_case(rng, "letters: order: %s" % name, table, overtaken, ORDER)


def letters_of_traces(rng):
    """Chains of which it is known which pairs turn, with letters 1 and 2 in all ways; the chain is also the whole table, and
    numbered backwards, where the last k is the lowest."""
    falling = chain_of((1, 9, 12), (1, 9, 9), (1, 9, 5), (1, 9, 2))             # every two steps turn
    parted = chain_of((1, 9, 20), (1, 9, 15), (100, 109, 20), (1, 9, 15))       # 1 and 2, 3 and 4
    every_two = tuple(itertools.combinations(range(1, 5), 2))
    for name, chain, pairs in (("the whole case", WHOLE, ((1, 3),)), ("falling delays", falling, every_two),
                               ("two pairs apart", parted, ((1, 2), (3, 4)))):
        n = len(chain.rows)
        for letters in itertools.product((1, 2), repeat=n):
            table, text = lettered(chain, *letters), "%s with letters %s" % (name, " ".join(map(str, letters)))
            unlike = [(k, m) for k, m in pairs if letters[k - 1] != letters[m - 1]]
            yield trace_case(rng, "letters: " + text, table, range(n),
                             pack(TURNING, *unlike[0], n) if unlike else pack(0))
            yield table_case(rng, "letters: %s (table)" % text, table, by(unlike[0][0] - 1) if unlike else pack(0))
            yield table_case(rng, "letters: %s (numbered backwards)" % text, backwards(table),
                             by(n - unlike[-1][0]) if unlike else pack(0))
            yield table_case(rng, "letters: order: " + text, table, by(0), ORDER)

    # one state: many like ends before the unlike one
    loops = Table(1, 0, [(0, 0, 1, 0, 1, 2, 240), (0, 1, 1, 0, 1, 2, 1), (0, 2, 2, 0, 1, 2, 1)])
    for more, pair in ((0, (1, 121)), (1, (1, 122)), (117, (1, 238)), (118, (1, 239)), (119, (2, 240)), (391, None)):
        trace = [0] * 120 + [1] * more + [2] * (more < 391)
        yield trace_case(rng, "letters: %d like ends" % more, loops, trace,
                         pack(TURNING, *pair, len(trace)) if pair else pack(0))
    yield table_case(rng, "letters: a like end and an unlike one in one state", loops, by(0, 2))
    yield trace_case(rng, "letters: the last of 512 steps alone has another letter", loops, [0] * 511 + [2],
                     pack(TURNING, 274, 512, 512))

    # both words respond 1 2 1 2, though steps 1 and 4 change places
    same = lettered(chain_of((1, 2, 20), (1, 2, 20), (1, 20, 5), (1, 2, 4)), 1, 2, 1, 2)
    yield from both_verdicts(rng, "both words give the same sequence of letters", same, (0, 1, 2, 3), (1, 4))

    # what neighbours overtake is alike, what overtakes by way of them is not
    yield from both_verdicts(rng, "no neighbour with another letter overtakes",
                             lettered(chain_of((1, 2, 40), (5, 15, 20), (5, 15, 15)), 1, 1, 2), (0, 1, 2), (1, 3))


def letters_of_tables(rng):
    """Which transitions count, like ends and unlike ones beside each other."""
    first, short = (0, 0, 1, 1, 1, 2, 40), (1, 0, 1, 2, 3, 5, 36)
    far, end = (1, 1, 1, 3, 10, 12, 40), (3, 0, 1, 4, 5, 9, 22)
    for name, a, b, trace in (("a like pair on a short walk, an unlike one on a longer", 1, 2, (0, 2, 3)),
                              ("an unlike pair on a short walk, a like one on a longer", 2, 1, (0, 1))):
        table = lettered(Table(5, 0, [first, short, far, end]), 1, a, 1, b)
        yield table_case(rng, "letters: " + name, table, turning_in(trace, 1))
        yield table_case(rng, "letters: %s (numbered backwards)" % name, backwards(table),
                         turning_in([3 - i for i in trace], 1))
    for a, b in ((1, 2), (2, 1)):
        yield table_case(rng, "letters: two ends alike in all but letters, %d and %d" % (a, b),
                         Table(3, 0, [(0, 0, 1, 1, 2, 7, 24), (1, 0, a, 2, 3, 5, 20), (1, 1, b, 2, 3, 5, 20)]),
                         turning_in((0, 1 if a == 2 else 2), 1))
        yield table_case(rng, "letters: two firsts alike in all but letters, %d and %d" % (a, b),
                         Table(3, 0, [(0, 0, a, 1, 2, 7, 24), (0, 1, b, 1, 2, 7, 24), (1, 0, 1, 2, 3, 5, 20)]),
                         turning_in((0 if a == 2 else 1, 2), 1))
    pair = [(0, 0, 1, 1, 1, 2, 9), (1, 0, 1, 2, 3, 4, 5)]
    for name, initial, more in (("before the pair", 3, [(3, 0, 2, 0, 1, 2, 1)]),
                                ("long after it", 0, [(2, 0, 2, 3, 90, 91, 1)]),
                                ("in a side branch", 0, [(0, 1, 2, 3, 1, 2, 1)]),
                                ("where nothing leads", 0, [(3, 0, 2, 1, 1, 2, 90), (3, 1, 2, 2, 1, 2, 1)])):
        yield table_case(rng, "letters: the other letter stands " + name, Table(4, initial, pair + more), pack(0))
    yield table_case(rng, "letters: an unlike pair that can't be reached, then one that can",
                     Table(5, 0, [(3, 0, 2, 1, 1, 2, 9)] + pair + [(1, 1, 2, 4, 3, 4, 5)]), turning_in((1, 3), 1))
    yield table_case(rng, "letters: firsts that ask for sums of different size",
                     Table(3, 0, [(0, 0, 1, 1, 1, 2, 240), (0, 1, 2, 1, 1, 2, 100), (1, 0, 3, 1, 1, 2, 240),
                                  (1, 1, 1, 2, 1, 2, 1)]), by(1, 3))
    yield table_case(rng, "letters: a loop of like letters between an unlike pair", lettered(LONG_LOOP, 1, 1, 2), by(0, 2))
    yield table_case(rng, "letters: an unlike loop between a like pair", lettered(LONG_LOOP, 1, 2, 1), by(1, 2))


def letters_and_limits(rng):
    """Both sides of U and V for an unlike end beside a like one, all bits of a letter, and inputs, which don't count."""
    for difference, like in itertools.product((15, 16, 17, 20, 21, 22, 23), (15, 18, 22)):
        # two ends (6,9] of a first step, after a step (10,12] that is as slow as it: U = 16, V = 21
        ends = Table(4, 0, [(0, 0, 1, 1, 1, 2, 40), (1, 0, 1, 2, 10, 12, 40), (2, 0, 1, 3, 6, 9, 40 - like),
                            (2, 1, 2, 3, 6, 9, 40 - difference)])
        name = "an end with D = %d, and a like one with D = %d" % (difference, like)
        turns = 16 < difference <= 21
        yield trace_case(rng, "letters: " + name, ends, (0, 1, 3), pack(TURNING, 1, 3, 3) if turns else pack(0))
        yield table_case(rng, "letters: %s (table)" % name, ends, turning_in((0, 1, 3), 1) if turns else pack(0))
    for bit in range(8):
        for a, b in ((0, 1 << bit), (1 << bit, 0), (255, 255 ^ 1 << bit)):
            yield from both_verdicts(rng, "%d and %d" % (a, b), lettered(two_steps(4), a, b), (0, 1), (1, 2))
    for ins, outs in itertools.product(((5, 5), (5, 6)), ((5, 5), (5, 6), (6, 5), (6, 6))):
        table = Table(3, 0, [(0, ins[0], outs[0], 1, 2, 7, 24), (1, ins[1], outs[1], 2, 3, 5, 20)])
        yield from both_verdicts(rng, "inputs %d and %d, outputs %d and %d" % (ins + outs), table, (0, 1),
                                 (1, 2) if outs[0] != outs[1] else None)


def letters_elsewhere(rng):
    """What letters don't change: a split, the request order, replay, a night of words, rooms."""
    for name, rows, answer in (
            ("one letter", [(0, 0, 7, 0, 1, 4, 9), (0, 0, 7, 0, 3, 5, 9)], pack(SPLIT, 0, 1, 1)),
            ("one letter, other arrivals and delays", [(0, 0, 7, 1, 1, 4, 9), (0, 0, 7, 2, 3, 5, 20)], pack(SPLIT, 0, 1, 1)),
            ("one letter, and a like pair that turns", [(0, 0, 7, 1, 1, 2, 9), (1, 0, 7, 2, 3, 4, 5), (2, 0, 7, 0, 1, 4, 9),
                                                        (2, 0, 7, 2, 3, 5, 9)], pack(SPLIT, 2, 3, 3)),
            ("a like pair before an unlike one", [(0, 0, 7, 1, 1, 4, 9), (0, 0, 7, 2, 3, 5, 9), (0, 0, 8, 1, 1, 4, 9)],
             pack(SPLIT, 0, 1, 1))):
        yield table_case(rng, "letters: split with " + name, Table(3, 0, rows), answer)
    parted = lettered(chain_of((1, 9, 20), (1, 9, 15), (100, 109, 20), (1, 9, 15)), 1, 1, 1, 2)
    yield table_case(rng, "letters: order: the lowest is overtaken by a like letter, a later one by another", parted,
                     showing((0, 1), 1), ORDER)
    yield table_case(rng, "letters: order: like letters far apart",
                     Table(3, 0, [(0, 0, 1, 1, 1, 2, 240), (1, 0, 2, 1, 1, 2, 240), (1, 1, 1, 2, 200, 201, 1)]), by(0, 2), ORDER)
    whole = lettered(WHOLE, 7)
    for stamps, order, due in ((FIRST[1], (1, 3, 2), (12800, 13056, 14592)), (SECOND[1], (3, 1, 2), (13568, 14080, 15872))):
        yield played_case(rng, "letters: replay with one letter, order %d, %d, %d" % order, whole, (0, 1, 2), stamps,
                          pinned=exactly(pack(0), order=u16(*order), due=u32(*due)))
    yield night(rng, "one letter throughout", whole, (0, 1, 2), (FIRST, SECOND, LATE),
                exactly(pack(0, 3), order=u16(1, 3, 2, 3, 1, 2), due=u32(12800, 13056, 14592, 13568, 14080, 15872),
                        marks=u16(0, 0, 1)))
    for call, trace, stamps in ((JUDGE, 538, 2160), (JUDGE, 540, 2159), (JUDGE, 0, 0), (JUDGE_TRACE, 6, 23),
                                (JUDGE_TRACE, 6, 0)):
        yield Case(call, [write_file(whole), u16(0, 1, 2) if call == JUDGE_TRACE else rng.randbytes(trace),
                          rng.randbytes(stamps)], 0,
                   "letters: one letter, %d and %d bytes of room (%s)" % (trace, stamps, CALLS[call]), pack(8))


def letters_of_full_tables(rng):
    """32 states and 256 transitions with very many walks. Only the last but two turns, with the last, after a loop."""
    core = []
    for i in range(252):
        a, b = (i % 28 + 1, (i + 1) % 28 + 1) if i < 28 else (i * 5 % 28 + 1, i * 11 % 27 + 1)
        d = 240 - i % 2 if i % 4 or i < 28 else i * 7 % 239 + 1
        u = i % 3 + 1 if d > 238 else 240 - d
        core.append((a, i, 1, b, u, u + 1 + i % 3, d))
    bridge = [(14, 253, 1, 29, 239, 240, 240), (29, 0, 1, 29, 1, 2, 240), (29, 1, 1, 31, 1, 2, 1)]
    full = Table(32, 0, [(0, 0, 1, 1, 1, 2, 240)] + core + bridge)
    mixed = [1 + (i % 3 > 0) for i in range(253)]
    yield table_case(rng, "letters: a full table with one letter", full, pack(0))
    yield table_case(rng, "letters: order: a full table with one letter", full, by(253, 255), ORDER)
    yield table_case(rng, "letters: a full table with another letter at the end", lettered(full, *[1] * 255, 2), by(253, 255))
    yield table_case(rng, "letters: a full table with two letters, the pair alike", lettered(full, *mixed, 1), pack(0))
    yield table_case(rng, "letters: a full table with two letters, the pair unlike", lettered(full, *mixed, 1, 1, 2),
                     by(253, 255))


def fixed_cases():
    rng = random.Random("fixed")
    cases = []

    def add(name, call, *bufs, start=0, pinned=None):
        cases.append(Case(call, bufs, start, name, pinned))

    def judged(*what, **more):
        cases.append(table_case(rng, *what, **more))

    def ordered(name, *what):
        cases.append(table_case(rng, "order: " + name, *what, call=ORDER))

    def traced(*what):
        cases.append(trace_case(rng, *what))

    def replayed(*what, **more):
        cases.append(played_case(rng, *what, **more))

    def rewritten(name, data, pinned=None):
        add(name, REWRITE, data, rng.randbytes(5000), pinned=pinned)

    strict, steady, in_order = pack(0), pack(0), pack(0)

    # --- the whole case
    whole, one = WHOLE, ONE
    file = write_file(whole)
    if len(file) != 66:
        raise Disagreement("the whole case's file")
    judged("whole case: turning 1 3", whole,
           exactly(pack(TURNING, 1, 3, 3), trace=u16(0, 1, 2), stamps=u32(5120, 10240, 14080, 5120, 8961, 11522)))
    traced("whole case: the trace turns 1 3", whole, (0, 1, 2),
           exactly(pack(TURNING, 1, 3, 3), stamps=u32(5120, 10240, 14080, 5120, 8961, 11522)))
    rewritten("whole case: the file is written as it was read", file, pack(0, 66))

    # --- both sides of each limit
    replayed("replay at 2560, 6912, 10496: order 1, 3, 2", whole, (0, 1, 2), (2560, 6912, 10496),
             pinned=exactly(pack(0), order=u16(1, 3, 2), due=u32(12800, 13056, 14592)))
    replayed("replay at 3840, 8192, 11008: order 3, 1, 2", whole, (0, 1, 2), (3840, 8192, 11008),
             pinned=exactly(pack(0), order=u16(3, 1, 2), due=u32(13568, 14080, 15872)))
    replayed("first stamp 5888: refusal 12, step 1", whole, (0, 1, 2), (5888, 10240, 14080), pinned=pack(12, 1))
    for difference, turns in ((-2, 0), (0, 0), (3, 0), (6, 0), (4, 1), (5, 1)):
        two = two_steps(difference)
        name = "second guard (3,5], D = %d: %s" % (difference, "turning" if turns else "steady")
        traced(name, two, (0, 1), pack(TURNING, 1, 2, 2) if turns else steady)
        judged(name + " (table)", two, pack(TURNING, 1, 2, 2) if turns else strict)
    replayed("start 4,294,967,000, stamp 100: gap 396", one, (0,), (100,), 4294967000,
             exactly(pack(0), order=u16(1), due=u32(396 + 256)))
    judged("a table without transitions: strict", Table(1, 0, []), strict)
    judged("32 states, no transitions: strict", Table(32, 31, []), strict)
    dead_end = DEAD_END.rows
    judged("turning 1 2, though p is 4", DEAD_END, pack(TURNING, 1, 2, 2))
    judged("the same with initial 2: strict", Table(3, 2, dead_end), strict)
    judged("the same with initial 1: strict", Table(3, 1, dead_end), strict)

    def long_enough(answer, _):
        status, first, _, steps = unpack(answer)
        return None if (status, first) == (TURNING, 1) and steps >= 121 else "fewer than 121 steps are shown"
    judged("from transition 0 no turning trace has fewer than 121 steps", LONG_LOOP, long_enough)
    judged("guards (1,3] and (3,5]: no split", Table(1, 0, [(0, 0, 1, 0, 1, 3, 9), (0, 0, 2, 0, 3, 5, 9)]), strict)
    judged("guards (1,4] and (3,5]: split", Table(1, 0, [(0, 0, 1, 0, 1, 4, 9), (0, 0, 2, 0, 3, 5, 9)]),
           exactly(pack(SPLIT, 0, 1, 1), trace=u16(0), stamps=u32(1024)))
    rewritten("v = 4,095 is read", write_file(Table(1, 0, [(0, 0, 0, 0, 1, 4095, 1)])), pack(0, 30))
    rewritten("v = 4,096: refused 4", write_file(Table(1, 0, [(0, 0, 0, 0, 1, 4096, 1)])), pack(4, 8))
    rewritten("empty file: refused 1 at 0", b"", pack(1, 0))
    add("empty file, no rooms: refused 1 at 0 (judge)", JUDGE, b"", b"", b"", pinned=pack(1))
    add("empty file, no rooms: refused 1 at 0 (judge_trace)", JUDGE_TRACE, b"", b"", b"", pinned=pack(1))
    add("empty file, no rooms: refused 1 at 0 (replay)", REPLAY, b"", b"", b"", b"", b"", pinned=pack(1))
    add("empty file, no rooms: refused 1 at 0 (rewrite)", REWRITE, b"", b"", pinned=pack(1))
    add("empty file, no rooms: refused 1 at 0 (order)", ORDER, b"", b"", b"", pinned=pack(1))
    add("empty file, no rooms: refused 1 at 0 (replay_words)", WORDS, *[b""] * 7, pinned=pack(1))

    # --- the reader: every cut, every changed bit, every limit
    for cut in range(len(file)):
        for call in CALLS:
            add("whole case cut to %d bytes (%s)" % (cut, CALLS[call]), call, file[:cut],
                *(rng.randbytes(6 if b == "trace" and call not in (JUDGE, ORDER) else 2160) for b in BUFFERS[call][1:]))
    for bit in range(8 * len(file)):
        changed = bytearray(file)
        changed[bit // 8] ^= 1 << bit % 8
        rewritten("whole case with bit %d changed" % bit, bytes(changed))
        for call in (JUDGE, ORDER):
            add("whole case with bit %d changed (%s)" % (bit, CALLS[call]), call, bytes(changed), rng.randbytes(540),
                rng.randbytes(2160))
    head, end = record(1, (3, 1)), record(3, ())
    middle = record(2, (0, 7, 8, 2, 3, 4, 5))
    rewritten("head alone: 1 at 8", head, pack(1, 8))
    rewritten("head and transition: 1 at 26", head + middle, pack(1, 26))
    for more in range(1, 6):
        rewritten("%d bytes after the end: 2 there" % more, head + middle + end + bytes(more), pack(2, 30))
        rewritten("%d bytes left where a record must begin" % more, head + b"\x10\x00\x02\x00\x00"[:more],
                  pack(1, 8))
    rewritten("a second end: 2", head + end + end, pack(2, 12))
    rewritten("a second head: 2", head + head + end, pack(2, 8))
    rewritten("a second head with a wrong length: 2", head + record(1, (3, 1), 99) + end, pack(2, 8))
    rewritten("no head: 2 at 0", middle + end, pack(2, 0))
    rewritten("an end alone: 2 at 0", end, pack(2, 0))
    rewritten("four bytes of an unknown kind: 2", head + record(4, (), 9), pack(2, 8))
    for kind in (0, 4, 258, 259, 65535):
        rewritten("kind %d: 2" % kind, head + record(kind, (0, 7, 8, 2, 3, 4, 5)) + end, pack(2, 8))
    for length in (0, 2, 15, 17, 18, 272, 65535):
        rewritten("transition of length %d: 1" % length, head + record(2, (0, 7, 8, 2, 3, 4, 5), length) + end,
                  pack(1, 8))
    for length in (0, 4, 5, 7, 8, 262):
        rewritten("head of length %d: 1" % length, record(1, (3, 1), length) + end, pack(1, 0))
    for length in (0, 1, 3, 4, 258):
        rewritten("end of length %d: 1" % length, head + record(3, (), length) + bytes(4), pack(1, 8))
    rewritten("an end with a body: 1", head + record(3, (0,)), pack(1, 8))
    for states, initial in ((0, 0), (1, 0), (1, 1), (2, 1), (32, 31), (32, 32), (33, 0), (65535, 0), (256 + 3, 1),
                            (3, 256 + 1)):
        rewritten("%d states, initial %d" % (states, initial), record(1, (states, initial)) + end,
                  pack(0, 12) if 1 <= states <= 32 and initial < states else pack(4, 0))
    good = (0, 7, 8, 2, 3, 4, 5)
    for field, values in ((FROM, (2, 3, 256, 65535)), (INPUT, (0, 255, 256, 65535)), (OUTPUT, (0, 255, 256, 65535)),
                          (TO, (0, 2, 3, 256, 65535)), (U, (0, 1, 3, 4, 5, 257, 65535)),
                          (V, (0, 2, 3, 4, 4095, 4096, 65535)), (D, (0, 1, 240, 241, 257, 65535))):
        for value in values:
            row = good[:field] + (value,) + good[field + 1:]
            rewritten("transition with number %d = %d" % (field + 1, value), head + record(2, row) + end)
    for field in range(7):
        row = good[:field] + (good[field] - (field == FROM and -1 or field == TO and 1 or field == U and 1 or -1),) + \
            good[field + 1:]
        rewritten("two transitions that differ only in number %d" % (field + 1), head + middle + record(2, row) + end,
                  pack(0, 48))
    rewritten("a repeated transition: 5", head + middle + middle + end, pack(5, 26))
    rewritten("a transition repeated later: 5",
              head + middle + record(2, (0, 7, 8, 2, 3, 4, 6)) + middle + end, pack(5, 44))
    rewritten("a repeated transition, then one out of range: 5",
              head + middle + middle + record(2, (0, 7, 8, 2, 4, 4, 5)) + end, pack(5, 26))
    many = [(i % 32, i // 32, 5, (i * 7 + 1) % 32, 300 + i, 301 + i, 240) for i in range(256)]
    full = write_file(Table(32, 0, many))
    rewritten("256 transitions", full, pack(0, 4620))
    judged("256 transitions: strict", Table(32, 0, many), strict)
    for name, row, number in (("a 257th transition: 3", (0, 99, 5, 1, 1, 2, 3), 3),
                              ("a 257th transition out of range: 3", (0, 99, 5, 1, 2, 2, 3), 3),
                              ("a 257th transition that repeats: 3", many[9], 3)):
        longer = full[:-4] + record(2, row)
        rewritten(name, longer + end, pack(number, 4616))
        rewritten(name + " (no end)", longer, pack(number, 4616))
        rewritten(name[:-1] + "1, being cut", longer[:-1], pack(1, 4616))
        for call in (JUDGE, ORDER):
            add("%s (%s)" % (name, CALLS[call]), call, longer + end, rng.randbytes(540), rng.randbytes(2160),
                pinned=pack(number, 4616))
    rewritten("256 transitions, no end: 1", full[:-4], pack(1, 4616))
    rewritten("256 transitions and a byte: 2", full + b"\0", pack(2, 4620))
    rewritten("256 transitions and 70,000 bytes: 2", full + bytes(70000), pack(2, 4620))

    # --- room
    for size in (0, 1, 65, 66, 67):
        add("rewriting 66 bytes into %d" % size, REWRITE, file, rng.randbytes(size),
            pinned=pack(0, 66) if size > 65 else pack(8))
    for size in (4619, 4620, 4621):
        add("rewriting 4,620 bytes into %d" % size, REWRITE, full, rng.randbytes(size),
            pinned=pack(0, 4620) if size > 4619 else pack(8))
    split_table = write_file(Table(1, 0, [(0, 0, 1, 0, 1, 4, 9), (0, 0, 2, 0, 3, 5, 9)]))
    for what, data in (("strict", write_file(one)), ("turning", file), ("split", split_table),
                       ("long", write_file(LONG_LOOP))):
        for trace, stamps in ((0, 0), (540, 0), (0, 2160), (538, 2160), (539, 2160), (540, 2156), (540, 2159),
                              (539, 2159), (540, 2160), (541, 2163), (600, 3000), (540, 2161)):
            add("%s table with %d and %d bytes of room" % (what, trace, stamps), JUDGE, data, rng.randbytes(trace),
                rng.randbytes(stamps), pinned=None if trace >= 540 and stamps >= 2160 else pack(8))
    for what, table, trace in (("steady", one, (0, 0, 0)), ("turning", whole, (0, 1, 2))):
        for size in (0, 4, 12, 20, 21, 22, 23, 24, 25, 27, 28, 31):
            add("%s trace of 3 steps with %d bytes of room" % (what, size), JUDGE_TRACE, write_file(table), u16(*trace),
                rng.randbytes(size),
                pinned=pack(8) if size < 24 else steady if what == "steady" else pack(TURNING, 1, 3, 3))
    for order, due in ((6, 12), (5, 12), (4, 12), (6, 11), (6, 8), (0, 12), (6, 0), (0, 0), (7, 15), (8, 16), (9, 13)):
        add("replay of 3 steps with %d and %d bytes of room" % (order, due), REPLAY, file, u16(0, 1, 2),
            u32(2560, 6912, 10496), rng.randbytes(order), rng.randbytes(due),
            pinned=pack(0 if order > 5 and due > 11 else 8))

    # --- traces and stamps that are handed in
    for n in (1, 511, 512, 513, 1024):
        for call in (JUDGE_TRACE, REPLAY):
            stamps = [300 * (j + 1) for j in range(n)]
            bufs = [rng.randbytes(8 * n)]
            if call == REPLAY:
                bufs = [u32(*stamps), rng.randbytes(2 * n), rng.randbytes(4 * n)]
            add("a trace of %d steps (%s)" % (n, CALLS[call]), call, write_file(one), u16(*[0] * n), *bufs,
                pinned=pack(0) if n <= 512 else pack(6))
    for n in (65536, 65537, 65536 + 3):
        add("a trace of %d steps" % n, JUDGE_TRACE, write_file(one), bytes(2 * n), rng.randbytes(8 * 512),
            pinned=pack(6))
        add("a trace of %d steps (replay)" % n, REPLAY, write_file(one), bytes(2 * n), u32(300, 600, 900),
            rng.randbytes(2000), rng.randbytes(4000), pinned=pack(6))
        add("%d stamps" % n, REPLAY, write_file(one), u16(0, 0, 0), bytes(4 * n), rng.randbytes(6), rng.randbytes(12),
            pinned=pack(7))
    for name, trace in (("empty", b""), ("of one byte", b"\0"), ("of 5 bytes", u16(0, 1, 2)[:5]),
                        ("of 7 bytes", u16(0, 1, 2) + b"\0"),
                        ("naming transition 3 of 3", u16(0, 1, 3)), ("naming transition 256", u16(256)),
                        ("naming transition 65535", u16(0, 65535)), ("that is not joined", u16(0, 2)),
                        ("that repeats a step that can't be", u16(0, 0)), ("backwards", u16(2, 1, 0))):
        add("a trace %s: 6" % name, JUDGE_TRACE, file, trace, rng.randbytes(100), pinned=pack(6))
        add("a trace %s, no room: 6" % name, JUDGE_TRACE, file, trace, b"", pinned=pack(6))
        add("a trace %s: 6 (replay)" % name, REPLAY, file, trace, u32(2560, 6912, 10496), rng.randbytes(6),
            rng.randbytes(12), pinned=pack(6))
        add("a trace %s, no stamps, no room: 6 (replay)" % name, REPLAY, file, trace, b"", b"", b"", pinned=pack(6))
    traced("a trace from a state that can't be reached", Table(3, 2, dead_end), (0, 1), pack(TURNING, 1, 2, 2))
    empty = write_file(Table(1, 0, []))
    add("a trace in a table without transitions: 6", JUDGE_TRACE, empty, u16(0), rng.randbytes(8), pinned=pack(6))
    for size in (0, 1, 4, 8, 10, 11, 13, 14, 15, 16, 24):
        stamps = rng.randbytes(size)
        add("3 steps and %d bytes of stamps: 7" % size, REPLAY, file, u16(0, 1, 2), stamps, rng.randbytes(6),
            rng.randbytes(12), pinned=pack(7))
        add("3 steps, %d bytes of stamps, no room: 7" % size, REPLAY, file, u16(0, 1, 2), stamps, b"", b"",
            pinned=pack(7))
    add("gaps outside and no room: 8", REPLAY, file, u16(0, 1, 2), u32(1, 2, 3), rng.randbytes(4), rng.randbytes(12),
        pinned=pack(8))
    add("a bad file and nothing else right: the file's number", REPLAY, file[:60], b"\0", b"\0", b"", b"",
        pinned=pack(1, 44))

    # --- gaps, the wrap, ties
    for gap, refused in ((256, 9), (257, 0), (300, 0), (512, 0), (513, 12), (0, 9), (TURN - 1, 12)):
        for start in (0, TURN - 1, TURN - 256, TURN - 257, TURN - 300, TURN - 512, TURN - 513, 2147483647):
            replayed("guard (1,2], gap %d from start %d" % (gap, start), one, (0,), ((start + gap) % TURN,), start,
                     pack(refused, 1) if refused else pack(0))
    replayed("stamps that wrap between steps", whole, (0, 1, 2), ((3840 - 6000) % TURN, 8192 - 6000, 11008 - 6000),
             (-6000) % TURN, exactly(pack(0), order=u16(3, 1, 2), due=u32(13568, 14080, 15872)))
    replayed("the counter wraps between due times", whole, (0, 1, 2),
             ((2560 - 13000) % TURN, (6912 - 13000) % TURN, (10496 - 13000) % TURN), (-13000) % TURN,
             exactly(pack(0), order=u16(1, 3, 2), due=u32(12800, 13056, 14592)))
    for j in range(3):
        stamps = [3840, 8192, 11008]
        stamps[j] = stamps[j - 1] if j else 0
        replayed("the first gap outside is at step %d" % (j + 1), whole, (0, 1, 2), stamps, pinned=pack(9, j + 1))
    tie = Table(3, 0, [(0, 0, 1, 1, 1, 2, 10), (1, 0, 1, 2, 3, 5, 6)])
    replayed("equal due times: the earlier step first", tie, (0, 1), (512, 512 + 1024),
             pinned=exactly(pack(0), order=u16(1, 2), due=u32(3072, 3072)))
    replayed("a due time earlier by 1/256", tie, (0, 1), (512, 512 + 1023),
             pinned=exactly(pack(0), order=u16(2, 1), due=u32(3071, 3072)))
    replayed("a due time later by 1/256", tie, (0, 1), (512, 512 + 1025),
             pinned=exactly(pack(0), order=u16(1, 2), due=u32(3072, 3073)))
    ramp = Table(1, 0, [(0, i, i, 0, 1, 2, 3 * i + 1) for i in range(80)])
    down = [79 - j % 80 for j in range(512)]
    replayed("512 steps with many overtakings", ramp, down, stamps_of([257 + 255 * (j % 2) for j in range(512)]))
    same = Table(1, 0, [(0, i, 5, 0, 1, 2, 200 - i) for i in range(60)])
    replayed("60 steps that are all due at once", same, list(range(60)), stamps_of([512] + [257] * 59))
    replayed("the due times of 60 steps are equal", Table(1, 0, [(0, i, 5, 0, 1, 2, 239 - 2 * i) for i in range(60)]),
             list(range(60)), stamps_of([512] * 60),
             pinned=exactly(pack(0), order=u16(*range(1, 61)), due=u32(*[512 + 239 * 256] * 60)))
    slow = Table(1, 0, [(0, 0, 0, 0, 4094, 4095, 240)])
    replayed("the greatest due time, 536,801,280", slow, [0] * 512, stamps_of([4095 * 256] * 512, 77), 77,
             lambda answer, after: None if u32s(after[4], 512)[-1] == 536801280 else "it is another")
    traced("a steady trace of 512 slow steps", slow, [0] * 512, steady)

    # --- trace verdicts
    chain = Table(5, 0, [(0, 0, 1, 1, 1, 2, 1), (1, 0, 2, 2, 1, 2, 20), (2, 0, 3, 3, 3, 30, 10),
                         (3, 0, 4, 4, 2, 9, 10)])
    traced("the early word takes v before k and after m", chain, (0, 1, 2, 3),
           exactly(pack(TURNING, 2, 3, 4), stamps=u32(512, 1024, 8704, 11008, 512, 1024, 1793, 4097)))
    traced("least k, then least m", Table(1, 0, [(0, 0, 1, 0, 1, 9, 9), (0, 1, 2, 0, 1, 9, 5), (0, 2, 3, 0, 1, 9, 2)]),
           (2, 0, 1, 2), pack(TURNING, 2, 3, 4))
    for name, guard, ds, turns in (("D = U", (2, 3), (9, 7, 5), 0), ("D = U + 1", (2, 3), (10, 8, 5), 1),
                                   ("D = V", (3, 4), (12, 12, 5), 1), ("D = V + 1", (3, 4), (13, 13, 5), 0)):
        three = Table(1, 0, [(0, 0, 1, 0, 2, 3, ds[0]), (0, 1, 2, 0, 2, 3, ds[1]), (0, 2, 3, 0, *guard, ds[2])])
        traced("%s over two steps" % name, three, (0, 1, 2), pack(TURNING, 1, 3, 3) if turns else steady)
    long_pair = Table(1, 0, [(0, 0, 1, 0, 1, 2, 240), (0, 1, 2, 0, 1, 2, 1)])
    for n in (1, 117, 118, 119, 236, 237, 238, 239):
        traced("D = 239 over %d steps of (1,2]" % n, long_pair, [0] * n + [1])
    traced("k is step 1, m is step 121 at the least", long_pair, [0] * 120 + [1], pack(TURNING, 1, 121, 121))
    traced("V = 238 is too little for D = 239", long_pair, [0] * 119 + [1], steady)
    traced("the pair stands at the end of 512 steps", long_pair, [1] * 391 + [0] * 120 + [1], pack(TURNING, 392, 512, 512))
    traced("V = 65,546 with 16 steps of v = 4,095", Table(1, 0, [(0, 0, 1, 0, 1, MAX_V, 200), (0, 1, 2, 0, 1, 26, 100)]),
           [0] * 17 + [1], pack(TURNING, 1, 18, 18))

    # --- table verdicts
    for guard, verdict in (((238, 239), pack(TURNING, 1, 2, 2)), ((239, 240), strict), ((237, 238), strict),
                           ((1, 239), pack(TURNING, 1, 2, 2)), ((238, 4095), pack(TURNING, 1, 2, 2))):
        judged("D = 239, guard (%d,%d]" % guard, Table(3, 0, [(0, 0, 1, 1, 1, 2, 240), (1, 0, 2, 2, *guard, 1)]),
               verdict)
    way = [(s, 0, 0, s + 1, 1, 2, 1) for s in range(31)]
    judged("a witness at the end of 31 steps", Table(32, 0, way + [(31, 0, 1, 0, 1, 2, 240)]))
    judged("a long witness after 31 steps", Table(32, 0, way + [(31, 0, 1, 31, 1, 2, 240), (31, 1, 2, 0, 1, 2, 1)]))
    late_way = [(s, 0, 0, s + 1, 1, 2, 240) for s in range(31)]
    judged("270 steps may be shown",
           Table(32, 0, [(s, 0, 0, s + 1, 1, 2, 1) for s in range(31)] +
                 [(31, 0, 1, 30, 1, 2, 240), (30, 1, 2, 30, 1, 2, 240), (30, 2, 3, 0, 1, 2, 1)]))
    judged("every step of a long way has d = 240",
           Table(32, 0, late_way + [(31, 0, 1, 31, 1, 2, 240), (31, 1, 2, 0, 1, 2, 1)]))
    judged("a split after 31 steps", Table(32, 0, way + [(31, 0, 1, 0, 1, 3, 1), (31, 0, 2, 31, 2, 3, 1)]),
           exactly(pack(SPLIT, 31, 32, 32), trace=u16(*range(32)), stamps=u32(*stamps_of([512] * 31 + [768]))))
    judged("the second transition of a split has the lesser v",
           Table(2, 0, [(0, 0, 1, 0, 1, 9, 1), (0, 0, 2, 1, 3, 5, 1)]),
           exactly(pack(SPLIT, 0, 1, 1), trace=u16(0), stamps=u32(5 * 256)))
    judged("least I, then least J", Table(2, 0, [(1, 0, 1, 1, 1, 9, 1), (0, 0, 1, 0, 1, 3, 1), (0, 0, 1, 0, 5, 9, 1),
                                                 (0, 0, 1, 0, 2, 6, 1), (0, 0, 1, 0, 1, 9, 1)]), pack(SPLIT, 1, 3, 1))
    judged("a split that can't be reached", Table(2, 0, [(1, 0, 1, 1, 1, 9, 1), (1, 0, 2, 1, 1, 9, 1)]), strict)
    judged("turning that can't be reached", Table(3, 2, dead_end), strict)
    judged("k leaves a state that can't be reached", Table(3, 1, [(0, 0, 1, 1, 1, 2, 9), (1, 0, 2, 1, 1, 9, 5)]),
           strict)
    judged("like outputs and arrivals don't excuse a split",
           Table(1, 0, [(0, 0, 1, 0, 1, 4, 9), (0, 0, 1, 0, 3, 5, 9)]), pack(SPLIT, 0, 1, 1))
    judged("transitions that differ in output alone split", Table(1, 0, [(0, 0, 1, 0, 1, 4, 9), (0, 0, 2, 0, 1, 4, 9)]),
           pack(SPLIT, 0, 1, 1))
    judged("split and turning: split",
           Table(2, 0, [(0, 0, 1, 1, 1, 2, 9), (1, 1, 2, 0, 1, 20, 1), (1, 2, 1, 0, 1, 4, 9), (1, 2, 1, 0, 3, 5, 9)]),
           pack(SPLIT, 2, 3, 2))
    judged("unlike inputs don't split", Table(1, 0, [(0, 0, 1, 0, 1, 4, 9), (0, 1, 1, 0, 1, 4, 9)]), strict)
    judged("like inputs in two states don't split", Table(2, 0, [(0, 0, 1, 1, 1, 4, 9), (1, 0, 1, 0, 1, 4, 9)]), strict)
    judged("a loop that turns with itself", Table(1, 0, [(0, 0, 1, 0, 1, 2, 9), (0, 1, 2, 0, 2, 9, 4)]))
    judged("only the walk with greater U turns",
           Table(4, 0, [(0, 0, 1, 1, 1, 2, 30), (1, 0, 2, 2, 1, 2, 30), (1, 1, 3, 2, 9, 20, 30),
                        (2, 0, 4, 3, 1, 2, 15)]),
           exactly(pack(TURNING, 1, 3, 3), trace=u16(0, 2, 3)))
    judged("only the walk with lesser V turns",
           Table(4, 0, [(0, 0, 1, 1, 1, 2, 12), (1, 0, 2, 2, 1, 9, 12), (1, 1, 3, 2, 12, 30, 12),
                        (2, 0, 4, 3, 1, 2, 2)]),
           exactly(pack(TURNING, 1, 3, 3), trace=u16(0, 1, 3)))
    judged("only the middle walk of three turns",
           Table(4, 0, [(0, 0, 1, 1, 1, 2, 30), (1, 0, 2, 2, 1, 2, 30), (1, 1, 3, 2, 9, 20, 30),
                        (1, 2, 4, 2, 25, 60, 30), (2, 0, 5, 3, 1, 2, 15)]),
           exactly(pack(TURNING, 1, 3, 3), trace=u16(0, 2, 4)))
    judged("the lowest number that turns is not the first on the way",
           Table(4, 0, [(2, 0, 1, 3, 3, 4, 5), (1, 0, 2, 2, 1, 2, 9), (0, 0, 3, 1, 1, 2, 20)]),
           exactly(pack(TURNING, 2, 3, 3), trace=u16(2, 1, 0)))
    judged("turning, though steady on whole ticks",
           Table(4, 0, [(0, 0, 1, 1, 1, 3, 9), (1, 0, 2, 2, 1, 3, 8), (2, 0, 3, 3, 1, 3, 6)]),
           exactly(pack(TURNING, 1, 3, 3), trace=u16(0, 1, 2)))
    judged("always overtaken is not turning", Table(3, 0, [(0, 0, 1, 1, 1, 2, 240), (1, 0, 2, 2, 1, 2, 1)]), strict)
    judged("the greatest sums of v",
           Table(2, 0, [(0, 0, 1, 1, 1, 4095, 240), (1, 0, 2, 1, 1, 4095, 240), (1, 1, 3, 0, 1, 4095, 1)]))

    # --- request order
    ordered("the whole case is overtaken 1 3", whole,
            exactly(pack(OVERTAKEN, 1, 3, 3), trace=u16(0, 1, 2), stamps=u32(5120, 8961, 11522)))
    ordered("a table without transitions", Table(1, 0, []), in_order)
    ordered("32 states, no transitions", Table(32, 31, []), in_order)
    ordered("one transition", one, in_order)
    ordered("equal delays everywhere",
            Table(3, 0, [(0, 0, 1, 1, 1, 2, 240), (1, 0, 2, 2, 1, 4095, 240), (2, 0, 3, 0, 1, 9, 240),
                         (2, 1, 4, 2, 1, 2, 240)]), in_order)
    ordered("256 transitions with equal delays", Table(32, 0, many), in_order)
    for difference in (-2, 0, 1, 2, 3, 4, 5, 6, 200):
        ordered("second guard (3,5], D = %d" % difference, two_steps(difference),
                showing((0, 1), 1) if difference > 3 else in_order)
    for guard, taken in (((238, 239), 1), ((238, 4095), 1), ((1, 2), 1), ((239, 240), 0), ((4094, 4095), 0)):
        ordered("D = 239, guard (%d,%d]" % guard, Table(3, 0, [(0, 0, 1, 1, 1, 2, 240), (1, 0, 2, 2, *guard, 1)]),
                showing((0, 1), 1) if taken else in_order)
    ordered("the early word takes v to the first step",
            Table(4, 0, [(0, 0, 1, 1, 3, 9, 1), (1, 0, 2, 2, 2, 5, 30), (2, 0, 3, 3, 1, 7, 20)]),
            exactly(pack(OVERTAKEN, 2, 3, 3), trace=u16(0, 1, 2), stamps=u32(2304, 3584, 3841)))
    for guard, ds, taken in (((2, 3), (9, 9, 5), 0), ((2, 3), (10, 10, 5), 1), ((3, 4), (13, 13, 5), 1)):
        walk = Table(4, 0, [(0, 0, 1, 1, 2, 3, ds[0]), (1, 1, 2, 2, 2, 3, ds[1]), (2, 2, 3, 3, *guard, ds[2])])
        ordered("two steps with the last guard (%d,%d] and D = %d" % (*guard, ds[0] - ds[2]), walk,
                showing((0, 1, 2), 1) if taken else showing((0, 1, 2), 2))
    ordered("overtaken, though never on whole ticks",
            Table(4, 0, [(0, 0, 1, 1, 1, 3, 9), (1, 0, 2, 2, 1, 3, 8), (2, 0, 3, 3, 1, 3, 6)]), showing((0, 1, 2), 1))
    ordered("the end of the loop of 121 steps", LONG_LOOP, by(0, 2))
    ordered("the dead end", DEAD_END, showing((0, 1), 1))
    for initial in (1, 2):
        ordered("the dead end from state %d" % initial, Table(3, initial, dead_end), in_order)
    ordered("like letters count", Table(2, 0, [(0, 5, 9, 1, 1, 2, 9), (1, 5, 9, 1, 1, 7, 2)]))

    # what the table verdict says plays no part
    for name, table, verdict, pinned in (
            ("always reversed", Table(3, 0, [(0, 0, 1, 1, 1, 2, 240), (1, 0, 2, 2, 1, 2, 1)]), strict, showing((0, 1), 1)),
            ("another lowest transition",
             Table(5, 0, [(2, 0, 1, 3, 1, 2, 40), (0, 0, 2, 1, 1, 2, 60), (1, 0, 3, 2, 15, 30, 40), (3, 0, 4, 4, 1, 2, 1)]),
             by(1), showing((1, 2, 0, 3), 3)),
            ("split and in order", Table(1, 0, [(0, 0, 1, 0, 1, 4, 9), (0, 0, 2, 0, 3, 5, 9)]), pack(SPLIT, 0, 1, 1),
             in_order),
            ("split in its output alone, in order", Table(1, 0, [(0, 0, 1, 0, 1, 4, 9), (0, 0, 2, 0, 1, 4, 9)]),
             pack(SPLIT, 0, 1, 1), in_order),
            ("split and overtaken", Table(3, 0, [(0, 0, 1, 1, 1, 4, 9), (0, 0, 2, 2, 3, 5, 20), (2, 0, 3, 2, 1, 2, 9)]),
             pack(SPLIT, 0, 1, 1), by(1, 2)),
            ("split only after the pair",
             Table(3, 0, [(0, 0, 1, 1, 1, 4, 20), (1, 0, 2, 2, 3, 5, 9), (2, 0, 3, 2, 1, 4, 9), (2, 0, 4, 2, 1, 4, 9)]),
             pack(SPLIT, 2, 3, 3), by(0)),
            ("split, the pair being apart from it",
             Table(3, 0, [(0, 0, 1, 1, 1, 2, 9), (0, 0, 2, 1, 1, 2, 9), (0, 1, 3, 2, 1, 2, 30), (2, 0, 4, 2, 1, 2, 9)]),
             pack(SPLIT, 0, 1, 1), by(2, 3))):
        judged("%s: the table verdict" % name, table, verdict)
        ordered(name, table, pinned)

    # which transitions count
    ordered("one that can't be reached is overtaken", Table(3, 1, [(0, 0, 1, 1, 1, 2, 90), (1, 0, 2, 1, 1, 9, 5)]),
            in_order)
    ordered("one that can't be reached, then one that can",
            Table(4, 1, [(0, 0, 1, 1, 1, 2, 90), (1, 0, 2, 2, 1, 9, 9), (2, 0, 3, 3, 1, 2, 5)]), showing((1, 2), 1))
    ordered("a small delay where nothing leads",
            Table(4, 0, [(0, 0, 1, 1, 1, 2, 90), (1, 0, 2, 1, 1, 2, 90), (2, 0, 3, 1, 1, 2, 1), (1, 1, 4, 3, 90, 91, 3)]),
            in_order)
    ordered("a small delay before", Table(3, 0, [(0, 0, 1, 1, 1, 2, 1), (1, 0, 2, 2, 1, 2, 240)]), in_order)
    ordered("a small delay in a side branch", Table(3, 0, [(0, 0, 1, 1, 1, 2, 90), (0, 1, 2, 2, 1, 2, 1)]), in_order)
    ordered("a small delay in a loop before",
            Table(2, 0, [(0, 0, 1, 0, 1, 2, 1), (0, 1, 2, 1, 1, 2, 90), (1, 0, 3, 1, 1, 2, 90)]), in_order)
    ordered("a round leads back to a small delay",
            Table(3, 0, [(0, 0, 1, 1, 1, 2, 1), (1, 0, 2, 2, 1, 2, 90), (2, 0, 3, 0, 80, 90, 90)]))
    ordered("the round is too long by one",
            Table(3, 0, [(0, 0, 1, 1, 1, 2, 1), (1, 0, 2, 2, 1, 2, 90), (2, 0, 3, 0, 88, 90, 2)]), in_order)
    ordered("a loop with a pair in it", Table(1, 0, [(0, 0, 1, 0, 1, 2, 9), (0, 1, 2, 0, 2, 9, 4)]))
    ordered("the initial state is not state 0",
            Table(3, 2, [(0, 0, 1, 1, 1, 2, 9), (2, 0, 2, 0, 4, 5, 3), (1, 0, 3, 1, 3, 4, 4)]), showing((1, 0, 2), 2))

    # the lowest one
    ordered("the next step overtakes a later transition, a longer walk the lowest",
            Table(5, 0, [(1, 0, 1, 2, 1, 2, 50), (2, 0, 2, 3, 6, 7, 60), (3, 0, 3, 4, 7, 8, 36), (0, 0, 4, 1, 1, 2, 1)]),
            showing((3, 0, 1, 2), 2))
    ordered("the lowest is out of reach by one",
            Table(5, 0, [(1, 0, 1, 2, 1, 2, 50), (2, 0, 2, 3, 6, 7, 60), (3, 0, 3, 4, 7, 8, 37), (0, 0, 4, 1, 1, 2, 1)]),
            showing((3, 0, 1, 2), 3))
    ordered("the lowest number is not the first on the way",
            Table(4, 0, [(2, 0, 1, 3, 3, 4, 5), (1, 0, 2, 2, 1, 2, 9), (0, 0, 3, 1, 1, 2, 20)]), showing((2, 1, 0), 2))
    ordered("only the longer walk has the lesser U",
            Table(5, 0, [(0, 0, 1, 1, 1, 2, 30), (1, 0, 2, 2, 20, 21, 30), (1, 1, 3, 3, 2, 90, 30),
                         (3, 0, 4, 2, 3, 90, 30), (2, 0, 5, 4, 10, 11, 10)]), showing((0, 2, 3, 4), 1))
    ordered("only the walk with the greater V has the lesser U",
            Table(4, 0, [(0, 0, 1, 1, 1, 2, 30), (1, 0, 2, 2, 10, 11, 30), (1, 1, 3, 2, 9, 4095, 30),
                         (2, 0, 4, 3, 10, 11, 10)]), showing((0, 2, 3), 1))
    ordered("the pair does not stand at the least delay",
            Table(4, 0, [(0, 0, 1, 1, 1, 2, 30), (1, 0, 2, 2, 29, 30, 1), (1, 1, 3, 3, 9, 10, 20)]), showing((0, 2), 1))

    # as many steps as are ever needed: 31 to the first, and 32 from it through every state
    for text, way, second, last in (("", 1, 1, 32), (" numbered backwards", -1, 2, 1)):
        for u, less in ((1, 33), (7, 225), (1, 32)):
            chain = [(s, 0, 1, s + 1, u, u + 1, 240) for s in range(31)] + [(31, 0, 2, 0, u, u + 1, 240 - less)]
            ordered("32 steps of u = %d, D = %d%s" % (u, less, text),
                    Table(32, 0, [(0, 9, 3, 0, 1, 2, 240)] + chain[::way]), by(0 if less > 32 * u else second, last))
        chain = [(s, 0, 1, s + 1, 1, 2, 240) for s in range(31)]
        far = Table(32, 0, [(31, 0, 2, 0, 1, 2, 240)] + chain[::way] + [(31, 1, 3, 31, 1, 2, 207)])
        ordered("31 steps before the first, 32 after it" + text, far, by(0, 32))
    for us in ([MAX_V - 1] * 16 + [7], [4, 227]):     # 25 less than 65,536 and 256
        rows = [(j, 0, 1, j + 1, u, u + 1, 50) for j, u in enumerate([1] + us)]
        ordered("D = 30, U = %d" % (sum(us) + 40),
                Table(32, 0, rows + [(len(rows), 0, 2, len(rows) + 1, 40, 41, 20)]), in_order)

    # room, and what is refused first
    for what, data in (("in order", write_file(one)), ("overtaken", file), ("split", split_table),
                       ("overtaken after 31 steps", write_file(far))):
        for trace, stamps in ((0, 0), (540, 0), (0, 1080), (538, 1080), (539, 1080), (540, 1076), (540, 1079), (539, 1079),
                              (538, 2160), (1080, 1076), (540, 1080), (541, 1080), (540, 1083), (541, 1081), (600, 2160)):
            add("order: a table that is %s with %d and %d bytes of room" % (what, trace, stamps), ORDER, data,
                rng.randbytes(trace), rng.randbytes(stamps), pinned=None if trace >= 540 and stamps >= 1080 else pack(8))
    add("order: room for more than 270 steps, and a loop before the first", ORDER,
        write_file(Table(2, 0, [(0, 0, 1, 1, 1, 2, 90), (1, 0, 2, 1, 1, 2, 5), (0, 1, 3, 0, 1, 2, 1)])),
        rng.randbytes(1080), rng.randbytes(2160))
    for name, data, number in (("a cut file", file[:60], pack(1, 44)), ("a byte after the end", file + b"\0", pack(2, 66)),
                               ("a number out of range", head + record(2, (0, 7, 8, 2, 4, 4, 5)) + end, pack(4, 8)),
                               ("a repeated transition", head + middle + middle + end, pack(5, 26))):
        for trace, stamps in ((0, 0), (539, 1079), (540, 1080)):
            add("order: %s with %d and %d bytes of room" % (name, trace, stamps), ORDER, data, rng.randbytes(trace),
                rng.randbytes(stamps), pinned=number)

    # --- lengths that don't fit 32 bits
    big = 1 << 32
    add("a file of 2^32 + 66 bytes", REWRITE, Buf(file, big + 66), rng.randbytes(100), pinned=pack(2, 66))
    add("a file of 2^32 + 30 bytes", JUDGE, Buf(file[:30], big + 30), rng.randbytes(540), rng.randbytes(2160))
    three, stamps = u16(0, 1, 2), u32(2560, 6912, 10496)
    for text, more in (("2^32", big), ("2^33", 2 * big)):
        add("a trace of %s + 6 bytes" % text, JUDGE_TRACE, file, Buf(three, more + 6), rng.randbytes(24),
            pinned=pack(6))
    for text, more in (("2^32", big), ("2^34", 4 * big)):
        add("stamps of %s + 12 bytes" % text, REPLAY, file, three, Buf(stamps, more + 12), rng.randbytes(6),
            rng.randbytes(12), pinned=pack(7))
    add("rooms of 2^32 + 1 bytes", JUDGE, file, Buf(rng.randbytes(540), big + 1), Buf(rng.randbytes(2160), big + 1),
        pinned=pack(TURNING, 1, 3, 3))
    add("a room of 2^32 + 1 bytes for a trace verdict", JUDGE_TRACE, file, three, Buf(rng.randbytes(24), big + 1),
        pinned=pack(TURNING, 1, 3, 3))
    add("a room of 2^32 + 1 bytes for a file", REWRITE, file, Buf(rng.randbytes(66), big + 1), pinned=pack(0, 66))
    add("rooms of 2^32 bytes for replay", REPLAY, file, three, stamps, Buf(rng.randbytes(6), big),
        Buf(rng.randbytes(12), big), pinned=pack(0))
    add("order: rooms of 2^32 + 1 bytes", ORDER, file, Buf(rng.randbytes(540), big + 1), Buf(rng.randbytes(1080), big + 1),
        pinned=pack(OVERTAKEN, 1, 3, 3))
    add("order: a file of 2^32 + 66 bytes", ORDER, Buf(file, big + 66), rng.randbytes(540), rng.randbytes(1080),
        pinned=pack(2, 66))
    for more in (words_answered, words_counted, words_lent, words_refused, guard_ends, guard_steps, letters_throughout,
                 letters_of_traces, letters_of_tables, letters_and_limits, letters_elsewhere, letters_of_full_tables, player_starts,
                 player_times, player_inputs, player_outputs, player_damage, player_refused, player_files, player_runs):
        cases += more(rng)
    # what the rules work out and what has a name first
    return sorted(cases, key=lambda c: c.name.startswith(("whole case cut", "whole case with bit")))


# ---------------------------------------------------------------------------------------------------------------------

def describe(case):
    case = case.last if isinstance(case, Run) else case
    lines = ["  call %s, start %d" % (CALLS[case.call], case.start)]
    for name, b in zip(BUFFERS[case.call], case.bufs):
        text = b.data.hex()
        lines.append("  %s: %d bytes %s" % (name, b.length, text if len(text) <= 1400 else text[:1400] + "..."))
    number, table = read_file(case.bufs[0].data, case.bufs[0].length)
    if not number:
        lines.append("  table: %d states, initial %d, transitions (from, input, output, to, u, v, d)" %
                     (table.states, table.initial))
        for i, row in enumerate(table.rows[:40]):
            lines.append("    %d: %s" % (i, row))
        if len(table.rows) > 40:
            lines.append("    ... %d in all" % len(table.rows))
    return "\n".join(lines)


def main():
    parser = argparse.ArgumentParser(description="Tries the calls against what the rules say (docs/RULES.md).")
    parser.add_argument("driver", help="the C driver, linked with what is to be tried")
    parser.add_argument("--cases", type=int, default=12000, help="number of random cases (default 12000)")
    parser.add_argument("--runs", type=int, default=2000, help="number of random runs of the player (default 2000)")
    parser.add_argument("--seed", type=int, default=1, help="seed of the random cases (default 1)")
    parser.add_argument("--only", help="try one case: the number of a random one, 'run' and the number of a random run, or the "
                        "name of a fixed one")
    parser.add_argument("--named", default="", help="of the fixed cases those alone whose names begin so")
    parser.add_argument("--first", action="store_true", help="stop at the first failure")
    parser.add_argument("--no-fixed", action="store_true", help="leave out the fixed cases")
    parser.add_argument("--no-random", action="store_true", help="leave out the random cases")
    parser.add_argument("--quiet", action="store_true", help="print no progress")
    parser.add_argument("--run", default="", help="command that runs the driver, such as an emulator")
    args = parser.parse_args()

    fixed = [] if args.no_fixed else [c for c in fixed_cases() if c.name.startswith(args.named)]
    numbers, runs = ([], []) if args.no_random else (range(args.cases), range(args.runs))
    if args.only is not None:
        fixed = [c for c in fixed_cases() if c.name == args.only]
        numbers = [int(args.only)] if args.only.isdigit() else []
        runs = [int(args.only[4:])] if args.only.startswith("run ") and args.only[4:].isdigit() else []

    if not args.quiet:
        print("seed %d" % args.seed, flush=True)
    driver = Driver(shlex.split(args.run) + [os.path.abspath(args.driver)])
    began = told = time.monotonic()
    passed = failed = skipped = 0
    tally = {}
    total = len(fixed) + len(numbers) + len(runs)

    def all_cases():
        for case in fixed:
            yield case, random.Random("sandgusset %s" % case.name)
        for index in numbers:
            yield random_case(args.seed, index)
        for index in runs:
            yield random_run(args.seed, index)

    def again(case):
        words = case.name.split()
        number = {"random": words[1], "run": "'run %s'" % words[1]}.get(words[0], shlex.quote(case.name))
        return "  again with: --seed %d --only %s" % (args.seed, number)

    for case, rng in all_cases():
        try:
            wrong = (try_run if isinstance(case, Run) else try_case)(driver, case, rng)
        except Disagreement as fault:
            sys.exit("a fault of this program: %s differ\n%s\n%s" % (fault, case.name, again(case)))
        for call, kind in case.kinds:
            tally.setdefault(call, {}).setdefault(kind, 0)
            tally[call][kind] += 1
        if wrong is None:
            passed += 1
        elif wrong == "skipped":
            skipped += 1
            print("skipped, no memory for it: %s" % case.name, flush=True)
        else:
            failed += 1
            if failed <= 5:
                print("FAILED: %s | %s" % (case.name, wrong))
                if not args.quiet:
                    print(describe(case))
                    print(again(case), flush=True)
            if args.first:
                break
        if not args.quiet and time.monotonic() - told > 5:
            told = time.monotonic()
            print("%d of %d cases, %d failed, %.0f s" % (passed + failed + skipped, total, failed, told - began),
                  flush=True)
    driver.close()
    if not args.quiet:
        for call in sorted(tally):
            print("%s: %s" % (CALLS[call], ", ".join("%s %d" % item for item in sorted(tally[call].items()))))
        print("fixed cases: %d; random cases: %d, random runs: %d, seed %d; %.1f s" %
              (len(fixed), len(numbers), len(runs), args.seed, time.monotonic() - began))
    print("%d passed, %d failed" % (passed, failed))
    sys.exit(1 if failed or not passed else 0)


if __name__ == "__main__":
    main()

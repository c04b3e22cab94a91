"""Answers of the proved programs: their lines, their status, their meaning in words. One table of words for all of them."""

from collections import namedtuple

from desk.files import Trouble

# status: of ./judge; fields: numbers a line after the first has; means: in a laboratory engineer's words
Verdict = namedtuple("Verdict", "status fields means")

VERDICTS = {
    "strict": Verdict(0, 0, "no timing of the requests changes the order of responses that can be told apart, and none is answered in "
                            "two ways"),
    "split": Verdict(1, 4, "one timing of the requests is answered in two ways: the table does not say which"),
    "turning": Verdict(1, 4, "under two timings of the same requests, responses that can be told apart come in different orders"),
    "in order": Verdict(0, 0, "however the requests are timed, no step responds before an earlier one"),
    "overtaken": Verdict(1, 3, "a later step can respond before an earlier one"),
    "refused": Verdict(2, 0, "this is no table"),
}
TROUBLE = 3

# What each number of refusal means; 1 to 5 are of a table file, the others of calls that the library has besides.
REFUSALS = {
    1: "a record is cut off, or its length is not that of its kind",
    2: "a record of unknown kind or out of place, or bytes after the end record",
    3: "more than 256 transitions",
    4: "a number outside its range",
    5: "a transition equal to an earlier one",
    6: "the trace is empty, too long, not joined, or names no transition",
    7: "the number of stamps differs from the number of steps, or there are more than 256 words",
    8: "the lent room is too short",
    9: "a gap is early: at most u of its guard",
    10: "no transition is open to this input",
    11: "not now: a response is due first, or none is due",
    12: "a gap is late: more than v of its guard",
    13: "the table is split",
    14: "more than 512 inputs",
    15: "the configuration is damaged, or 241 responses would wait",
}

# The rule behind a refusal of a table file, for --explain.
RULES = {
    1: "A table file is a row of records: two bytes of length, two bytes of kind, then the body. A head has length 6, "
       "a transition 16, the end 2, and every record is whole.",
    2: "A table file has one head (kind 1), then the transitions (kind 2), then one end (kind 3), then nothing.",
    3: "A table has at most 256 transitions.",
    4: "1 to 32 states, the initial one among them; departure and arrival among them; letters 0 to 255; guards (u,v] with "
       "1 <= u < v <= 4095; delays 1 to 240.",
    5: "No two transitions agree in all seven numbers: departure, input, output, arrival, u, v, d.",
}

# apart: of a strict table, if it was asked for, the judge's answer for the table with all output letters told apart
Answer = namedtuple("Answer", "raw word numbers rows apart", defaults=(None,))


def understood(raw):
    """The answer that was printed, taken apart."""
    try:
        first, *lines = raw.decode("ascii").splitlines()
        word = next(word for word in VERDICTS if (first + " ").startswith(word + " "))
        numbers = [int(other) for other in first[len(word):].split() if other != "at"]
        rows = [[int(number) for number in line.split()] for line in lines]
        if any(len(row) != VERDICTS[word].fields for row in rows):
            raise ValueError
    except (ValueError, StopIteration):
        raise Trouble(f"the program printed what no judge prints: {raw[:80]!r}") from None
    return Answer(raw, word, numbers, rows)


def status(answer):
    return VERDICTS[answer.word].status

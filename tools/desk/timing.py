"""What a witness shows: timings with their due times, the pair's D, U and V, the shared part of two guards."""

PARTS = 256  # of a tick, in stamps


def ticks(parts):
    """Parts of a tick as ticks; a + is less than a tick more."""
    return f"{parts // PARTS}{'+' if parts % PARTS else ''}"


class Timing:
    """One word on a trace: when each step arrives and when its response is due, in parts of a tick."""

    def __init__(self, name, steps, stamps):
        self.name, self.arrivals = name, stamps
        self.due = [at + PARTS * step.d for at, step in zip(stamps, steps)]
        # At equal due times the earlier step comes first.
        self.order = [number for _, number in sorted(zip(self.due, range(1, len(steps) + 1)))]

    def opens(self, number, step):
        """Between which times the guard of a step is open."""
        before = self.arrivals[number - 2] if number > 1 else 0
        return before + PARTS * step.u, before + PARTS * step.v


class Pair:
    """An answer that shows a trace with its steps k and m, counted from 1, and timings in the columns after the second."""

    names = ()  # of the timings

    def __init__(self, answer, table):
        self.k, self.m = answer.numbers
        self.trace = [row[1] for row in answer.rows]
        self.steps = [table.transitions[number] for number in self.trace]
        self.timings = [Timing(name, self.steps, [row[column] for row in answer.rows]) for column, name in enumerate(self.names, 2)]
        self.early = self.timings[-1]
        self.first, self.last = self.trace[self.k - 1], self.trace[self.m - 1]
        self.between = self.trace[self.k:self.m]  # steps k+1 to m
        self.like = self.steps[self.k - 1].output == self.steps[self.m - 1].output  # the responses can't be told apart
        self.d = self.steps[self.k - 1].d - self.steps[self.m - 1].d
        self.u = sum(step.u for step in self.steps[self.k:self.m])
        self.v = sum(step.v for step in self.steps[self.k:self.m])


class Turn(Pair):
    """A turning answer: the two steps change places."""

    names = ("late", "early")


class Overtaking(Pair):
    """An overtaken answer: step m responds before step k."""

    names = ("early",)


PAIRS = {"turning": Turn, "overtaken": Overtaking}


class Fork:
    """A split answer: its last step is transition i as well as j."""

    def __init__(self, answer, table):
        self.i, self.j = answer.numbers
        self.trace = [row[1] for row in answer.rows]
        self.steps = [table.transitions[number] for number in self.trace]
        self.timing = Timing("word", self.steps, [row[3] for row in answer.rows])
        self.timings = [self.timing]
        one, two = table.transitions[self.i], table.transitions[self.j]
        self.shared = max(one.u, two.u), min(one.v, two.v)

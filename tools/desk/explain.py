"""Answers in words, for the integrator: lines of his text, names, what makes the answer so."""

from desk import answers, picture, tables
from desk.timing import PAIRS, Fork, Overtaking, Turn, ticks

MOST_LISTED = 12  # lines of a list; the rest is counted


def listed(lines):
    """A list's lines, shortened with a count."""
    if len(lines) <= MOST_LISTED:
        return lines
    half = MOST_LISTED // 2
    return lines[:half] + [f"  .. {len(lines) - MOST_LISTED} more .."] + lines[-half:]


def counted(numbers):
    """Each number once, in order, with how often it stands there."""
    return [(number, numbers.count(number)) for number in dict.fromkeys(numbers)]


def transition_line(source, lead, number):
    return f"  {lead}  {source.where(number)}:  {source.line(number)}"


def of_steps(source, pair):
    """The two steps of a pair, and what lies between them."""
    k, m, u, v = pair.k, pair.m, pair.u, pair.v
    steps = f"step {m}" if m == k + 1 else f"steps {k + 1} to {m}"
    return ["", transition_line(source, f"step {k}", pair.first),
            transition_line(source, f"step {m}", pair.last), "",
            f"  D = {pair.steps[k - 1].d} - {pair.steps[m - 1].d} = {pair.d}: step {m} responds so many ticks quicker than step {k}.",
            f"  U = {u}, V = {v}: its request comes more than {u} and at most {v} ticks later, the sums over {steps}:"
            ] + listed([f"    {source.where(number)}: ({t.u},{t.v}]" + (f", {times} times" if times > 1 else "")
                        for number, times in counted(pair.between) for t in [source.table().transitions[number]]])


def letters(source, pair):
    """The output letter that both steps of a pair have; it may have two names."""
    first, last = source.written(pair.first).output, source.written(pair.last).output
    return f"output {first}" if first == last else f"output {pair.steps[pair.k - 1].output}, by its names {first} and {last}"


def of_turning(source, answer):
    turn = Turn(answer, source.table())
    k, m, d, u, v = turn.k, turn.m, turn.d, turn.u, turn.v
    first, last = source.written(turn.first).output, source.written(turn.last).output
    lines = [f"The responses of steps {k} and {m} change places, though the requests come in one order:"] + of_steps(source, turn)
    lines += [f"  U < D <= V, that is {u} < {d} <= {v}: with less than {d} ticks between the two requests step {m} responds first,",
              f"  output {last}; with {d} ticks or more step {k} does, output {first}.", "",
              f"This pair stops turning if U is at least {d} (now {u}), or if V is below {d} (now {v}). Which of them, and by which",
              "guard or delay, is your choice. Judge again then: another pair may turn."]
    return lines


def of_overtaken(source, answer):
    pair = Overtaking(answer, source.table())
    k, m, d, u, v = pair.k, pair.m, pair.d, pair.u, pair.v
    first, last = source.written(pair.first).output, source.written(pair.last).output
    lines = [f"Step {m} can respond before step {k}, though its request comes later:"] + of_steps(source, pair)
    lines += [f"  U < D, that is {u} < {d}: with less than {d} ticks between the two requests step {m} responds first, output {last}."]
    if d <= v:
        so = "comes in either order" if pair.like else "turns"
        lines += [f"  D <= V, that is {d} <= {v}: with {d} ticks or more step {k} does, output {first}. So this pair {so}."]
    else:
        lines += [f"  D > V, that is {d} > {v}: there are never {d} ticks between. So this pair is always reversed, and does not turn."]
    if pair.like:
        lines += [f"  Both have {letters(source, pair)}. Like letters make no table turn, but in the order of the requests they count."]
    lines += [f"  In the timing shown step {number} has its request at {ticks(pair.early.arrivals[number - 1])} and its response at "
              f"{ticks(pair.early.due[number - 1])} ticks." for number in (k, m)]
    return lines + ["", f"This pair keeps its order if U is at least D: now {u} and {d}. By which guard or delay is your choice. Ask again then:",
                    "another step may be overtaken."]


def of_split(source, answer):
    fork = Fork(answer, source.table())
    low, high = fork.shared
    lines = ["Two transitions of one state answer one request:", "",
             transition_line(source, "first ", fork.i), transition_line(source, "second", fork.j), "",
             f"  Both guards hold the gaps in ({low},{high}]: more than {low} and at most {high} ticks. Guards that only touch are no split.",
             "", "The word that both answer:", ""]
    requests = [f"  step {number}  request {source.written(taken).input} at {ticks(at)} ticks: {source.where(taken)}"
                for number, (taken, at) in enumerate(zip(fork.trace, fork.timing.arrivals), 1)]
    requests[-1] += f", or {source.where(fork.j)}"
    return lines + listed(requests)


def of_like_letters(source, apart):
    """Whether responses change places that can't be told apart; by the judge's answer, if it was asked."""
    if apart is None:
        return []
    if apart.word == "strict":
        return ["Responses with like output letters come in one order too."]
    turn = Turn(apart, source.table())
    k, m, d, u, v = turn.k, turn.m, turn.d, turn.u, turn.v
    lines = ["Responses with like output letters can't be told apart, and may change places: the letters come in one sequence all the same.",
             f"Here some do, such as those of steps {k} and {m} of one trace, both with {letters(source, turn)}:"] + of_steps(source, turn)
    return lines + [f"  U < D <= V, that is {u} < {d} <= {v}: these two come in either order. If their letters differed, the table would turn."]


def of_strict(source, answer):
    """What holds of every timing, and of which transitions."""
    table = source.table()
    lost = tables.unreached(table)
    count = len(table.transitions)
    lines = ["This holds for every timing that the table accepts, to any fraction of a tick, and for traces of any length.",
             f"{count} transition{'' if count == 1 else 's'}, {len(tables.reached_states(table))} of {table.states} "
             f"state{'' if table.states == 1 else 's'} can be reached."]
    if lost:
        lines += ["These transitions can't be reached, and were not judged:"]
        lines += listed([transition_line(source, "", number) for number in lost])
    return lines + of_like_letters(source, answer.apart)


def of_in_order(source, answer):
    return of_strict(source, answer) + ["Every two steps count here, like letters or not; so no two responses turn. A split is another question:",
                                        "./judge without --order answers it."]


def of_refused(source, answer):
    number, offset = answer.numbers
    closer = source.why() or [f"{source.place(offset)}: {answers.REFUSALS[number]}"]
    return closer + ["The rule: " + answers.RULES[number]]


OF = {"strict": of_strict, "split": of_split, "turning": of_turning, "in order": of_in_order, "overtaken": of_overtaken,
      "refused": of_refused}


def heading(answer):
    """The answer in one sentence."""
    return f"{answer.word.capitalize()}: {answers.VERDICTS[answer.word].means}."


def words(source, answer):
    """The answer in words, without a picture."""
    return [heading(answer)] + OF[answer.word](source, answer)


def explained(source, answer):
    """The lines that --explain adds."""
    lines = words(source, answer)
    if answer.word in PAIRS:
        drawn = picture.drawn(PAIRS[answer.word](answer, source.table()))
        lines += [""] + ["  " + line if line else "" for line in drawn]
    return lines

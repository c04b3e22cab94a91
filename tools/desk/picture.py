"""One or two timings as one picture in text: a column for each time, requests above, responses below."""

from desk.timing import ticks

WIDE = 100  # characters; a picture that would be wider leaves steps out


def runs_left_out(steps, shown):
    """The runs of steps that are not shown: (first, how many)."""
    runs = []
    for number in range(1, steps + 1):
        if number not in shown:
            if runs and sum(runs[-1]) == number:
                runs[-1] = runs[-1][0], runs[-1][1] + 1
            else:
                runs.append((number, 1))
    return runs


def events(timing, shown, marked):
    """Two rows of (column, label): requests with the counts of steps left out, and responses. A column is a time, and 1
    for a count, which stands after a request of that time."""
    star = {number: "*" if number in marked else "" for number in shown}
    requests = [((timing.arrivals[n - 1], 0), f"|{n}{star[n]}") for n in sorted(shown)]
    requests += [((timing.arrivals[first - 1], 1), f"..{many}..")
                 for first, many in runs_left_out(len(timing.arrivals), shown)]
    responses = [((timing.due[n - 1], 0), f"({n}){star[n]}") for n in timing.order if n in shown]
    return requests, responses


def grid(timings, shown, marked):
    """The picture's lines, as wide as they come."""
    rows = []
    for timing in timings:
        requests, responses = events(timing, shown, marked)
        rows += [(timing.name, "requests", requests), ("", "responses", responses)]
    columns = sorted({column for _, _, cells in rows for column, _ in cells})
    table = [["ticks", ""] + ["" if count else ticks(time) for time, count in columns]]
    for name, what, cells in rows:
        # Two responses at one time stand in their order.
        table.append([name, what] + ["".join(label for at, label in cells if at == column) for column in columns])
    wide = [max(map(len, column)) for column in zip(*table)]
    return ["  ".join(cell.ljust(width) for cell, width in zip(row, wide)).rstrip() for row in table]


def choices(pair):
    """Which steps are shown: all, or fewer and fewer around the pair."""
    k, m = pair.k, pair.m
    yield set(range(1, m + 1))
    yield set(range(k, m + 1))
    yield {k, k + 1, m - 1, m}
    yield {k, m}


def drawn(pair):
    """The picture of a pair's answer, with its legend."""
    for shown in choices(pair):
        lines = grid(pair.timings, shown, (pair.k, pair.m))
        if max(map(len, lines)) <= WIDE:
            break
    legend = ["|n is the request of step n, (n) its response, * the pair."]
    parts = max(stamp % 256 for stamp in pair.early.arrivals)
    if parts:
        legend.append(f"A + is less than a tick more, here at most {parts}/256: a guard (u,v] asks for more than u ticks.")
    left = pair.m - len(shown)
    if left:
        legend.append(f"{left} of {pair.m} steps are not drawn; ..n.. stands for n of them.")
    return lines + [""] + legend

"""Timings as an SVG time line: a row for each step, its guard a bar, its request a stroke, its response an arrow to its due time."""

import html
import unicodedata
from collections import namedtuple

from desk.timing import PARTS, ticks

WIDE = 960             # of the picture
LEFT, RIGHT = 330, 880  # where the axis begins and ends
LABEL = 38             # characters of a row's label
ROW, TOP, FOOT = 36, 26, 52
MOST_ROWS = 12

# step: its number; kind: first, second (the pair) or plain; label; guard, arrival, due: times in parts of a tick
Row = namedtuple("Row", "label kind guard arrival due")
Gap = namedtuple("Gap", "label start end")  # steps that are left out


def text(x, y, words, anchor="start", kind=""):
    return f'<text x="{x:.1f}" y="{y:.1f}" text-anchor="{anchor}" class="{kind}">{html.escape(words)}</text>'


def cut(words, most):
    """Words cut to a width; a wide character takes two places."""
    taken, used = "", 0
    for letter in words:
        used += 2 if unicodedata.east_asian_width(letter) in "WF" else 1
        if used > most:
            return taken.rstrip() + "…"
        taken += letter
    return words


def axis_step(span):
    """A round number of ticks, so that at most ten marks stand on the axis."""
    step = 1
    while span / (step * PARTS) > 10:
        step = {"1": 2, "2": 5, "5": 10}[str(step)[0]] * 10 ** (len(str(step)) - 1)
    return step * PARTS


class Panel:
    """One timing, between two times."""

    def __init__(self, start, end):
        self.start, self.end = start, max(end, start + PARTS)

    def x(self, time):
        time = min(max(time, self.start), self.end)
        return LEFT + (RIGHT - LEFT) * (time - self.start) / (self.end - self.start)

    def row(self, row, y):
        """The guard above, the request through both halves, the response below. Labels stand outside the arrow, so that none
        meets another."""
        at, due = self.x(row.arrival), self.x(row.due)
        low, high = (self.x(time) for time in row.guard)
        parts = [text(10, y + 22, cut(row.label, LABEL), kind=row.kind),
                 f'<rect class="guard" x="{low:.1f}" y="{y + 4}" width="{max(high - low, 1):.1f}" height="7"/>']
        head = min(7, max(due - at, 3))
        parts += [f'<line class="request {row.kind}" x1="{at:.1f}" y1="{y + 1}" x2="{at:.1f}" y2="{y + 30}"/>',
                  f'<line class="response {row.kind}" x1="{at:.1f}" y1="{y + 22}" x2="{due:.1f}" y2="{y + 22}"/>',
                  f'<path class="head {row.kind}" d="M{due:.1f} {y + 22} l-{head:.1f} -4 v8 z"/>',
                  text(at - 4, y + 27, ticks(row.arrival), "end", row.kind),
                  text(due + 5, y + 27, ticks(row.due), "start", row.kind)]
        return parts

    def gap(self, gap, y):
        return [text(10, y + 22, gap.label, kind="left-out"),
                f'<line class="left-out" x1="{self.x(gap.start):.1f}" y1="{y + 22}" x2="{self.x(gap.end):.1f}" y2="{y + 22}"/>']

    def axis(self, y):
        step = axis_step(self.end - self.start)
        parts = [f'<line class="axis" x1="{LEFT}" y1="{y}" x2="{RIGHT}" y2="{y}"/>', text(10, y + 16, "ticks", kind="axis")]
        for time in range(-(-self.start // step) * step, self.end + 1, step):
            x = self.x(time)
            parts += [f'<line class="axis" x1="{x:.1f}" y1="{y}" x2="{x:.1f}" y2="{y + 4}"/>',
                      text(x, y + 16, str(time // PARTS), "middle", "axis")]
        return parts

    def drawn(self, title, rows, foot):
        """The whole panel as one SVG element."""
        low = TOP + ROW * len(rows)
        parts = [text(10, 16, title, kind="title")]
        for place, row in enumerate(rows):
            y = TOP + ROW * place
            if isinstance(row, Gap):
                parts += self.gap(row, y)
                continue
            if row.kind != "plain":
                parts.append(f'<rect class="shade" x="0" y="{y}" width="{WIDE}" height="{ROW - 3}"/>')
                due = self.x(row.due)
                parts.append(f'<line class="due" x1="{due:.1f}" y1="{TOP}" x2="{due:.1f}" y2="{low}"/>')
            parts += self.row(row, y)
        parts += self.axis(low + 2)
        parts.append(text(10, low + 38, cut(foot, 130), kind="foot"))
        high = low + FOOT
        return (f'<svg viewBox="0 0 {WIDE} {high}" width="{WIDE}" height="{high}" role="img" '
                f'aria-label="{html.escape(title, quote=True)}">\n' + "\n".join(parts) + "\n</svg>")


# ---- Turning, overtaken ----

def shown_steps(first, last):
    """Runs of steps to show, with None where some are left out."""
    if last - first < MOST_ROWS:
        return list(range(first, last + 1))
    return list(range(first, first + 3)) + [None] + list(range(last - 2, last + 1))


def step_label(source, number, transition):
    def named(word, letter):
        return f"{word} {letter}" if letter.isdigit() else letter

    written = source.written(transition)
    whole = f"{number}: {named('input', written.input)} → {named('output', written.output)}"
    if cut(whole, LABEL - 3) == whole:
        return whole
    return f"{number}: {cut(written.input, 14)} → {cut(written.output, 14)}"


def pair_rows(source, pair, timing, first):
    rows, shown = [], shown_steps(first, pair.m)
    for place, number in enumerate(shown):
        if number is None:
            before, after = shown[place - 1], shown[place + 1]
            rows.append(Gap(f".. {after - before - 1} steps ..", timing.arrivals[before], timing.arrivals[after - 2]))
            continue
        kind = {pair.k: "first", pair.m: "second"}.get(number, "plain")
        mark = "◆ " if kind != "plain" else ""
        rows.append(Row(mark + step_label(source, number, pair.trace[number - 1]), kind,
                        timing.opens(number, pair.steps[number - 1]), timing.arrivals[number - 1], timing.due[number - 1]))
    return rows


def in_order(numbers, marked):
    """Response order in words; a long one around the pair alone."""
    if len(numbers) > MOST_ROWS:
        first, second = sorted(marked, key=numbers.index)
        return f"step {first} responds before step {second}"
    return "responses in the order of steps " + ", ".join(map(str, numbers))


def of_pair(source, pair):
    """The timings, from the step before the pair's first; on one scale if that leaves both readable."""
    request = pair.early.arrivals[pair.k - 1]  # up to step k two timings are alike
    ends = [max(timing.due[pair.k - 1:]) for timing in pair.timings]
    earlier = pair.early.arrivals[pair.k - 2] if pair.k > 1 else 0
    shared = max(ends) - request <= 4 * (min(ends) - request)
    panels = []
    for timing, end in zip(pair.timings, ends):
        end = max(ends) if shared else end
        start = max(earlier, request - (end - request) // 3)
        first = pair.k - 1 if pair.k > 1 and start == earlier else pair.k
        before = f" from step {first} on" + ("; up to there both are alike" if len(ends) > 1 else "") if first > 1 else ""
        title = f"{timing.name} timing{before}" + ("" if shared else " (on a scale of its own)")
        panels.append(Panel(start, end).drawn(title, pair_rows(source, pair, timing, first),
                                              f"{timing.name} timing: " + in_order(timing.order, (pair.k, pair.m))))
    return panels


# ---- Split ----

def of_split(source, fork):
    """The word, with both transitions of its last step."""
    timing, last = fork.timing, len(fork.trace)
    numbers = list(range(max(1, last - MOST_ROWS + 2), last))
    rows = [Row(step_label(source, n, fork.trace[n - 1]), "plain", timing.opens(n, fork.steps[n - 1]),
                timing.arrivals[n - 1], timing.due[n - 1]) for n in numbers]
    for kind, number in (("first", fork.i), ("second", fork.j)):
        t = source.table().transitions[number]
        rows.append(Row("◆ " + step_label(source, last, number), kind, timing.opens(last, t),
                        timing.arrivals[-1], timing.arrivals[-1] + PARTS * t.d))
    start = timing.arrivals[numbers[0] - 2] if numbers and numbers[0] > 1 else 0
    end = max(max(row.due for row in rows), max(row.guard[1] for row in rows[-2:]))
    low, high = fork.shared
    title = "the word" + (f" from step {numbers[0]} on" if numbers and numbers[0] > 1 else "")
    return [Panel(start, end).drawn(title, rows, f"both guards of step {last} are open in ({low},{high}] after the request before")]

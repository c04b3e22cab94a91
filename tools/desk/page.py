"""One page with the answer: words, time lines, the table with the trace marked, the widths if they were asked for."""

import html

from desk import drawing, explain, tables, widths
from desk.timing import PAIRS, Fork

MARK = '<meta name="generator" content="sandgusset judge --page">'

STYLE = """
body { font: 15px/1.45 system-ui, sans-serif; color: #111; background: #fff; max-width: 60rem; margin: 2rem auto; padding: 0 1rem }
h1 { font-size: 1.5rem; margin-bottom: .2rem } h2 { font-size: 1.1rem; margin-top: 2rem }
h1, p, pre, td { overflow-wrap: anywhere } pre { white-space: pre-wrap; font: 13px/1.45 ui-monospace, monospace }
svg { max-width: 100%; height: auto; display: block; margin: .6rem 0 1.2rem }
svg text { font: 12px system-ui, sans-serif; fill: #222 } svg text.title { font-weight: bold } svg text.foot { font-style: italic }
svg text.first, svg text.second { font-weight: bold } svg text.first { fill: #a1001a } svg text.second { fill: #00479e }
.guard { fill: #ddd; stroke: #777; stroke-width: .8 } .shade { fill: #f4f4f4 } line.axis { stroke: #444; stroke-width: 1 }
.request { stroke: #444; stroke-width: 1.6 } .response { stroke: #666; stroke-width: 1.2 } .head { fill: #666 }
line.first { stroke: #a1001a } line.second { stroke: #00479e } .head.first { fill: #a1001a } .head.second { fill: #00479e }
line.first, line.second { stroke-width: 2.6 } line.response.second { stroke-dasharray: 7 3 }
.due { stroke: #999; stroke-width: 1; stroke-dasharray: 2 3 } line.left-out { stroke: #999; stroke-width: 3; stroke-dasharray: 2 5 }
table { border-collapse: collapse; font-size: 13px } th, td { text-align: left; padding: .15rem .6rem; border-bottom: 1px solid #ddd }
th, td.whole { white-space: nowrap } td.number, th.number { text-align: right }
tr.trace td { font-weight: bold } tr.pair td { background: #f0f0f0; font-weight: bold }
tr.lost td { color: #777; font-style: italic }
@media print { body { margin: 0; max-width: none; font-size: 10pt } tr, svg { break-inside: avoid } }
"""

LEGEND = ("A row is a step: its request (stroke), the time in which its guard is open (bar), its response (arrow to the due time). "
          "◆ marks the pair: the first step's arrow is unbroken, the second's dashed. Times are in ticks; a + is less than a tick more. "
          "What lies outside the axis is cut off at its ends.")


def element(name, content, kind=""):
    return f'<{name}{f" class={chr(34)}{kind}{chr(34)}" if kind else ""}>{html.escape(content)}</{name}>'


# ---- The table ----

def marks(witness):
    """For each transition of the trace, which steps it is; and the pair."""
    steps = {}
    for number, transition in enumerate(witness.trace, 1):
        steps.setdefault(transition, []).append(number)
    if not isinstance(witness, Fork):
        return steps, {witness.first, witness.last}
    steps.setdefault(witness.j, []).append(len(witness.trace))
    return steps, {witness.i, witness.j}


def runs(numbers):
    """Step numbers in words, a long run by its ends."""
    if len(numbers) > 6:
        return f"{numbers[0]}, {numbers[1]} .. {numbers[-1]} ({len(numbers)} times)"
    return ", ".join(map(str, numbers))


def table_rows(source, witness, wide):
    table = source.table()
    steps, pair = marks(witness) if witness else ({}, set())
    lost = set(tables.unreached(table))
    ends = {width.transition: width for width in wide or []}
    for number, t in enumerate(table.transitions):
        written = source.written(number)
        note = "can't be reached" if number in lost else "◆ " * (number in pair) + runs(steps.get(number, []))
        cells = [("number", str(number)), ("number", str(source.text.lines[number]) if source.text else ""),
                 ("", f"{written.departure} → {written.arrival}"), ("", written.input), ("", written.output),
                 ("whole", f"({t.u},{t.v}]"), ("number", str(t.d)), ("", note)]
        if wide is not None:
            width = ends.get(number)
            cells += [("number", str(width.low.value) if width else ""), ("number", str(width.high.value) if width else "")]
        kind = "pair" if number in pair else "trace" if number in steps else "lost" if number in lost else ""
        yield f'<tr class="{kind}">' + "".join(element("td", content, sort) for sort, content in cells) + "</tr>"


def table_part(source, witness, wide):
    heads = ["", "line", "states", "input", "output", "guard", "delay", "steps of the trace" if witness else ""]
    heads += ["least u", "greatest v"] if wide is not None else []
    table = source.table()
    parts = [element("h2", "The table"), element("p", f"{table.states} states, initial state {table.initial}.")]
    parts.append("<table><tr>" + "".join(element("th", head) for head in heads) + "</tr>")
    return parts + list(table_rows(source, witness, wide)) + ["</table>"]


def widths_part(source, wide):
    parts = [element("h2", "How far each guard may be widened, each end alone")]
    lines = [line for width in wide for line in widths.explained(source, width)]
    return parts + [element("pre", "\n".join(lines))]


# ---- The whole ----

WITNESS = {"split": (Fork, drawing.of_split), **{word: (made, drawing.of_pair) for word, made in PAIRS.items()}}


def parts_of(source, answer, wide):
    if answer is None:
        return [element("h1", "Refused"), element("p", "This text is no table."), element("pre", "\n".join(source.told()))]
    heading, *words = explain.words(source, answer)
    parts = [element("h1", heading), element("pre", "\n".join(words))]
    if answer.word == "refused":
        return parts
    witness = None
    if answer.word in WITNESS:
        made, draw = WITNESS[answer.word]
        witness = made(answer, source.table())
        parts += [element("h2", "Time line"), element("p", LEGEND)] + draw(source, witness)
    parts += table_part(source, witness, wide)
    if wide is not None:
        parts += widths_part(source, wide)
    return parts


def written(source, answer, wide):
    """The page's bytes."""
    word = answer.raw.decode("ascii").split("\n")[0] if answer else "refused"
    title = f"{word}: {source.name}"
    return "\n".join(["<!DOCTYPE html>", '<html lang="en"><head><meta charset="utf-8">', MARK,
                      '<meta name="viewport" content="width=device-width">', element("title", title),
                      f"<style>{STYLE}</style></head><body>", element("p", source.name)]
                     + parts_of(source, answer, wide) + ["</body></html>", ""]).encode("utf-8", "replace")


def is_page(path):
    """Was this file written here? Such a one may be written over."""
    with open(path, "rb") as file:
        return MARK.encode("ascii") in file.read(400)

"""Judges a table: prints 'strict', 'split I J', 'turning K M' or 'refused N at P', with the steps to play.

    ./judge [OPTIONS] [FILE]

FILE is a table in text (tools/table --help shows the form) or a table file; - or no FILE is standard input.
Standard output has the program's lines and nothing else, unless an option asks for more. Strict and turning speak of
responses that can be told apart, those whose output letters differ: like letters may change places.

    --order          another question: does the table keep the order of its requests? Like letters count here. Prints 'in
                     order', 'overtaken K M' (step M can respond before step K; lines of step, transition, stamp) or
                     'refused N at P'
    --explain        then the answer in words: lines, names, what makes it so, the timings as a picture
    --widths         of a strict table: lines of transition, least lower bound, greatest upper bound, each alone, with
                     which the table stays strict; with --explain what stops each there
    --page OUT.html  besides, one page with all of this, to look at or to print
    -h, --help       this text

A text is UTF-8 without control characters, and its first word begins a line of a text; anything else is judged as a
table file. What is wrong with a text is told on standard error, by line. The program is proved and built first if it is
missing or its sources have changed; standard error says how far it is.

Status: 0 strict, or in order; 1 split or turning, or overtaken; 2 refused: no table; 3 trouble: a wrong call, no such
file, a read error, a failed write, not built.
"""

import os
import sys

if sys.version_info < (3, 9):
    sys.stderr.write("judge: Python 3.9 or later is needed\n")
    sys.exit(3)
sys.dont_write_bytecode = True
sys.path.insert(0, os.path.dirname(os.path.dirname(os.path.realpath(__file__))))

from desk import answers, calls, explain, files, page, program, sources, tables, widths  # noqa: E402


def judged(source, judge):
    """The program's answer on a source."""
    answer = answers.understood(judge.answer(source.data))
    if source.faults and answer.word != "refused":
        raise files.Trouble(f"{source.name}: has faults that the program doesn't see; this is a fault of tools/desk")
    return answer


def with_like_letters(source, answer, judge):
    """A strict answer with what the judge says if all letters are told apart: then only like letters can be what turns."""
    apart = answers.understood(judge.answer(tables.write_file(tables.told_apart(source.table()))))
    if apart.word not in ("strict", "turning"):
        raise files.Trouble(f"{source.name}: other letters made it {apart.word}; this is a fault of tools/desk")
    return answer._replace(apart=apart)


def serve(call, path):
    """Judges what stands there; the status."""
    if call.page is not None:
        files.check_target(call.page, [path], page.is_page)  # before the long part
    source = sources.take(path)
    if source.data is None:
        for line in source.told():
            files.say(line)
        put_page(call, path, source, None, None)
        return answers.VERDICTS["refused"].status
    judge = program.Program("order" if call.order else "judge")
    judge.ready()
    answer = judged(source, judge)
    if answer.word == "strict" and (call.explain or call.page is not None):
        answer = with_like_letters(source, answer, judge)
    wide = widths.found(judge, source.table()) if call.widths and answer.word == "strict" else None
    files.put_out(printed(call, source, answer, wide))
    if answer.word == "refused":
        for line in source.refused(*answer.numbers):
            files.say(line)
    elif call.widths and wide is None:
        files.say(f"{source.name}: the table must be strict first, before its guards can be widened")
    put_page(call, path, source, answer, wide)
    return answers.status(answer)


def put_page(call, path, source, answer, wide):
    """Writes the page, if one is asked for; over an earlier page, and over nothing else."""
    if call.page is not None:
        files.store(call.page, page.written(source, answer, wide), [path], page.is_page)


def printed(call, source, answer, wide):
    """What goes to standard output."""
    if wide is None:
        words = [""] + explain.explained(source, answer) if call.explain else []
        return answer.raw + lines_of(words)
    if call.explain:
        return lines_of([line for width in wide for line in widths.explained(source, width)])
    return lines_of([widths.line(width) for width in wide])


def lines_of(lines):
    """A file's name may hold bytes that are no UTF-8."""
    return "".join(line + "\n" for line in lines).encode("utf-8", "surrogateescape")


def main(arguments):
    files.hold_standard()
    script = calls.Script(__doc__, answers.TROUBLE, flags=("order", "explain", "widths"), valued=("page",))
    try:
        call = script.taken(arguments, 0, 1)
        if call.order and call.widths:
            script.wrong("--widths: how far a table stays strict; it does not go with --order, which asks for something else")
        return serve(call, call.words[0] if call.words else "-")
    except files.Trouble as trouble:
        files.say(f"judge: {trouble}")
        return answers.TROUBLE
    except KeyboardInterrupt:
        return answers.TROUBLE


if __name__ == "__main__":
    sys.exit(main(sys.argv[1:]))

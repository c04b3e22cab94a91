"""Plays moves on a table as a bench does: what waits, what is issued and when, move by move.

    ./play TABLE

TABLE is a table in text (tools/table --help shows the form) or a table file. The moves come on standard input, one to a
line; what follows # is left out:

    time N           N of 1/256 tick pass, at most up to the next response that falls due
    input LETTER     a request comes: a letter's number, or its name where the table is a text
    output           the response that is due is issued; of several the lowest step's
    run              time passes and responses are issued until none waits

Each is answered at once by a line on standard output: the time since the start in 1/256 tick and the state, what was
taken or issued, and what waits, each with its step, letter and time left. A move that can't be made is answered by
'refused N', with the line and why, and changes nothing. What is no move is told on standard error, by line.

The moves are made by the proved player; names, times since the start and these lines are added by this script. At most a
million moves are played in one call. The program is proved and built first if it is missing or its sources have changed.

    -h, --help       this text

Status: 0 every line was played; 1 some were refused or are no moves; 2 refused: no table, or one that is split;
3 trouble: a wrong call, no such file, a read error, a failed write, not built.
"""

import os
import sys

if sys.version_info < (3, 9):
    sys.stderr.write("play: Python 3.9 or later is needed\n")
    sys.exit(3)
sys.dont_write_bytecode = True
sys.path.insert(0, os.path.dirname(os.path.dirname(os.path.realpath(__file__))))

from desk import answers, bench, calls, files, moves, program, sources  # noqa: E402

NO_TABLE = answers.VERDICTS["refused"].status


def serve(path):
    """Plays the moves on what stands there; the status."""
    if path == "-":
        raise files.Trouble("the moves come on standard input, so the table must be a file")
    source = sources.take(path)
    if source.data is None:
        return refused(source.told())
    if sys.stdin is None:
        raise files.Trouble("standard input, where the moves are read, is closed or a directory")
    player = program.Program("play", who="play")
    player.ready()
    with bench.Bench(player, source.data) as played:
        if played.no_table:
            return refused(source.refused(*played.no_table))
        if played.number:
            return refused([f"{source.name}: refused {played.number}: {moves.no_start(played.number)}"])
        return moves.Player(source, played).all(sys.stdin.buffer)


def refused(lines):
    for line in lines:
        files.say(line)
    return NO_TABLE


def main(arguments):
    files.hold_standard()
    script = calls.Script(__doc__, answers.TROUBLE)
    try:
        return serve(script.taken(arguments, 1, 1).words[0])
    except files.Trouble as trouble:
        files.say(f"play: {trouble}")
        return answers.TROUBLE
    except KeyboardInterrupt:
        return answers.TROUBLE


if __name__ == "__main__":
    sys.exit(main(sys.argv[1:]))

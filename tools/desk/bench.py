"""The proved player at work: a program that is handed a table file and then moves, and answers each by a line."""

import struct
import subprocess
from collections import namedtuple

from desk.files import Trouble

TIME, INPUT, OUTPUT = 0, 1, 2
Waiting = namedtuple("Waiting", "step letter left")


class Bench:
    """What the program said last: `number` of the refusal, or 0; `told` by a move that was made; the configuration after it."""

    def __init__(self, player, data):
        self.now = 0          # since the start, in 1/256 tick
        self.no_table = None  # number and place, where the file is refused
        self.number = 0
        self.told = (0, 0)    # an input's transition, or an output's step and letter
        self.state = self.timer = self.inputs = 0
        self.waiting = []
        try:
            self.process = subprocess.Popen(player.command(), stdin=subprocess.PIPE, stdout=subprocess.PIPE)
        except OSError as error:
            raise Trouble(f"the program can't be run: {error}") from None
        self.ask(struct.pack("<H", len(data)) + data)

    def __enter__(self):
        return self

    def __exit__(self, kind, *_):
        status = self.ended()
        if status and kind is None:
            raise Trouble(f"the program ended with status {status}")

    def ended(self):
        """Has the program end, if it has not; its status."""
        self.process.stdout.close()
        try:
            self.process.stdin.close()
        except OSError:
            pass
        return self.process.wait()

    def ask(self, data):
        """Hands over bytes and understands the line that answers them."""
        try:
            self.process.stdin.write(data)
            self.process.stdin.flush()
            raw = self.process.stdout.readline()
        except OSError:
            raw = b""
        if not raw.endswith(b"\n"):
            status = self.ended()
            raise Trouble(f"the program ended with status {status}" if status else
                          "the program has ended: it plays at most a million moves")
        try:
            self.understand(raw.decode("ascii"))
        except (ValueError, IndexError):
            raise Trouble(f"the program printed what no player prints: {raw[:80]!r}") from None

    def understand(self, line):
        said, *rest = line.split(" waits ")
        said, state, numbers = said.partition(" state ")
        word, *told = said.split()
        if not state:
            self.no_table = int(told[0]), int(told[2])
            return
        self.number = 0 if word == "done" else int(told[0])
        self.told = (int(told[0]), int(told[1])) if word == "done" else (0, 0)
        self.state, self.timer, self.inputs = map(int, numbers.split())
        self.waiting = [Waiting(*map(int, part.split())) for part in rest]

    def move(self, kind, number=0):
        """One move; whether it was made."""
        self.ask(struct.pack("<BI", kind, number))
        if kind == TIME and not self.number:
            self.now += number
        return not self.number

    def least(self):
        """The time to the next response that falls due, or None."""
        return min((one.left for one in self.waiting), default=None)

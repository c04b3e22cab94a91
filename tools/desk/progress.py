"""A progress bar on standard error, for work that takes longer than a second."""

import sys
import time

from desk import files

WIDE = 40


class Bar:
    """On a terminal one line that is drawn anew; elsewhere a line for each tenth."""

    def __init__(self, name, whole, clock=time.monotonic):
        self.name, self.whole, self.clock = name, whole, clock
        self.start = clock()
        self.done = self.told = 0
        self.drawn = False
        self.terminal = sys.stderr is not None and sys.stderr.isatty()

    def step(self):
        self.done += 1
        if self.clock() - self.start > 1:
            self.draw()

    def draw(self):
        part = self.done * WIDE // self.whole
        line = f"{self.name} [{'#' * part}{'.' * (WIDE - part)}] {self.done} of {self.whole}"
        if self.terminal:
            sys.stderr.write("\r" + line)
            sys.stderr.flush()
        elif self.done * 10 // self.whole > self.told:
            self.told = self.done * 10 // self.whole
            files.say(line)
        self.drawn = True

    def end(self):
        if self.drawn and self.terminal:
            sys.stderr.write("\r\x1b[K")
            sys.stderr.flush()

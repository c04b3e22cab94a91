"""The proved program: proving and building it where that is needed, and running it on a table file."""

import fcntl
import os
import platform
import re
import shutil
import subprocess
import sys
import time

from desk import files
from desk.files import Trouble

ROOT = os.path.dirname(os.path.dirname(os.path.dirname(os.path.realpath(__file__))))
PARTS = ("src", "specs", "proofs")  # of a crate, what a program is proved and built from
BEGUN = re.compile(r"rt: chose --jobs \d+ for (\w+)")


def needed_crates(root, name):
    """A program's crate and all that it rests on, by crates.txt, each after those that it rests on, as rt proves them; the
    toolchain's own crates are not listed there."""
    rests = {}
    with open(os.path.join(root, "crates.txt"), encoding="utf-8") as file:
        for line in file:
            crate, colon, others = line.split("#", 1)[0].partition(":")
            if colon and crate.split():
                rests[crate.split()[0]] = others.split()  # words may stand behind the name, such as staticlib
    found, met = [], set()

    def take(crate):
        if crate in rests and crate not in met:
            met.add(crate)
            for other in rests[crate]:
                take(other)
            found.append(crate)

    take(name)
    return found


class Program:
    """A program of the repository, by the name of its crate; who: the script that tells how far its building is."""

    def __init__(self, name="judge", root=ROOT, who="judge"):
        self.name, self.root, self.who = name, root, who
        self.crate = os.path.join(root, "crates", name)
        self.binary = os.path.join(self.crate, "out", name)
        self.target = os.path.join(root, "target")
        self.record = os.path.join(self.target, name + ".built")  # the toolchain and the sources as they were when it was built
        self.begun = os.path.join(self.target, name + ".begun")  # the same as they are before the gate

    # ---- Building ----

    def ready(self):
        """Builds what is missing or old; from a checkout that may not be written a program that is not old is run as it is."""
        if self.is_untouched():
            return
        try:
            os.makedirs(self.target, exist_ok=True)
            with open(os.path.join(self.target, "judge.lock"), "w", encoding="ascii") as lock:
                self.wait_for(lock)
                self.build()
        except OSError as error:
            if self.is_old():
                raise Trouble(f"the program must be built, and that can't be done here: {error}") from None

    @staticmethod
    def wait_for(lock):
        """One build at a time."""
        try:
            fcntl.flock(lock, fcntl.LOCK_EX | fcntl.LOCK_NB)
        except BlockingIOError:
            fcntl.flock(lock, fcntl.LOCK_EX)

    def sources(self):
        """Every file and folder that it is made from."""
        places = [os.path.join(self.root, "crates.txt")]
        for crate in needed_crates(self.root, self.name):
            for part in PARTS:
                for folder, _, names in os.walk(os.path.join(self.root, "crates", crate, part)):
                    places += [folder] + [os.path.join(folder, name) for name in names]
        return sorted(places)

    def is_old(self):
        """Is it missing, or has a source changed since it was built?"""
        try:
            built = os.stat(self.binary).st_mtime_ns
            return any(os.stat(place).st_mtime_ns > built for place in self.sources())
        except OSError:
            return True

    def seen(self):
        """The toolchain, and each source as the file system has it: nobody can set a file's time of change."""
        with open(os.path.join(toolchain_home(), "KIT-ID"), encoding="utf-8") as file:
            lines = [file.read()]
        for place in self.sources() + [os.path.realpath(toolchain_command())]:
            state = os.stat(place)
            lines.append(f"{place} {state.st_dev} {state.st_ino} {state.st_size} {state.st_ctime_ns}\n")
        return "".join(lines)

    def is_untouched(self):
        """Was it built here, by this toolchain, from just these files?"""
        return self.is_as_in(self.record) and os.path.exists(self.binary)

    def is_as_in(self, note):
        """Are the toolchain and the sources as that note has them?"""
        try:
            with open(note, encoding="utf-8", errors="surrogateescape") as file:
                return file.read() == self.seen()
        except OSError:
            return False

    @staticmethod
    def write(note, seen):
        with open(note, "w", encoding="utf-8", errors="surrogateescape") as file:
            file.write(seen)

    def build(self):
        """Calls rt, which knows by content what has changed, and tells how far it is."""
        seen = self.seen()  # before rt reads them: what is touched meanwhile differs from it
        if self.is_old():
            files.say(f"{self.who}: building what is missing or has changed; from nothing this takes minutes")
        crates = needed_crates(self.root, self.name)
        said, proving, since = [], None, 0
        # It runs the program too, here on empty input.
        with subprocess.Popen([toolchain_command(), "run"], cwd=self.crate, stdin=subprocess.DEVNULL,
                              stdout=subprocess.PIPE, stderr=subprocess.STDOUT) as process:
            for raw in process.stdout:
                said.append(raw.decode("utf-8", "replace").rstrip("\n"))
                begun = BEGUN.match(said[-1])
                if begun and begun.group(1) in crates:
                    proving, since = begun.group(1), time.monotonic()
                elif proving and said[-1].startswith("logic=proved "):
                    took = round(time.monotonic() - since)
                    files.say(f"{self.who}: {crates.index(proving) + 1} of {len(crates)}: {proving} proved ({took} s)")
                    said, proving = [], None
        if process.returncode or not os.path.exists(self.binary):
            raise Trouble("\n".join(said + [f"{self.who}: the program was not built"]))
        os.utime(self.binary)
        self.write(self.record, seen)

    # ---- The gate: rt ci proves and builds the programs too, and leaves them where rt run does ----

    def before_gate(self):
        os.makedirs(self.target, exist_ok=True)
        self.write(self.begun, self.seen())

    def after_gate(self):
        """The gate has passed: it built the program from what was there before, if that is still there."""
        if self.is_as_in(self.begun) and os.path.exists(self.binary):
            os.replace(self.begun, self.record)

    # ---- Running ----

    def command(self):
        """The program is for x86-64 and is run with the toolchain's loader and C library; elsewhere under Debian's emulator."""
        tools = os.path.join(toolchain_home(), "toolchain", "lib")
        words = [os.path.join(tools, "ld-linux-x86-64.so.2"), "--library-path", tools, self.binary]
        return words if platform.machine() in ("x86_64", "amd64") else ["qemu-x86_64"] + words

    def answer(self, data):
        """What it prints for a file; of a read error or a failed write it says so itself, on standard error."""
        try:
            ended = subprocess.run(self.command(), input=data, stdout=subprocess.PIPE, check=False)
        except OSError as error:
            raise Trouble(f"the program can't be run: {error}") from None
        if ended.returncode:
            raise Trouble(f"the program ended with status {ended.returncode}")
        return ended.stdout


def toolchain_command():
    command = shutil.which("rt")
    if command is None:
        raise Trouble("the Rattle toolchain is needed: no command 'rt' on the PATH")
    return command


def toolchain_home():
    home = os.environ.get("RATTLE_HOME")
    return home or os.path.dirname(os.path.dirname(os.path.realpath(toolchain_command())))


if __name__ == "__main__":
    # NAME: the words with which the program itself is run, for tests that feed it directly. --before NAME.. and --after NAME..:
    # for ./test, right before the gate and once it has passed, so that no program is proved a second time.
    gate = {"--before": Program.before_gate, "--after": Program.after_gate}.get((sys.argv[1:] or [""])[0])
    if gate:
        for each in sys.argv[2:]:
            gate(Program(each))
    else:
        print("\n".join(Program(*sys.argv[1:]).command()))

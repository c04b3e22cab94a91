"""Input and output of the desk: standard streams that may be closed, what is a text, files that are not written over."""

import codecs
import os
import re
import stat
import sys
import tempfile
from collections import namedtuple

from desk import texts

ENOUGH = 8192         # bytes of a table file: what comes later can't change the answer
MOST_TEXT = 64 << 20  # bytes of a text
CONTROL = re.compile(r"[\x00-\x08\x0b\x0c\x0e-\x1f\x7f-\x9f]")
FIRST_LINE = re.compile(r"(?:^|(?<=\r))[^\S\r\n]*([^\s#][^\r\n]*)", re.MULTILINE)  # that is not all comment

C1_AS_LETTERS = dict.fromkeys(range(0x80, 0xA0), "x")  # bytes of UTF-8 read as Latin-1 look like control characters

# data: what the program is handed; text: the whole text, or None; hint: why it is none, where that is not plain
Given = namedtuple("Given", "name data text hint")


class Trouble(Exception):
    """There is no answer; why, in words."""


def hold_standard():
    """Opens what is closed of the standard streams, so that no other file comes to stand there. Python has seen that it was."""
    for number in (0, 1, 2):
        try:
            os.fstat(number)
        except OSError:
            os.open(os.devnull, os.O_RDWR)


def say(words):
    """A line on standard error, if there is one that can be written."""
    if sys.stderr is not None:
        try:
            print(words, file=sys.stderr, flush=True)
        except OSError:
            sys.stderr = None


def put_out(data):
    """Bytes to standard output, all at once."""
    if sys.stdout is None:
        raise Trouble("standard output is closed")
    try:
        sys.stdout.flush()
        sys.stdout.buffer.write(data)
        sys.stdout.buffer.flush()
    except OSError as error:
        # What is left in the buffer would be tried again at the end, and fail again.
        os.dup2(os.open(os.devnull, os.O_WRONLY), 1)
        raise Trouble(f"standard output: {error.strerror}") from None


# ---- Reading ----

def shown(path):
    return "standard input" if path == "-" else path or "''"


def open_input(path):
    """A descriptor to read from; - is standard input."""
    if path == "-":
        if sys.stdin is None:
            raise Trouble("standard input is closed or a directory")
        return 0
    try:
        number = os.open(path, os.O_RDONLY | os.O_CLOEXEC)
    except FileNotFoundError:
        raise Trouble(f"{shown(path)}: there is no such file") from None
    except PermissionError:
        raise Trouble(f"{path}: may not be read") from None
    except (OSError, ValueError) as error:
        raise as_trouble(path, error) from None
    if stat.S_ISDIR(os.fstat(number).st_mode):
        raise Trouble(f"{path}: a directory is no table")
    return number


def read_some(number, most, name):
    """So many bytes, or all that there are."""
    parts, left = [], most
    while left:
        try:
            part = os.read(number, left)
        except OSError as error:
            raise Trouble(f"{name}: can't be read: {error.strerror}") from None
        if not part:
            break
        parts.append(part)
        left -= len(part)
    return b"".join(parts)


def load(path):
    """All bytes of a file or of standard input."""
    number = open_input(path)
    data = read_some(number, MOST_TEXT + 1, shown(path))
    if len(data) > MOST_TEXT:
        raise Trouble(f"{shown(path)}: more than {MOST_TEXT >> 20} MiB")
    return data


def first_word(text):
    """The first word outside comments, or None; and whether it can't go on in what follows this part of a text."""
    found = FIRST_LINE.search(text)
    if found is None:
        return None, False
    words = texts.Line(1, found.group(1)).words
    return words[0], len(words) > 1 or found.end() < len(text)


class NoText(Exception):
    """Why bytes are no text."""


def checked(decoder, data, last):
    """Decodes a part of what may be a text."""
    try:
        part = decoder.decode(data, last)
    except UnicodeDecodeError:
        raise NoText("it is not UTF-8") from None
    found = CONTROL.search(part)
    if found:
        raise NoText(f"it has a control character ({found.group()!r})")
    return part


def check_first(word):
    if word is None:
        raise NoText("it has no word outside comments")
    if not texts.begins_text(word):
        raise NoText(f"its first word is {texts.quoted(word)}; a text begins with 'states', 'letter', 'input', 'output', "
                     "'state' or a state's number")


def take_text(start, number, name):
    """The text that begins with these bytes, the rest being read; NoText if it is none."""
    decoder = codecs.getincrementaldecoder("utf-8")()
    parts = [checked(decoder, start, len(start) < ENOUGH).lstrip("\ufeff")]
    word, whole = first_word(parts[0])
    if whole:
        check_first(word)
    read, more = len(start), len(start) == ENOUGH
    while more:
        more = read_some(number, 1 << 20, name)
        parts.append(checked(decoder, more, not more))
        read += len(more)
        if read > MOST_TEXT:
            raise Trouble(f"{name}: more than {MOST_TEXT >> 20} MiB of text")
    text = "".join(parts)
    check_first(first_word(text)[0])
    return text


def take(path):
    """What the judge is given: a text or the first bytes of anything else."""
    name = shown(path)
    number = open_input(path)
    start = read_some(number, ENOUGH, name)
    try:
        return Given(name, start, take_text(start, number, name), None)
    except NoText as none:
        return Given(name, start, None, none.args[0] if looks_like_text(start) else None)


def looks_like_text(start):
    """Would somebody who wrote this take it for a text?"""
    plain = start.decode("latin-1")
    word = first_word(plain)[0]
    return word is not None and (texts.begins_text(word) or not CONTROL.search(plain.translate(C1_AS_LETTERS)))


# ---- Writing ----

def same_file(path, other):
    try:
        return os.path.samefile(path, other)
    except (OSError, ValueError):
        return False


def write_over(path, data):
    """Writes a regular file at once: what stood there is lost only when the new one is whole."""
    folder = os.path.dirname(os.path.realpath(path))
    number, temporary = tempfile.mkstemp(dir=folder, prefix=".desk-")
    try:
        with os.fdopen(number, "wb") as file:
            file.write(data)
        mask = os.umask(0)
        os.umask(mask)
        os.chmod(temporary, stat.S_IMODE(os.stat(path).st_mode) if os.path.exists(path) else 0o666 & ~mask)
        os.replace(temporary, os.path.realpath(path))
    except BaseException:
        os.unlink(temporary)
        raise


def is_special(path):
    """Something that exists and is no regular file: it may be written to."""
    return os.path.exists(path) and not os.path.isfile(path)


def as_trouble(path, error):
    return Trouble(f"{shown(path)}: {getattr(error, 'strerror', None) or error}")


def check_target(path, sources, may_replace):
    """A file is never written over a source, and over another regular file only if that may be replaced."""
    if any(source != "-" and same_file(path, source) for source in sources):
        raise Trouble(f"{path}: is read from, and is not written over")
    try:
        if os.path.isfile(path) and not may_replace(path):
            raise Trouble(f"{path}: exists, and is not written over")
    except (OSError, ValueError) as error:
        raise as_trouble(path, error) from None


def store(path, data, sources, may_replace):
    """Writes a file, if it may be written."""
    check_target(path, sources, may_replace)
    try:
        if is_special(path):
            with open(path, "wb") as file:
                file.write(data)
        else:
            write_over(path, data)
    except (OSError, ValueError) as error:
        raise as_trouble(path, error) from None

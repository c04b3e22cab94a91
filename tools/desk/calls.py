"""Command lines: a script's own text is its help, and a wrong call has the script's own status."""

import sys
from types import SimpleNamespace

from desk import files


class Script:
    """flags: options without a value; valued: options with one. The second paragraph of the help shows the call."""

    def __init__(self, help_text, wrong_call, flags=(), valued=()):
        self.help_text, self.wrong_call, self.flags, self.valued = help_text, wrong_call, flags, valued

    def wrong(self, message):
        files.say("\n".join([message, "usage:", self.help_text.split("\n\n")[1]]))
        sys.exit(self.wrong_call)

    def taken(self, arguments, least, most):
        """The options by their names, and so many other words; options may stand anywhere before --."""
        call = SimpleNamespace(words=[], **dict.fromkeys(self.flags, False), **dict.fromkeys(self.valued))
        todo = list(arguments)
        while todo:
            word = todo.pop(0)
            name, equals, value = word[2:].partition("=")
            if word in ("-h", "--help"):
                files.put_out(self.help_text.encode("utf-8"))
                sys.exit(0)
            if word == "--":
                call.words += todo
                break
            if not word.startswith("-") or word == "-":
                call.words.append(word)
            elif word[:2] == "--" and name in self.flags and not equals:
                setattr(call, name, True)
            elif word[:2] == "--" and name in self.valued:
                if not equals and not todo:
                    self.wrong(f"{word}: a value must follow")
                setattr(call, name, value if equals else todo.pop(0))
            else:
                self.wrong(f"{word}: there is no such option")
        if not least <= len(call.words) <= most:
            self.wrong("too few words" if len(call.words) < least else f"too many words: {call.words[most]}")
        return call

"""What is judged: a text or a table file, and how its transitions are named to the reader."""

from desk import answers, files, tables, texts


class Source:
    """A table in either form. `data` is its file, or None: a text that no file can say."""

    def __init__(self, given):
        self.name, self.hint = given.name, given.hint
        self.text = None if given.text is None else texts.Text(given.text)
        if self.text is None:
            self.data = given.data
        else:
            table = self.text.table()
            self.data = None if table is None else tables.write_file(table)
        self.kept = None  # the table, once it was asked for

    @property
    def faults(self):
        return self.text.faults if self.text else []

    def told(self):
        return self.text.told(self.name) if self.text else []

    def place(self, offset):
        """Where a refused record stands."""
        return f"{self.name}:{self.text.line_at(offset)}" if self.text else f"{self.name}: at byte {offset}"

    def refused(self, number, offset):
        """A refusal's words, and for a text the lines."""
        lines = self.told() + [f"{self.place(offset)}: refused {number}: {answers.REFUSALS[number]}"]
        if self.hint:
            lines.append(f"{self.name}: taken for a table file, not for a text: {self.hint}")
        return lines

    def why(self):
        """Why the file is refused, closer than its number says."""
        if self.text:
            return self.told()
        try:
            tables.read_file(self.data)
            return []
        except tables.Refused as refused:
            return [f"{self.place(refused.args[1])}: {refused.args[2]}"]

    def table(self):
        """The table, once the program has not refused it."""
        if self.kept is None:
            self.kept = self.text.table() if self.text else tables.read_file(self.data)
        return self.kept

    def written(self, number):
        """A transition's states and letters, as the text has them."""
        return self.text.written[number] if self.text else texts.written_by(texts.Names(), self.table().transitions[number])

    def line(self, number):
        """A transition as a line of a text."""
        return texts.one_line(self.written(number), self.table().transitions[number])

    def where(self, number):
        return f"transition {number}" + (f", line {self.text.lines[number]}" if self.text else "")


def take(path):
    return Source(files.take(path))

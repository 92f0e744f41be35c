"""The lines of log sheets and flip logs: a word and so many numbers of one to six digits, parted by single tabs."""
import re

from .faults import COUNT, counted, quoted


class Line:
    """A line that begins with this word and has so many numbers behind it: its form, as far as it goes where it is cut, and in words."""

    def __init__(self, word: bytes, count: int):
        self.word, self.count = word, count
        self.form = re.compile(rb"%b(?:\t%b){%d}" % (word, COUNT, count))
        self.cut = re.compile(rb"%b(?:\t%b){0,%d}\t?" % (word, COUNT, count))
        self.ordered = f"{word.decode()} and {count} numbers, parted by tabs"

    def text(self, numbers) -> str:
        return "\t".join([self.word.decode(), *map(str, numbers)]) + "\n"

    def numbers(self, line: bytes) -> list[int]:
        """The numbers of a line in its form."""
        return [int(field) for field in line.split(b"\t")[1:]]

    def wrong(self, line: bytes) -> str | None:
        """What is wrong with the first field that is; None for a line in its form."""
        first, *fields = line.split(b"\t")
        if first != self.word:
            return f"not {self.ordered}"
        if len(fields) != self.count:
            return f"{counted(len(fields), 'number')} and not {self.count}"
        at = next((at for at, field in enumerate(fields) if not re.fullmatch(COUNT, field)), None)
        return None if at is None else f"number {at + 1} is {quoted(fields[at])}, and not one to six digits without a needless zero in front"

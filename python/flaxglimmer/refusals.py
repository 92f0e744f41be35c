"""What can go wrong, by kind: the library's refusals with their numbers, files that cannot be read, wrong usage, and faults of our own."""
from __future__ import annotations

from dataclasses import dataclass

from .header import LIMITS as most
from .header import MOST_SUM


class LibraryMissing(ImportError):
    """The library is not there, or is of another version."""


class OurFault(RuntimeError):
    """What must not happen: places and number disagree, a log that does not grow back."""


class UsageFault(ValueError):
    """What was asked cannot be meant: no unit, a limit that is no figure and unit."""


class FileFault(ValueError):
    """A file that cannot be turned into rows and corners, with the line where that shows if there is one. The library was asked nothing."""

    def __init__(self, text: str, line: int | None = None):
        self.line = line
        super().__init__(text if line is None else f"line {line}: {text}")


@dataclass(frozen=True)
class Fault:
    """One place that makes a refusal true. `at` is a corner's place in the file's unit, where one is told."""

    text: str
    rows: tuple[int, ...] = ()
    corners: tuple[int, ...] = ()
    at: tuple[float, ...] | None = None


@dataclass(frozen=True)
class LineFault(Fault):
    """A line that makes a refusal true: its number, from 1, and the byte at which it begins, from 0."""

    line: int = 1
    byte: int = 0


def meaning(number: int) -> str:
    """What a refusal number says: 01's words or 02's, then what they come to."""
    return {
        1: "limit unusable: below zero, not finite, or above 200,000 cm",
        2: f"counts outside limits: {most.LEAST_ROWS} to {most.MOST_ROWS:,} rows, {most.LEAST_CORNERS} to {most.MOST_CORNERS:,} corners",
        3: "lent room short",
        4: f"a coordinate out of range: -{most.MOST_COORDINATE:,} to {most.MOST_COORDINATE:,} cm",
        5: "a corner number not below the count",
        6: "a number twice in a row",
        7: "a directed edge twice: two rows turn the same way along it",
        8: "a reverse missing: an edge has no row on its other side, so the skin is not closed",
        9: "a corner unused: no row has it",
        10: "more than one ring round a corner",
        11: "not connected: the skin is in parts that do not meet",
        12: f"sheet not in its form, or over {most.MOST_SHEET_BYTES:,} bytes",
        13: "a record does not grow back or replay",
        20: f"entries outside limits: 1 to {most.MOST_ENTRIES} of a job",
        21: "a kind that is neither V nor S: V is a void, S a solid",
        22: "a name that is no earlier entry's: the first names none, and only the first",
        23: "kinds that do not alternate: a void in a void, or a solid in a solid",
        24: f"nesting too deep: over {most.MOST_DEPTH}, the first at 1",
        25: f"a sum out of range: beyond {MOST_SUM:,} either way",
        30: "a listed edge that is missing: no row has it",
        31: "a listed edge whose opposite corners are neighbours already: the flip would double the edge between them",
        32: "a flip's record that is not undone",
    }.get(number, f"refusal {number}, which has no words here")


class Refused(ValueError):
    """The library said no. `number` is the refusal; `records` and `rows` are, for 13, how many records were done and the stage that they led to, and
    `log` those records, where a cut log sheet had them; for 30 and 31 how many flips were done, the rows and their log, and for 32 how many were undone
    and the rows; `faults` are the places, where they were looked for, `hint` what to do about them and `meaning` what it says, where these are not the
    number's own, and `notes` what was done to the file before."""

    def __init__(self, number: int, records: int = 0, rows=None, faults: tuple[Fault, ...] = ()):
        self.number, self.records, self.rows, self.faults, self.notes = int(number), int(records), rows, tuple(faults), []
        self.log = None
        self.meaning, self.hint = meaning(self.number), None
        super().__init__(self.number)

    def __str__(self) -> str:
        return f"refused, {self.number}: {self.meaning}"

"""A skin, as a file or arrays gave it, and a thinned one, also where its thinning was taken up from a cut log."""
from __future__ import annotations

from dataclasses import dataclass, field

import numpy as np

from . import calls, logs
from .faults import Finder, counted, shown
from .lent import Shift
from .lengths import FEET, order, told
from .refusals import OurFault, Refused

READ_IN = "the file is read in "  # before the feet of a file


@dataclass
class Skin:
    """Rows and corners as the library takes them; and where they come from, so that a fault can be found in the file again."""

    rows: np.ndarray  # (n, 3) uint32
    corners: np.ndarray  # (m, 3) int32, whole centimetres
    unit: str = "cm"  # of the file
    points: np.ndarray | None = None  # the coordinates as they stand in the file
    file_rows: np.ndarray | None = None  # each row's number in the file
    name: str = ""
    digest: str = ""
    origin: tuple = (0, 0, 0)  # whole metres
    move: str = "0.000"  # the largest by rounding, in centimetres
    single: bool = False  # whether the file's numbers have 32 bits
    notes: list = field(default_factory=list)
    warnings: list = field(default_factory=list)

    def finder(self) -> Finder:
        return Finder(self.rows, self.corners, self.points, self.unit, self.file_rows, self.single)

    def check(self) -> None:
        """Raises Refused, with its places, unless this is a skin."""
        number = calls.check(self.rows, self.corners)
        if number:
            raise self.placed(Refused(number))

    def placed(self, refused: Refused, limit=None) -> Refused:
        """The refusal of this skin with its places, and with what was done to the file."""
        refused.faults, refused.notes = self.finder().find(refused.number, limit), self.told()
        return refused

    def told(self) -> list:
        feet = [READ_IN + FEET[self.unit]] if self.unit in FEET else []
        return [f"warning: {warning}" for warning in self.warnings] + feet + self.notes

    def volume(self) -> int:
        return calls.volume(self.rows, self.corners)


@dataclass
class Thinned:
    """A skin, its last stage and the log between them, under a limit in whole centimetres or None."""

    skin: Skin
    rows: np.ndarray
    log: np.ndarray
    limit: int | None
    typed: str

    def under(self) -> str:
        """The limit as it was typed, where in feet with which feet they are, and as it was read."""
        return "no limit" if self.limit is None else f"limit {told(self.typed)} = {self.limit:,} cm"

    def volumes(self) -> tuple[int, int]:
        return self.skin.volume(), calls.volume(self.rows, self.skin.corners)

    def change(self) -> int:
        return calls.change(self.skin.rows, self.rows, self.skin.corners)

    def shift(self, corner: int) -> Shift:
        return calls.shift(corner, self.skin.corners, self.log)

    def farthest(self) -> tuple[int, Shift] | None:
        """The corner whose stand-in is farthest from it, the lowest of such; None where no corner was removed."""
        shifts = [(corner, self.shift(corner)) for corner in sorted(set(self.log[:, 1].tolist()))]
        return max(shifts, key=lambda one: (one[1].squared, -one[0]), default=None)

    def grow_back(self) -> np.ndarray:
        return calls.grow_back(self.rows, len(self.skin.corners), self.log)

    def hold(self) -> None:
        """The log leads from one stage to the other, both ways, number for number."""
        there = calls.replay(self.skin.rows, len(self.skin.corners), self.log)
        if not (np.array_equal(self.grow_back(), self.skin.rows) and np.array_equal(there, self.rows)):
            raise OurFault("the log does not lead from the scanned rows to the thinned ones and back")

    def log_sheet(self) -> bytes:
        """The log as a log sheet, with the counts of the skin that was thinned."""
        return calls.write_log_sheet(len(self.skin.corners), len(self.skin.rows), self.log)

    def report(self, path, length: str | None = None, mean_at_least: str | None = None) -> None:
        """Writes the report: one HTML file."""
        from . import report

        with open(path, "w", encoding="utf-8", newline="\n") as out:
            out.write(report.page(self, length, mean_at_least))


@dataclass
class Recovered(Thinned):
    """A thinned skin whose log was taken up from a cut log sheet of this name: how many records were kept, the unfinished line that was dropped, and
    whether rows and log are those of an unbroken run under the limit."""

    name: str
    kept: int
    dropped: bytes
    unbroken: bool

    @property
    def added(self) -> int:
        return len(self.log) - self.kept

    def line(self) -> str:
        """What became of the cut sheet."""
        return f"{self.name}: {counted(self.kept, 'record')} kept, {self.added:,} added; {logs.dropped(self.dropped)}"

    def claimed(self) -> str:
        """What the order says of the whole log, or of the records added alone."""
        if self.unbroken:
            return "rows and log are those of an unbroken run under this order"
        added = f"for the {counted(self.added, 'record')} added alone" if self.added else "for none of its records"
        if self.limit is None:  # coordinates do not matter then
            return f"{self.name} was begun under another order: the least edge is claimed {added}"
        afresh = f", stand-ins and counts started afresh after the {self.kept:,} kept" if self.added else ""
        return f"{self.name} was begun under another order or over other coordinates: least edge, limit and shift bound are claimed {added}{afresh}"


def thin(skin: Skin, limit, plain: bool = False) -> Thinned:
    """Thins a skin under a limit: 'none', or a figure and its unit as '0.8 m'; by the plain engine where it is asked for. Refused has the places."""
    try:
        rows, log = calls.thin(skin.rows, skin.corners, limit, plain)
    except Refused as refused:
        raise skin.placed(refused, limit)
    return Thinned(skin, rows, log, *_limit(limit))


def _limit(limit) -> tuple[int | None, str]:
    """A limit in whole centimetres, and as it was typed."""
    typed = limit if isinstance(limit, str) else "none" if limit is None else f"{limit[1]} {limit[0]}"
    return calls.limit(limit) if order(limit)[0] else None, typed.strip()


def recover(skin: Skin, sheet: bytes, limit, path="the log sheet") -> Recovered:
    """Takes the thinning of a skin up from its log sheet, cut after any byte, under a limit as for `thin`. Refused has the places, in skin or sheet."""
    try:
        rows, log, kept = calls.recover(skin.rows, skin.corners, sheet, limit)
    except Refused as refused:
        if refused.number in (12, 13) or refused.number == 2 and not any(skin.finder().counts()):
            fault, refused.hint = logs.in_cut(refused, sheet, path, skin.name or "the skin", (len(skin.corners), len(skin.rows)))
            refused.faults, refused.notes = (fault,), skin.told()
            raise
        raise skin.placed(refused, limit)
    return Recovered(skin, rows, log, *_limit(limit), shown(path), kept, logs.parted(sheet)[1], _unbroken(skin, log, kept, limit))


def _unbroken(skin: Skin, log, kept: int, limit) -> bool:
    """Whether the records kept are the first of a run under this limit, which then has to be the whole log."""
    _, run = calls.thin(skin.rows, skin.corners, limit)
    begun = np.array_equal(log[:kept], run[:kept])
    if begun and not np.array_equal(log, run):
        raise OurFault("the log was begun as a run under this order, and does not go on as that run does")
    return begun

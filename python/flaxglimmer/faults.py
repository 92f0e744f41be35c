"""Where a refusal lies. The number is the library's; a finder is asked for that number and no other, and tells the places that make it true."""
from __future__ import annotations

import re
from collections import defaultdict
from pathlib import Path

import numpy as np

from .header import LIMITS
from .lengths import which
from .refusals import Fault, OurFault

SOME = 8  # most rows that one line names

HINTS = {
    1: "give a limit from 0 to 2,000 m, or none",
    2: f"thin the scan to at most {LIMITS.MOST_ROWS:,} triangles first (MeshLab: Quadric Edge Collapse Decimation), or cut it into closed lengths",
    3: "lend more room: the header says how much a call needs",
    4: "is the unit right? Else move the origin near the shaft: --origin X,Y,Z in whole metres, or --origin auto",
    5: "rows name points that the file does not have: write it again with the tool that made it",
    6: "--drop-flat leaves out rows that have one corner twice (MeshLab: Remove Zero Area Faces)",
    7: "turn the rows one way: MeshLab 'Re-Orient all faces coherently', or admesh -d; where three rows meet in an edge, MeshLab 'Repair non Manifold Edges'",
    8: "close the holes: MeshLab 'Close Holes', or admesh -f; corners repeated instead of shared are joined by --weld equal",
    9: "leave the corner out of the sheet, or give it rows",
    10: "parts of the skin touch in this corner alone: MeshLab 'Repair non Manifold Vertices by splitting'",
    11: "keep one part: CloudCompare 'Label connected components', or MeshLab 'Remove Isolated pieces'",
    12: "`./run --help` has the form of a sheet; `flaxglimmer sheet` writes one from a scan",
    13: "scan and log do not belong together, or one of them was changed",
    20: "a job has one skin at least; of too many take an inner part as a job of its own, and tell both nets",
    21: "write V for a void and S for a solid",
    22: "an entry names the one that it stands in by its number, from 0 in the order of the lines; that one stands before it, and the first has -",
    23: "a solid stands in a void and a void in a solid: is it the right number, and the right letter?",
    24: "is it the right number? Else take an inner part as a job of its own",
    25: "no skin has so large a sum: `flaxglimmer job --make` takes the sums from the skins",
    30: "an edge is two corners of a row, by their numbers from 0 in the order of the sheet that `flaxglimmer sheet` writes; flips before it may have turned it",
    31: "leave it out, or first flip the edge that these two corners have; flips before it may have given them one",
    32: "is FILE the skin that the flips left, as `flip --sheet` wrote it, and LOG their whole flip log?",
}


def printable(text: str) -> str:
    """A text with nothing in it that a terminal would act on."""
    return "".join(letter if letter.isprintable() else "?" for letter in text)


def shown(path) -> str:
    """A file's name, without its folder."""
    return printable(Path(path).name)


def quoted(line: bytes) -> str:
    """The beginning of a line, with nothing in it that a terminal would act on."""
    return repr(line[:60].decode("ascii", "replace"))


def counted(count: int, what: str) -> str:
    return f"{count:,} {what}{'' if count == 1 else 's'}"


def _listed(numbers) -> str:
    return ", ".join(map(str, numbers[:SOME])) + (f" and {len(numbers) - SOME} more" if len(numbers) > SOME else "")


def unusable(limit) -> Fault:
    """The place of refusal 1."""
    return Fault(f"the limit {limit!r}{which(limit)}")


class Finder:
    """The places of faults in a table. Rows are told by their numbers in the file, corners with their place in the file's unit."""

    def __init__(self, rows, corners, points=None, unit: str = "cm", file_rows=None, single: bool = False):
        self.rows = np.asarray(rows, np.int64).reshape(-1, 3)
        self.corners = np.asarray(corners, np.int64).reshape(-1, 3)
        self.points = self.corners if points is None else points
        self.unit, self.kind = unit, np.float32 if single else (lambda value: value)
        self.names = (np.arange(len(self.rows)) if file_rows is None else file_rows).tolist()

    def find(self, number: int, limit=None) -> tuple[Fault, ...]:
        """The places of this refusal, one at least: that there is none would be our fault."""
        finders = {2: self.counts, 4: self.ranges, 5: self.past, 6: self.twice, 7: self.edges_twice, 8: self.holes, 9: self.unused, 10: self.rings, 11: self.parts}
        if number == 1:
            return (unusable(limit),)
        found = tuple(finders[number]()) if number in finders else ()
        if not found:
            raise OurFault(f"the library refuses by {number}, and no place of it is found")
        return found

    def at(self, corner: int) -> tuple[float, ...] | None:
        return tuple(self.points[corner].tolist()) if 0 <= corner < len(self.points) else None

    def corner(self, corner: int) -> str:
        """A corner with its place."""
        at = self.at(corner)
        return f"corner {corner}" if at is None else f"corner {corner} at ({', '.join(str(self.kind(value)) for value in at)}) {self.unit}"

    def fault(self, text: str, rows=(), corners=()) -> Fault:
        return Fault(text, tuple(self.names[row] for row in rows), tuple(corners), self.at(corners[0]) if corners else None)

    def counts(self):
        rows, corners = len(self.rows), len(self.corners)
        few = rows < LIMITS.LEAST_ROWS or corners < LIMITS.LEAST_CORNERS
        if few or rows > LIMITS.MOST_ROWS or corners > LIMITS.MOST_CORNERS:
            why = "; so few enclose nothing: is it the whole scan?" if few else "; no row shares a corner, and --weld equal joins equal points" if corners == 3 * rows else ""
            yield Fault(f"{rows:,} rows and {corners:,} corners{why}")

    def ranges(self):
        for corner in np.flatnonzero((np.abs(self.corners) > LIMITS.MOST_COORDINATE).any(1)).tolist():
            yield self.fault(f"{self.corner(corner)}: ({', '.join(f'{value:,}' for value in self.corners[corner])}) cm", corners=[corner])

    def past(self):
        for row in np.flatnonzero((self.rows >= len(self.corners)).any(1)).tolist():
            numbers = self.rows[row].tolist()
            beyond = [number for number in numbers if number >= len(self.corners)]
            yield self.fault(f"row {self.names[row]} has corner {_listed(beyond)}, and there are {len(self.corners)} corners, counted from 0", [row], beyond)

    def twice(self):
        a, b, c = self.rows.T
        for row in np.flatnonzero((a == b) | (b == c) | (c == a)).tolist():
            numbers = self.rows[row].tolist()
            corner = next(number for number in numbers if numbers.count(number) > 1)
            yield self.fault(f"row {self.names[row]} has {self.corner(corner)} {('twice', 'three times')[numbers.count(corner) - 2]}", [row], [corner])

    def directed(self) -> dict:
        """The rows of each directed edge."""
        rows = defaultdict(list)
        for row, (a, b, c) in enumerate(self.rows.tolist()):
            for edge in ((a, b), (b, c), (c, a)):
                rows[edge].append(row)
        return rows

    def edges_twice(self):
        for (a, b), rows in self.directed().items():
            if len(rows) > 1:
                names = _listed([self.names[row] for row in rows])
                yield self.fault(f"rows {names} go from {self.corner(a)} to {self.corner(b)}", rows, [a, b])

    def holes(self):
        """Edges without a reverse, gathered to holes: one line a hole."""
        edges = self.directed()
        bare = {edge: rows[0] for edge, rows in edges.items() if edge[::-1] not in edges}
        for part in _parts(bare):
            rows = sorted({row for edge, row in bare.items() if edge[0] in part})
            count = sum(edge[0] in part for edge in bare)
            corner = min(part)
            named = _listed([self.names[row] for row in rows])
            text = f"a hole of {count} edge{'s' * (count > 1)} beside row{'s' * (len(rows) > 1)} {named}; {self.corner(corner)}"
            yield self.fault(text, rows, [corner, *sorted(part - {corner})])

    def unused(self):
        for corner in np.setdiff1d(np.arange(len(self.corners)), self.rows).tolist():
            yield self.fault(f"{self.corner(corner)} is in no row", corners=[corner])

    def rings(self):
        follows = defaultdict(dict)
        for a, b, c in self.rows.tolist():
            for corner, before, after in ((a, b, c), (b, c, a), (c, a, b)):
                follows[corner][before] = after
        for corner in sorted(follows):
            ring, count = follows[corner], 0
            while ring:
                count += 1
                neighbour = next(iter(ring))
                while neighbour in ring:
                    neighbour = ring.pop(neighbour)
            if count > 1:
                rows = np.flatnonzero((self.rows == corner).any(1)).tolist()
                yield self.fault(f"{self.corner(corner)} has {count} rings, beside rows {_listed([self.names[row] for row in rows])}", rows, [corner])

    def parts(self):
        parts = _parts(edge for a, b, c in self.rows.tolist() for edge in ((a, b), (b, c)))
        if len(parts) > 1:
            for part in parts:
                rows = [row for row, numbers in enumerate(self.rows.tolist()) if numbers[0] in part]
                yield self.fault(f"a part of {len(rows)} rows, from row {self.names[rows[0]]}; {self.corner(min(part))}", rows, [min(part)])


def _parts(edges) -> list[set]:
    """The corners of edges, gathered to parts that edges hold together; by their least corners."""
    near = defaultdict(set)
    for a, b in edges:
        near[a].add(b)
        near[b].add(a)
    parts, left = [], set(near)
    for corner in sorted(near):
        if corner in left:
            part, ahead = set(), [corner]
            while ahead:
                one = ahead.pop()
                if one not in part:
                    part.add(one)
                    ahead.extend(near[one] - part)
            left -= part
            parts.append(part)
    return parts


# Sheets

COUNT, COORDINATE = rb"(?:0|[1-9]\d{0,5})", rb"(?:0|-?[1-9]\d{0,5})"
FIRST = re.compile(rb"SKIN\t(%b)\t(%b)" % (COUNT, COUNT))
LINES = {b"C": re.compile(rb"C\t(%b)\t(%b)\t(%b)" % ((COORDINATE,) * 3)), b"R": re.compile(rb"R\t(%b)\t(%b)\t(%b)" % ((COUNT,) * 3))}


def in_sheet(sheet: bytes, number: int) -> tuple[Fault, ...]:
    """The places of a sheet's refusal; rows and corners are numbered from 0, as on the sheet."""
    lines = sheet.split(b"\n")
    first = FIRST.fullmatch(lines[0])
    if number == 12:
        return (Fault(_form(sheet, lines, first)),)
    corners, rows = map(int, first.groups())
    if number == 2:
        return (Fault(f"line 1: {rows:,} rows and {corners:,} corners"),)
    numbers = [[int(field) for field in line.split(b"\t")[1:]] for line in lines[1:-1]]
    return Finder(numbers[corners:], numbers[:corners]).find(number)


def _form(sheet: bytes, lines: list, first) -> str:
    """The first thing in a sheet that is not in its form."""
    if len(sheet) > LIMITS.MOST_SHEET_BYTES:
        return f"it has over {LIMITS.MOST_SHEET_BYTES:,} bytes"
    if not first:
        return f"line 1 is not SKIN and two counts, parted by tabs: {quoted(lines[0])}"
    corners, rows = map(int, first.groups())
    for at, word in enumerate([b"C"] * corners + [b"R"] * rows, 2):
        line = lines[at - 1] if at <= len(lines) else b""
        if not LINES[word].fullmatch(line):
            return f"line {at} is not {word.decode()} and three numbers, parted by tabs: {quoted(line)}"
    if len(lines) != corners + rows + 2 or lines[-1]:
        return f"line {corners + rows + 2}: after the last row and its one newline nothing may follow, and that newline must be there"
    raise OurFault("the library refuses by 12, and no place of it is found")


# Logs


def in_log(number: int, finder: Finder, log, records: int, backward: bool = False, corner: int | None = None) -> tuple[Fault, ...]:
    """The places of a refusal of a call that was given a log; for 13, so many records were done."""
    if number == 13:
        at = len(log) - 1 - records if backward else records
        kept, removed = log[at, :2].tolist()
        return (Fault(f"record {at}, counted from 0, keeps corner {kept} and removes {removed}; {records} were done before it", corners=(kept, removed)),)
    if number == 2:
        return (Fault(f"{len(finder.rows):,} rows, {len(finder.corners):,} corners, {len(log):,} records"),)
    if number == 5 and corner is not None:
        count = len(finder.corners)
        named = [(f"corner {corner} is asked about", corner)] + [(f"record {at} has corner {max(pair)}", max(pair)) for at, pair in enumerate(log[:, :2].tolist())]
        return tuple(Fault(f"{what}, and there are {count}, counted from 0", corners=(one,)) for what, one in named if one >= count)
    return finder.find(number)

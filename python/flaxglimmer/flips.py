"""Flips for people: lists of edges, flip logs, what each flip did, and where a refusal lies. The library alone says which flips are done and which are
undone; the words say why the one that stopped it is not."""
from __future__ import annotations

import re
from dataclasses import dataclass
from typing import NamedTuple

import numpy as np

from . import calls
from .faults import Finder, counted, quoted, shown
from .header import LIMITS
from .lines import Line
from .mail import WIDE, done_to, is_empty, no_newline
from .refusals import FileFault, LineFault, OurFault, Refused
from .skins import Skin

MOST_LIST_BYTES = 1 << 20  # of a list of edges
MOST_FLIP_LOG_BYTES = 1 << 24  # more than the flips of the longest list take

FIRST, RECORD = Line(b"FLIPS", 2), Line(b"F", LIMITS.FLIP_WIDTH)
NUMBER = rb"0*(0|[1-9]\d*)"
EDGE = re.compile(NUMBER + rb"(?:[ \t]*,[ \t]*|[ \t]+)" + NUMBER)
MOST_NUMBER = 2**32 - 1  # that a list may have
MARK = b"\xef\xbb\xbf"  # that some editors put in front of a text

MENDED = "mended.flips"
OTHERS = {
    b"SKIN": "a sheet",
    b"LOG": "a log sheet, whose records `flaxglimmer grow-back` takes back",
    b"OK": "the desk's answer",
    b"NO": "the desk's answer to a sheet that it refused",
    b"JOB": "a job sheet",
}
SAME = "is it the skin that the flips left?"


# Lists of edges


class Listed(NamedTuple):
    """Numbers, (n, 2) edges or (n, width) records, with the line of each and the byte at which that begins."""

    numbers: np.ndarray
    lines: list[int]
    bytes: list[int]

    def fault(self, at: int, path, text: str, corners=(), place=None) -> LineFault:
        line, byte = self.lines[at], self.bytes[at]
        return LineFault(f"{shown(path)}, line {line}, byte {byte}: {text}", corners=tuple(corners), at=place, line=line, byte=byte)


def read_edges(data: bytes) -> Listed:
    """The edges of a list: two corner numbers a line, parted by blanks, a tab or a comma; what follows a # is skipped, and so are blank lines, and white
    space at either end of a line. A line ends in a newline."""
    if len(data) > MOST_LIST_BYTES:
        raise FileFault(f"no list of edges: it has over {MOST_LIST_BYTES:,} bytes")
    if data.startswith(WIDE):
        raise FileFault("the file has 16 bits a letter: save it as plain text")
    edges, lines, places, byte = [], [], [], 0
    for at, line in enumerate(data.split(b"\n"), 1):
        if b"\r" in line.rstrip(b"\r"):  # a # would skip all that follows
            raise FileFault(f"a carriage return within the line, and lines end in newlines: {quoted(line)}", at)
        text = line.removeprefix(MARK if at == 1 else b"").partition(b"#")[0].strip()
        if text:
            edges.append(_edge(text, at))
            lines.append(at)
            places.append(byte)
        byte += len(line) + 1
    return Listed(np.array(edges, np.uint32).reshape(-1, 2), lines, places)


def _edge(text: bytes, at: int) -> tuple[int, int]:
    typed, word = EDGE.fullmatch(text), text.split()[0]
    if at == 1 and word in (*OTHERS, FIRST.word):
        raise FileFault(f"no list of edges but {OTHERS.get(word, 'a flip log, which `flaxglimmer undo` reads')}: {quoted(text)}", at)
    if not typed:
        raise FileFault(f"not two corner numbers from 0, parted by blanks, a tab or a comma: {quoted(text)}", at)
    if max(map(len, typed.groups())) > len(str(MOST_NUMBER)) or max(map(int, typed.groups())) > MOST_NUMBER:
        raise FileFault(f"a corner number over {MOST_NUMBER:,}, which is too large: {quoted(text)}", at)
    return int(typed[1]), int(typed[2])


# Flip logs: the word FLIPS, the corners and rows of the skin; then an F line for each flip with the numbers of its record


def log_text(skin: Skin, log) -> str:
    return "".join([FIRST.text([len(skin.corners), len(skin.rows)]), *map(RECORD.text, log.tolist())])


def read_log(data: bytes, path) -> tuple[tuple[int, int], Listed]:
    """The counts that a flip log tells, corners and rows, and its records."""
    if len(data) > MOST_FLIP_LOG_BYTES:
        raise FileFault(f"no flip log: it has over {MOST_FLIP_LOG_BYTES:,} bytes")
    *lines, tail = data.split(b"\n")
    found, places, byte = [], [], 0
    for at, line in enumerate(lines + [tail] if tail or not lines else lines, 1):
        kind = FIRST if at == 1 else RECORD
        if at > len(lines) or not kind.form.fullmatch(line):
            raise FileFault(_damage(line, kind, at <= len(lines), path), at)
        found.append(kind.numbers(line))
        places.append(byte)
        byte += len(line) + 1
    (corners, rows), *records = found
    return (corners, rows), Listed(np.array(records, np.uint32).reshape(-1, LIMITS.FLIP_WIDTH), [*range(2, 2 + len(records))], places[1:])


def _damage(line: bytes, kind: Line, ended: bool, path) -> str:
    """What is wrong with a line that should be of this kind, and what to do about it."""
    word = line.split(b"\t")[0]
    if told := done_to(line, kind.form, path, MENDED) or ended and is_empty(line, path, MENDED):
        return "; ".join(told)
    if not ended and kind.form.fullmatch(line):
        return "; ".join(no_newline(line, path, MENDED))
    if kind is FIRST and not ended and not line:
        return "the file is empty"
    if kind is FIRST and word in OTHERS:
        return f"no flip log but {OTHERS[word]}: {quoted(line)}"
    return f"{kind.wrong(line)}{'' if ended else ', and the file ends in it'}: {quoted(line)}"


# What flips did


class Flip(NamedTuple):
    """A flip: the rows (a, b, c) and (b, a, d), as they were stored in their places, became (c, a, d) and (c, d, b)."""

    a: int
    b: int
    c: int
    d: int
    places: tuple[int, int]
    before: tuple

    @property
    def after(self) -> tuple:
        return (self.c, self.a, self.d), (self.c, self.d, self.b)

    def in_words(self) -> str:
        first, second = (f"row {_row(old)} at place {place} became {_row(new)}" for place, old, new in zip(self.places, self.before, self.after))
        return f"edge {self.a} {self.b} became {self.c} {self.d}; {first}, {second}"

    def undone_in_words(self) -> str:
        first, second = (f"row {_row(new)} at place {place} is {_row(old)} again" for place, old, new in zip(self.places, self.before, self.after))
        return f"edge {self.c} {self.d} is {self.a} {self.b} again; {first}, {second}"

    def told(self) -> dict:
        """For --json."""
        return {"edge": [self.a, self.b], "became": [self.c, self.d], "places": [*self.places], "before": [*map(list, self.before)], "after": [*map(list, self.after)]}


def _row(numbers) -> str:
    return f"({', '.join(map(str, numbers))})"


def _turns(row) -> list[tuple]:
    a, b, c = row
    return [(a, b, c), (b, c, a), (c, a, b)]


def meant(record) -> list[Flip]:
    """The flips that may have this record: its two rows are the two sides of an edge, and c and d differ. Of one that was done there is no other."""
    first, *rows = record.tolist()
    before, second = (tuple(rows[:3]), tuple(rows[4:])), rows[3]
    back = {(b, a): d for b, a, d in _turns(before[1])}
    return [Flip(a, b, c, back[b, a], (first, second), before) for a, b, c in _turns(before[0]) if back.get((b, a), c) != c]


@dataclass
class Led:
    """A skin, and the rows that flips or their undoing led to; the flips that were done or undone, in that order, each by its number; and the refusal of
    the one that stopped it, None where none did."""

    skin: Skin
    rows: np.ndarray
    flips: list[tuple[int, Flip]]
    refused: Refused | None = None

    def volumes(self) -> tuple[int, int]:
        return self.skin.volume(), calls.volume(self.rows, self.skin.corners)

    def change(self) -> int:
        return calls.change(self.skin.rows, self.rows, self.skin.corners)

    def left(self) -> Skin:
        """The skin as it is left."""
        return Skin(self.rows, self.skin.corners)

    def hold(self, back) -> None:
        """The rows are a first table over the skin's corners, and this act leads from them back to the skin's."""
        try:
            reached = back()
        except Refused as refused:
            raise OurFault(f"what flips did is not taken back: {refused}") from None
        if calls.check(self.rows, self.skin.corners) or not np.array_equal(reached, self.skin.rows):
            raise OurFault("what flips did does not lead back to the skin's rows")


def flip(skin: Skin, listed: Listed, path) -> tuple[Led, np.ndarray]:
    """The skin with the listed edges flipped up to the first that is refused, and the log of those flips."""
    refused = None
    try:
        rows, log = calls.flip_list(skin.rows, len(skin.corners), listed.numbers)
    except Refused as stop:
        if stop.number not in (30, 31):
            raise skin.placed(stop)
        rows, log, refused = stop.rows, stop.log, stop
    done = [_one(record) for record in log]
    if refused:
        refused.faults, refused.notes = (_refused_edge(refused, skin, listed, done, path),), skin.told()
    led = Led(skin, rows, list(enumerate(done)), refused)
    led.hold(lambda: calls.undo_flips(rows, len(skin.corners), log))
    return led, log


def undo(skin: Skin, listed: Listed, path) -> Led:
    """The skin with the flips of a log undone, the last first, up to the first that is refused."""
    log, refused = listed.numbers, None
    try:
        rows, undone = calls.undo_flips(skin.rows, len(skin.corners), log), len(log)
    except Refused as stop:
        if stop.number != 32:
            raise skin.placed(stop)
        rows, undone, refused = stop.rows, stop.records, stop
        refused.faults, refused.notes = (_refused_record(refused, skin, listed, path),), skin.told()
    flips = [(at, _one(log[at])) for at in range(len(log) - 1, len(log) - 1 - undone, -1)]
    led = Led(skin, rows, flips, refused)
    led.hold(lambda: calls.flip_list(rows, len(skin.corners), [(one.a, one.b) for _, one in reversed(flips)])[0])
    return led


def _one(record) -> Flip:
    """The flip of a record that was done or undone."""
    found = meant(record)
    if len(found) != 1:
        raise OurFault(f"a record that is not of one flip: {record.tolist()}")
    return found[0]


# Where a refusal lies


def _finder(refused: Refused, skin: Skin) -> Finder:
    """Of the rows that were reached."""
    return Finder(refused.rows, skin.corners, skin.points, skin.unit, None, skin.single)


def _refused_edge(refused: Refused, skin: Skin, listed: Listed, done: list[Flip], path) -> LineFault:
    """The listed edge that is refused, by the rows that the flips before it led to."""
    finder, at = _finder(refused, skin), len(done)
    a, b = listed.numbers[at].tolist()
    corners, why = (_missing if refused.number == 30 else _blocked)(finder, a, b, done)
    text = f"edge {at}, counted from 0, is {a} {b}: {why}; {_before(at, 'done')}"
    return listed.fault(at, path, text, corners, finder.at(corners[0]))


def _before(count: int, what: str) -> str:
    return f"{counted(count, 'flip')} {'was' if count == 1 else 'were'} {what} before it"


def _missing(finder: Finder, a: int, b: int, done: list[Flip]) -> tuple[list[int], str]:
    """Why an edge is missing, and its corners."""
    unused = [corner for corner in dict.fromkeys((a, b)) if corner not in finder.rows]
    if unused:
        return unused, f"corner {unused[0]} is in no row, and there are {len(finder.corners)} corners, counted from 0"
    if a == b:
        return [a], f"its two corners are one, {finder.corner(a)}"
    if (a, b) in finder.directed():
        raise OurFault("the library refuses by 30, and no place of it is found")
    became = next((f"; flip {at} made it {one.c} {one.d}" for at, one in _last(done) if {one.a, one.b} == {a, b}), "")
    return [a, b], f"no row has both {finder.corner(a)} and {finder.corner(b)}{became}"


def _blocked(finder: Finder, a: int, b: int, done: list[Flip]) -> tuple[list[int], str]:
    """Which corners opposite to an edge are neighbours already, and by which flip."""
    thirds = {(x, y): z for row in finder.rows.tolist() for x, y, z in _turns(row)}
    c, d = thirds.get((a, b)), thirds.get((b, a))
    if (c, d) not in thirds:
        raise OurFault("the library refuses by 31, and no place of it is found")
    made = next((f", since flip {at}" for at, one in _last(done) if {one.c, one.d} == {c, d}), "")
    return [c, d], f"{finder.corner(c)} and {finder.corner(d)}, opposite to it, are neighbours already{made}"


def _last(done: list[Flip]) -> list[tuple[int, Flip]]:
    return list(enumerate(done))[::-1]


def _refused_record(refused: Refused, skin: Skin, listed: Listed, path) -> LineFault:
    """The record that is not undone, by the rows that those undone led to."""
    finder, at = _finder(refused, skin), len(listed.numbers) - 1 - refused.records
    text = f"flip {at}, counted from 0: {_not_undone(finder, listed.numbers[at])}; {_before(refused.records, 'undone')}"
    return listed.fault(at, path, text)


def _not_undone(finder: Finder, record) -> str:
    """Why a record is not undone: its places, its rows, what stands in its places, or that its edge stands elsewhere."""
    rows, found = [tuple(row) for row in finder.rows.tolist()], meant(record)
    past = [place for place in record[[0, 4]].tolist() if place >= len(rows)]
    if past:
        return f"it has place {past[0]}, and there are {len(rows)} rows, counted from 0"
    if not found:
        first, second = (record[start : start + 3].tolist() for start in (1, 5))
        why = "have the same corners" if sorted(first) == sorted(second) else "are not the two sides of an edge"
        return f"its rows {_row(first)} and {_row(second)} {why}"
    for one in found:
        if all(rows[place] == row for place, row in zip(one.places, one.after)):
            if (one.a, one.b) not in finder.directed():
                raise OurFault("the library refuses by 32, and no place of it is found")
            return f"{finder.corner(one.a)} and {finder.corner(one.b)}, the ends of its edge, are neighbours already"
    place, row = next((place, row) for place, row in zip(found[0].places, found[0].after) if rows[place] != row)
    return f"place {place} has row {_row(rows[place])}, where its flip left {_row(row)}"

"""Job sheets for people: the tree of voids and solids in words, where a refusal lies, and a sheet made from skins. The library alone says whether a job
stands and what it comes to: each figure here is one that it gave, rounded once."""
from __future__ import annotations

import re
from collections.abc import Iterator
from typing import NamedTuple

from . import calls
from .faults import COUNT, quoted, shown
from .header import LIMITS, MOST_SUM
from .mail import done_to, is_empty, no_newline
from .refusals import Fault, LineFault, OurFault, Refused, UsageFault

KINDS = {"V": "void", "S": "solid"}
DIGITS = 18  # most of a sum
SUM = rb"(?:0|-?[1-9]\d{0,%d})" % (DIGITS - 1)
FIRST = re.compile(rb"JOB\t(%b)" % COUNT)
LINE = re.compile(rb"J\t([A-Z])\t(-|%b)\t(%b)" % (COUNT, SUM))
TYPED = re.compile(r"([A-Z]):(-|0|[1-9]\d{0,5}):(.+)", re.ASCII | re.DOTALL)

FIELDS = (  # of an entry's line, behind its J: the form, what it is, and what it has to be
    (rb"[A-Z]", "kind", "one capital letter, V or S"),
    (rb"-|" + COUNT, "entry that it stands in", "- or a number of one to six digits without a needless zero in front"),
    (SUM, "sum", f"one to {DIGITS} digits without a needless zero in front, and a minus only before one below zero"),
)
OTHERS = {
    b"SKIN": "a sheet, which has a skin and no sums",
    b"LOG": "a log sheet",
    b"FLIPS": "a flip log",
    b"OK": "the desk's answer",
    b"NO": "the desk's answer to a sheet that it refused",
}
MENDED = "mended.job"
MAKE = "`flaxglimmer job --make` makes a job sheet from skins"


class Entry(NamedTuple):
    """A line of a job: its letter, the number of the entry that it stands in or None, its exact sum, and the file of its skin where one is known."""

    kind: str
    within: int | None
    sum: int
    file: str | None = None


def text(entries: list[Entry]) -> bytes:
    """The job sheet of these entries."""
    lines = [f"JOB\t{len(entries)}"]
    lines += [f"J\t{one.kind}\t{'-' if one.within is None else one.within}\t{one.sum}" for one in entries]
    return "".join(f"{line}\n" for line in lines).encode("ascii")


def entries_of(sheet: bytes) -> list[Entry]:
    """The entries of a sheet whose form the library takes."""
    found = [LINE.fullmatch(line) for line in sheet.split(b"\n")[1:-1]]
    if not all(found):
        raise OurFault("the library takes a line of a job sheet that is not in its form")
    return [Entry(one[1].decode(), None if one[2] == b"-" else int(one[2]), int(one[3])) for one in found]


def typed_entry(typed: str) -> tuple[str, int | None, str]:
    """Kind, entry that it stands in, and file of an entry as it is typed: the line of the sheet, with the skin's file in the place of its sum."""
    found = TYPED.fullmatch(typed)
    if not found:
        raise UsageFault(f"{typed!r} is no entry: KIND:IN:FILE, as V:-:station.stl for the first, a void, and S:0:pillar.stl for a solid in entry 0")
    return found[1], None if found[2] == "-" else int(found[2]), found[3]


def read(sheet: bytes, path) -> tuple[int, list[Entry]]:
    """The net of a job sheet, and its entries; a refusal has its lines, and a hint."""
    try:
        return calls.job(sheet), entries_of(sheet)
    except Refused as refused:
        if refused.number == 12:
            fault, refused.hint = _form(sheet, path)
            refused.faults = (fault,)
        else:
            refused.faults = tuple(_in_lines(sheet, shown(path), refused.number))
        raise


def made(entries: list[Entry], typed: list[str]) -> tuple[int, bytes]:
    """The net of a job and its sheet, from entries as they were typed, which a refusal names."""
    sheet = text(entries)
    try:
        return calls.job(sheet), sheet
    except Refused as refused:
        refused.faults = tuple(Fault(what if at is None else f"{typed[at]!r}, entry {at}: {what}") for at, what in wrong(refused.number, entries))
        raise


# What a job comes to, entry by entry


class Standing(NamedTuple):
    """An entry with its number, how deep it stands, and what the library gave for it: its own volume, and the net of it and all that stands in it."""

    at: int
    depth: int
    entry: Entry
    volume: int
    net: int

    def line(self) -> str:
        return "  " * (self.depth - 1) + f"entry {self.at}, {KINDS[self.entry.kind]}" + ("" if self.entry.within is None else f" in {self.entry.within}")

    def told(self) -> dict:
        """For --json; the sum as text, since many readers of JSON keep 15 digits."""
        entry = self.entry
        return {"entry": self.at, "kind": KINDS[entry.kind], "in": entry.within, "depth": self.depth, "sum": str(entry.sum), "volume": self.volume, "net": self.net, "file": entry.file}


def _paths(entries: list[Entry]) -> list[tuple[int, ...]]:
    """For each entry those that it stands in, from the topmost down to itself. Names are earlier numbers."""
    paths = []
    for at, entry in enumerate(entries):
        paths.append((() if entry.within is None else paths[entry.within]) + (at,))
    return paths


def tree(entries: list[Entry]) -> list[Standing]:
    """The entries of a job that stands, each followed by those in it. A net is asked of the library as that of a job by itself."""
    paths = _paths(entries)
    found = []
    for at in sorted(range(len(entries)), key=paths.__getitem__):
        alone = entries[at]._replace(within=None)
        inside = [other for other, path in enumerate(paths) if at in path[:-1]]
        number = {old: new for new, old in enumerate([at, *inside])}
        part = [alone] + [entries[other]._replace(within=number[entries[other].within]) for other in inside]
        found.append(Standing(at, len(paths[at]), entries[at], calls.job(text([alone])), calls.job(text(part))))
    return found


def in_words(name: str, net: int, standing: list[Standing]) -> list[str]:
    """The net, and the tree with its figures in columns."""
    rows = [("cubic metres", "volume", "net")] + [(one.line(), f"{one.volume:,}", f"{one.net:,}") for one in standing]
    wide, volume, last = (max(len(row[column]) for row in rows) for column in range(3))
    files = ["", *(f"  {one.entry.file}" if one.entry.file else "" for one in standing)]
    lines = [f"{row[0]:{wide}}  {row[1]:>{volume}}  {row[2]:>{last}}{file}" for row, file in zip(rows, files)]
    return [f"{name}: net {net:,} cubic metres, rounded once", *lines, "each figure of the tree is rounded by itself, for reading: they need not add up"]


def below_zero(entries: list[Entry]) -> list[str]:
    """Which sums are below zero, for a note."""
    turned = "its rows turn inward, and `flaxglimmer sheet FILE --turn` turns those of a scan"
    return [f"entry {at}{f', {one.file}' if one.file else ''}: its sum is below zero and taken as it stands; {turned}" for at, one in enumerate(entries) if one.sum < 0]


# Where a refusal lies


def wrong(number: int, entries: list[Entry]) -> list[tuple[int | None, str]]:
    """The entries that make a refusal of a job true, each with what is wrong; None is the job as a whole."""
    finders = {12: _length, 20: _count, 21: _kinds, 22: _names, 23: _alternation, 24: _depths, 25: _sums}
    found = list(finders[number](entries)) if number in finders else []
    if not found:
        raise OurFault(f"the library refuses by {number}, and no place of it is found")
    return found


def _length(entries) -> Iterator:
    if len(text(entries)) > LIMITS.MOST_JOB_BYTES:
        yield None, f"{len(entries):,} entries, and their sheet would have over {LIMITS.MOST_JOB_BYTES:,} bytes"


def _count(entries) -> Iterator:
    if not 1 <= len(entries) <= LIMITS.MOST_ENTRIES:
        yield None, f"{len(entries):,} entries" if entries else "no entry"


def _kinds(entries) -> Iterator:
    for at, entry in enumerate(entries):
        if entry.kind not in KINDS:
            yield at, f"{entry.kind} is neither V nor S"


def _names(entries) -> Iterator:
    for at, entry in enumerate(entries):
        if at == 0 and entry.within is not None:
            yield at, f"the first entry stands in none, and names {entry.within}"
        elif at > 0 and entry.within is None:
            yield at, "it names none, which only the first does"
        elif at > 0 and entry.within >= at:
            yield at, f"it names {entry.within}, and the entries before it are 0 to {at - 1}" if at > 1 else f"it names {entry.within}, and only entry 0 is before it"


def _alternation(entries) -> Iterator:
    for at, entry in enumerate(entries):
        if entry.within is not None and entry.kind == entries[entry.within].kind:
            yield at, f"a {KINDS[entry.kind]} in entry {entry.within}, which is a {KINDS[entry.kind]} too"


def _depths(entries) -> Iterator:
    for at, path in enumerate(_paths(entries)):
        if len(path) > LIMITS.MOST_DEPTH:
            yield at, f"it stands {len(path)} deep: in {', in '.join(map(str, path[-2::-1]))}"


def _sums(entries) -> Iterator:
    for at, entry in enumerate(entries):
        if abs(entry.sum) > MOST_SUM:
            yield at, f"the sum {entry.sum:,}"


def _in_lines(sheet: bytes, name: str, number: int) -> Iterator[LineFault]:
    """The lines of a sheet that make a refusal true, with what stands there."""
    lines = sheet.split(b"\n")
    for at, what in wrong(number, entries_of(sheet)):
        line = 1 if at is None else at + 2
        byte = sum(len(before) + 1 for before in lines[: line - 1])
        entry = "" if at is None else f"entry {at}: "
        yield LineFault(f"{name}, line {line}, byte {byte}: {entry}{what}: {quoted(lines[line - 1])}", line=line, byte=byte)


def _form(sheet: bytes, path) -> tuple[LineFault, str]:
    """The first thing in a sheet that is not in its form, and what to do about it."""
    name = shown(path)
    if len(sheet) > LIMITS.MOST_JOB_BYTES:
        return LineFault(f"{name} has over {LIMITS.MOST_JOB_BYTES:,} bytes"), f"no job is so long: is it another file? {MAKE}"
    *lines, tail = sheet.split(b"\n")
    byte = 0
    for at, line in enumerate(lines + [tail] if tail or not lines else lines, 1):
        if at > len(lines) or not (LINE if at > 1 else FIRST).fullmatch(line):
            what, hint = _damage(line, at == 1, at <= len(lines), path)
            return LineFault(f"{name}, line {at}, byte {byte}: {what}", line=at, byte=byte), hint
        byte += len(line) + 1
    told, there = int(FIRST.fullmatch(lines[0])[1]), len(lines) - 1
    if told == there:
        raise OurFault("the library refuses by 12, and no place of it is found")
    what = f"it tells {told:,} entries, and {there:,} follow: {quoted(lines[0])}"
    return LineFault(f"{name}, line 1, byte 0: {what}"), "lines were lost or put in, or the count was not changed with them"


def _damage(line: bytes, first: bool, ended: bool, path) -> tuple[str, str]:
    """What is wrong with a line, and what to do about it."""
    form, word = FIRST if first else LINE, line.split(b"\t")[0]
    if told := done_to(line, form, path, MENDED):
        return told
    if first and not ended and not line:
        return "the file is empty", MAKE
    if not ended and form.fullmatch(line):
        what, hint = no_newline(line, path, MENDED)
        return what, hint + ("" if first else "; is its sum whole?")
    if ended and (told := is_empty(line, path, MENDED)):
        return told
    if first and word in OTHERS:
        return f"it is no job sheet but {OTHERS[word]}", MAKE
    cut = "" if ended else ", and the file ends in it"
    return f"{_fields(line, first)}{cut}: {quoted(line)}", f"the line was changed, cut, or does not belong there; {MAKE}"


def _fields(line: bytes, first: bool) -> str:
    """The first field that is wrong."""
    word, *fields = line.split(b"\t")
    if first:
        return "not JOB and the count of entries, one to six digits, parted by a tab"
    if word != b"J":
        return "not J, a kind, the entry that it stands in and a sum, parted by tabs"
    if len(fields) != len(FIELDS):
        return f"{len(fields)} field{'' if len(fields) == 1 else 's'} behind J and not {len(FIELDS)}"
    for field, (form, what, ordered) in zip(fields, FIELDS):
        if not re.fullmatch(form, field):
            return f"the {what} is {quoted(field)}, and not {ordered}"
    raise OurFault("the library refuses by 12, and no place of it is found")

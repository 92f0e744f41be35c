"""Log sheets for people: what one holds, in words, and what became of one that does not read. The library alone says whether a sheet reads and where
its records stand; the words say what mail, an editor or a cut did to the line that is none."""
from __future__ import annotations

import re
from typing import NamedTuple

from . import calls
from .faults import HINTS, counted, quoted, shown
from .header import LIMITS
from .lines import Line
from .mail import done_to, is_empty, no_newline, read_from
from .refusals import LineFault, OurFault, Refused

FIRST, RECORD = Line(b"LOG", 2), Line(b"K", LIMITS.WIDTH)
LONGEST = 1 + 7 * LIMITS.WIDTH  # bytes of a line: K, and for each number a tab and six digits

MENDED = "mended.log"
OTHERS = {
    b"OK": "the desk's answer, with its rows",
    b"NO": "the desk's answer to a sheet that it refused",
    b"SKIN": "a sheet, which has a skin and no log",
    b"JOB": "a job sheet, which has sums and no log",
    b"FLIPS": "a flip log, which `flaxglimmer undo` reads",
}
AGAIN = "ask for the log again, packed (as .zip), so that mail leaves it alone"
SAME = "is it that scan, read with the same options?"
ANEW = "`flaxglimmer thin` begins anew"


def is_log_sheet(data: bytes) -> bool:
    """Whether a text is a log sheet, sound or not, and no answer of the desk: its first word is LOG, whatever mail or an editor put in front of it."""
    return re.match(rb"[^A-Za-z]*LOG(?![A-Za-z])", data[:80].replace(b"\0", b"")) is not None


def read(sheet: bytes, path) -> calls.LogSheet:
    """Counts and log of a log sheet; a refusal has its line, and a hint."""
    try:
        return calls.read_log_sheet(sheet)
    except Refused as refused:
        fault, refused.hint = (_form if refused.number == 12 else _counts)(sheet, path)
        refused.faults = (fault,)
        raise


class Held(NamedTuple):
    """What a log sheet holds up to its first bad line: the counts of its first line, None where that is the bad one, and the records; and the place
    of that line, None where there is none."""

    corners: int | None
    rows: int | None
    records: list
    place: int | None


def held(sheet: bytes) -> Held:
    try:
        corners, rows, place = calls.open_log_sheet(sheet)
    except Refused as refused:
        if refused.number == 12:
            return Held(None, None, [], 0)
        first = sheet.partition(b"\n")[0]  # its form is good, its counts are not
        (corners, rows), place = map(int, first.split(b"\t")[1:]), len(first) + 1
    records = []
    try:
        while (one := calls.next_record(sheet, place)) is not None:
            record, place = one
            records.append(record)
    except Refused:
        return Held(corners, rows, records, place)
    return Held(corners, rows, records, None)


def _counts(sheet: bytes, path) -> tuple[LineFault, str]:
    """The counts that are refused by 2."""
    corners, rows, records, _ = held(sheet)
    if LIMITS.LEAST_CORNERS <= corners <= LIMITS.MOST_CORNERS and LIMITS.LEAST_ROWS <= rows <= LIMITS.MOST_ROWS:
        most = corners - LIMITS.LEAST_CORNERS
        fault = LineFault(f"{shown(path)}, line 1: {len(records):,} records, and a skin of {corners:,} corners has {most:,} at most")
        return fault, "were two logs put into one file, or lines twice?"
    return LineFault(f"{shown(path)}, line 1: {corners:,} corners and {rows:,} rows"), f"its first line was changed, or it is no log of ours; {AGAIN}"


def _form(sheet: bytes, path) -> tuple[LineFault, str]:
    """The first line that is not in its form, and what to do about it."""
    if len(sheet) > LIMITS.MOST_LOG_BYTES:
        return LineFault(f"{shown(path)} has over {LIMITS.MOST_LOG_BYTES:,} bytes"), "no log is so long: is it another file, or several in one?"
    corners, _, records, place = held(sheet)
    if place is None:
        raise OurFault("the library refuses by 12, and no place of it is found")
    at, kind = (1, FIRST) if corners is None else (2 + len(records), RECORD)
    line, newline, _ = sheet[place:].partition(b"\n")
    what, hint = _damage(line, kind, bool(newline), path, len(records))
    before = f"; {counted(len(records), 'whole record')} before it" if at > 1 else ""
    return LineFault(f"{shown(path)}, line {at}, byte {place}: {what}{before}", line=at, byte=place), hint


def _damage(line: bytes, kind: Line, ended: bool, path, records: int) -> tuple[str, str]:
    """What is wrong with a line that should be of this kind, after so many records, and what to do about it."""
    if told := done_to(line, kind.form, path, MENDED):
        return told
    if not ended:
        return _unended(line, kind, path, records)
    return is_empty(line, path, MENDED) or _fields(line, kind)


def _unended(line: bytes, kind: Line, path, records: int) -> tuple[str, str]:
    """The end of a file that is no newline."""
    if kind is FIRST and not line:
        return "the file is empty", AGAIN
    if kind.form.fullmatch(line):
        what, hint = no_newline(line, path, MENDED)
        return what, hint + ("; replay then says whether its last number is whole" if kind is RECORD else "")
    if kind.cut.fullmatch(line) or kind.word.startswith(line):
        shorter = f"; its whole records alone, a log of fewer steps: {_first_lines(1 + records, path)}" if records else ""
        further = "; `flaxglimmer recover` thins on from its whole records" if kind is RECORD else ""
        return f"the log was cut within this line: {quoted(line)}", AGAIN + shorter + further
    return _fields(line, kind)


def _fields(line: bytes, kind: Line) -> tuple[str, str]:
    """The first field that is wrong."""
    first = line.split(b"\t")[0]
    if kind is FIRST and first in OTHERS:
        return f"it is no log sheet but {OTHERS[first]}", "`flaxglimmer thin --log` writes a log sheet"
    what = kind.wrong(line)
    if what is None:
        raise OurFault("the library refuses by 12, and no place of it is found")
    return f"{what}: {quoted(line)}", f"the line was changed, or does not belong there; {AGAIN}"


# A log sheet that was cut after any byte, and is taken up again


def parted(sheet: bytes) -> tuple[bytes, bytes]:
    """The lines that end in a newline, and the unfinished one behind them."""
    end = sheet.rfind(b"\n") + 1
    return sheet[:end], sheet[end:]


def dropped(tail: bytes) -> str:
    """What was dropped of a cut sheet, and how it begins where that is plain text."""
    if not tail:
        return "nothing was dropped"
    told = f"dropped an unfinished line of {counted(len(tail), 'byte')}"
    return f"{told}: {quoted(tail)}" if re.fullmatch(rb"[\t -~]+", tail) else told


def of_another(name: str, counts: tuple[int, int], skin: str, here: tuple[int, int]) -> str:
    """That the counts of a log sheet, corners and rows, are not those of a skin."""
    told, found = (f"{corners:,} corners and {rows:,} rows" for corners, rows in (counts, here))
    return f"{name} is the log of a skin of {told}, and {skin} has {found}"


def in_cut(refused: Refused, sheet: bytes, path, skin: str, here: tuple[int, int]) -> tuple[LineFault, str]:
    """The place in a cut sheet that makes a refusal true, and what to do about it; `here` are the corners and rows of the skin."""
    if refused.number == 12:
        return _cut_form(sheet, path)
    if refused.number == 13:
        return _cut_record(refused, sheet, path)
    whole, _ = parted(sheet)
    corners, rows, _, _ = held(whole)
    if (corners, rows) == here:
        return _counts(whole, path)
    refused.meaning = "the log's counts are not the skin's"
    return LineFault(of_another(shown(path), (corners, rows), skin, here)), SAME


def _cut_form(sheet: bytes, path) -> tuple[LineFault, str]:
    """A cut within the first line, or the first whole line that is not in its form."""
    whole, tail = parted(sheet)
    if len(sheet) > LIMITS.MOST_LOG_BYTES and len(tail) > LONGEST and held(whole).place is None:  # filled up, as with zeros
        lines = whole.count(b"\n")
        fault = LineFault(f"{shown(path)} has over {LIMITS.MOST_LOG_BYTES:,} bytes; what follows its line {lines:,} is no line of a log")
        return fault, f"its whole lines can be recovered: {_first_lines(lines, path)}"
    if not whole and (FIRST.cut.fullmatch(tail) or FIRST.word.startswith(tail)):
        what = f"the log was cut within its first line: {quoted(tail)}" if tail else "the file is empty"
        return LineFault(f"{shown(path)}, line 1, byte 0: {what}"), f"it has no record; {ANEW}"
    fault, hint = _form(sheet if len(sheet) > LIMITS.MOST_LOG_BYTES else whole or tail, path)
    return fault, f"{hint}; {_before(fault.line - 2, path)}" if fault.line > 1 else hint


def _cut_record(refused: Refused, sheet: bytes, path) -> tuple[LineFault, str]:
    """The record that does not replay, and what stands before it."""
    done = refused.records
    at = sum(len(line) + 1 for line in sheet.split(b"\n")[: 1 + done])
    kept, removed = calls.next_record(sheet, at)[0][:2].tolist()
    text = f"record {done}, counted from 0, keeps corner {kept} and removes {removed}; {done} replayed before it, and {len(refused.rows):,} rows stand then"
    return LineFault(f"{shown(path)}, line {done + 2}, byte {at}: {text}", corners=(kept, removed), line=done + 2, byte=at), f"{HINTS[13]}; {_before(done, path)}"


def _before(records: int, path) -> str:
    """What can be had of a log before its first bad line."""
    if records == 0:
        return f"no record stands before it; {ANEW}"
    return f"what stands before it can be recovered: {_first_lines(1 + records, path)}"


def _first_lines(lines: int, path) -> str:
    """The command that keeps the first lines of a file alone."""
    return f"head -n {lines} {read_from(path)} >shorter.log"


# What a log sheet holds, in words


def parts(record) -> dict:
    """A record by the names of its numbers; each row that left stands beside its place in the table before."""
    kept, removed, earlier, a, b, c, later, d, e, f = record.tolist()
    return {"kept": kept, "removed": removed, "places": [earlier, later], "rows": [[a, b, c], [d, e, f]]}


def in_words(at: int, record) -> str:
    told = parts(record)
    (earlier, later), (first, second) = told["places"], (f"({', '.join(map(str, row))})" for row in told["rows"])
    return f"record {at}: corner {told['kept']} kept, {told['removed']} removed; row {first} left place {earlier}, row {second} place {later}"


def summary(corners: int, rows: int, records: int) -> str:
    """What a whole log comes to."""
    left = rows - 2 * records
    if records == 0:
        return "no record: no edge was contracted"
    came = f"{left:,} rows on {corners - records:,} corners are left after them" if left >= LIMITS.LEAST_ROWS else f"more than {rows:,} rows can lose"
    return f"{counted(records, 'record')}, counted from 0; {came}"

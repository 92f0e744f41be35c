"""Every call on numpy arrays or lists. Arrays of the right kind are lent as they stand, others are copied with their numbers looked at; what is
handed in is never written."""
from collections.abc import Iterator
from typing import NamedTuple

import numpy as np

from . import lent
from .header import LIMITS
from .lent import Shift
from .refusals import Refused


def whole(array, kind, what: str) -> np.ndarray:
    """The array itself where it can be lent, else one of this kind with the same numbers. A number that does not fit is an error, never wrapped."""
    if type(array) is np.ndarray and array.dtype == kind and array.flags.c_contiguous and array.flags.aligned:
        return array
    array = np.asarray(array)
    if array.size == 0:
        return np.empty(0, kind)
    if array.dtype.kind not in "iu":
        raise TypeError(f"{what} must be whole numbers, not {array.dtype}; from_points rounds coordinates of other units")
    bounds = np.iinfo(kind)
    if int(array.min()) < bounds.min or int(array.max()) > bounds.max:
        raise OverflowError(f"{what}: a number does not fit {np.dtype(kind).name}")
    return np.ascontiguousarray(array, kind)


def _rows(array) -> np.ndarray:
    return whole(array, np.uint32, "rows")


def _corners(array) -> np.ndarray:
    return whole(array, np.int32, "corners")


def _log(array) -> np.ndarray:
    return whole(array, np.uint32, "log")


def _log_room(corners) -> np.ndarray:
    return np.empty(max(0, LIMITS.WIDTH * (corners.size // 3 - LIMITS.LEAST_CORNERS)), np.uint32)


def thin(rows, corners, limit, plain: bool = False) -> tuple[np.ndarray, np.ndarray]:
    """The last stage and the log, (k, 3) and (r, width). `limit` is None or 'none', a text as '0.8 m', or ('m', 0.8). `plain` asks the plain engine, whatever
    the limit; both come to the same."""
    table, corners = np.array(_rows(rows)).reshape(-1), _corners(corners)
    log = _log_room(corners)
    records = (lent.thin_plain if plain else lent.thin)(table, corners, log, limit)
    return _stage(table, records), _records(log, records)


def recover(rows, corners, sheet: bytes, limit) -> tuple[np.ndarray, np.ndarray, int]:
    """The last stage and the whole log of a thinning that is taken up from a cut log sheet, and how many records of the sheet were kept. On 13 the stage
    reached and the records before it are Refused's rows and log."""
    table, corners = np.array(_rows(rows)).reshape(-1), _corners(corners)
    log = _log_room(corners)
    try:
        kept, records = lent.recover(table, corners, log, np.frombuffer(sheet, np.uint8), limit)
    except Refused as refused:
        if refused.number == 13:
            refused.rows, refused.log = _stage(table, refused.records), _records(log, refused.records)
        raise
    return _stage(table, records), _records(log, records), kept


def _stage(table, records: int) -> np.ndarray:
    """The rows in front of a table from which so many records took two each."""
    return table[: table.size - 6 * records].reshape(-1, 3)


def _records(log, records: int, width: int = LIMITS.WIDTH) -> np.ndarray:
    """So many records in front of a log's room."""
    return log[: width * records].reshape(-1, width)


def check(rows, corners) -> int:
    """The refusal of a first table, 0 for a skin. No call checks alone: a copy is thinned under a limit of 0 cm."""
    try:
        thin(rows, corners, ("cm", 0.0))
    except Refused as refused:
        return refused.number
    return 0


def grow_back(rows, corner_count: int, log) -> np.ndarray:
    """The stage before the log. On 13 the stage reached is Refused's rows."""
    rows, log = _rows(rows), _log(log)
    room = np.zeros(rows.size + 6 * (log.size // LIMITS.WIDTH), np.uint32)
    room[: rows.size] = rows.reshape(-1)
    try:
        lent.grow_back(rows.size // 3, corner_count, room, log)
    except Refused as refused:
        if refused.number == 13:
            refused.rows = room[: rows.size + 6 * refused.records].reshape(-1, 3)
        raise
    return room.reshape(-1, 3)


def replay(rows, corner_count: int, log) -> np.ndarray:
    """The stage after the log. On 13 the stage reached is Refused's rows."""
    table, log = np.array(_rows(rows)).reshape(-1), _log(log)
    try:
        records = lent.replay(corner_count, table, log)
    except Refused as refused:
        if refused.number == 13:
            refused.rows = _stage(table, refused.records)
        raise
    return _stage(table, records)


def flip_list(rows, corner_count: int, edges) -> tuple[np.ndarray, np.ndarray]:
    """The rows after the flips of these edges, (k, 2), in their order, and the flip log, (r, flip width). On 30 and 31 the rows and the log of the flips
    done are Refused's."""
    table, edges = np.array(_rows(rows)).reshape(-1), whole(edges, np.uint32, "edges")
    log = np.empty(LIMITS.FLIP_WIDTH * (edges.size // 2), np.uint32)
    try:
        flips = lent.flip_list(corner_count, table, edges, log)
    except Refused as refused:
        if refused.number in (30, 31):
            refused.rows, refused.log = table.reshape(-1, 3), _records(log, refused.records, LIMITS.FLIP_WIDTH)
        raise
    return table.reshape(-1, 3), _records(log, flips, LIMITS.FLIP_WIDTH)


def undo_flips(rows, corner_count: int, log) -> np.ndarray:
    """The rows before the flips of a flip log. On 32 those reached are Refused's rows."""
    table, log = np.array(_rows(rows)).reshape(-1), _log(log)
    try:
        lent.undo_flips(corner_count, table, log)
    except Refused as refused:
        if refused.number == 32:
            refused.rows = table.reshape(-1, 3)
        raise
    return table.reshape(-1, 3)


def volume(rows, corners) -> int:
    """The figure of a stage in cubic metres, to the nearest whole."""
    return lent.volume(_rows(rows), _corners(corners))


def exact_sum(rows, corners) -> int:
    """The exact sixfold sum of a stage, in cubic centimetres, as the line of a job has it."""
    return lent.exact_sum(_rows(rows), _corners(corners))


def job(sheet: bytes) -> int:
    """The net of a job sheet in cubic metres: the topmost entry's sum less the nets of those directly in it, rounded once."""
    return lent.job(np.frombuffer(sheet, np.uint8))


def change(earlier, later, corners) -> int:
    """The change between two stages in cubic metres, rounded once."""
    return lent.change(_rows(earlier), _rows(later), _corners(corners))


def shift(corner: int, corners, log) -> Shift:
    """The stand-in of a corner, how many records moved it, and the squared distance in square centimetres."""
    return lent.shift(corner, _corners(corners), _log(log))


def limit(typed) -> int:
    """A typed limit in whole centimetres, as the library rounds it down: '0.3 m' is 29."""
    return lent.limit(typed)


def shorter_ring(first, second) -> np.ndarray:
    return lent.shorter_ring(whole(first, np.uint32, "first"), whole(second, np.uint32, "second"))


def catch_up(first, second) -> np.ndarray:
    return lent.catch_up(whole(first, np.uint32, "first"), whole(second, np.uint32, "second"))


def read_sheet(sheet: bytes) -> tuple[np.ndarray, np.ndarray]:
    """Rows and corners of a sheet."""
    table, corners = np.empty(3 * LIMITS.MOST_SHEET_ROWS, np.uint32), np.empty(3 * LIMITS.MOST_SHEET_CORNERS, np.int32)
    count, rows = lent.read_sheet(np.frombuffer(sheet, np.uint8), table, corners)
    return table[: 3 * rows].reshape(-1, 3), corners[: 3 * count].reshape(-1, 3)


def trial_ring() -> np.ndarray:
    """The stored table of the trial ring, as rows."""
    numbers = []
    while (number := lent.trial_number(len(numbers))) is not None:
        numbers.append(number)
    return np.array(numbers, np.uint32).reshape(-1, 3)


def reply(sheet: bytes) -> bytes:
    """The desk's whole answer to a sheet."""
    text = np.empty(LIMITS.MOST_TEXT, np.uint8)
    return text[: lent.reply(np.frombuffer(sheet, np.uint8), text)].tobytes()


# Log sheets


class LogSheet(NamedTuple):
    """The corners and rows of the skin whose log it is, and the log, (r, width)."""

    corners: int
    rows: int
    log: np.ndarray


def write_log_sheet(corners: int, rows: int, log) -> bytes:
    """A log as a log sheet, with the counts of the skin whose log it is."""
    text = np.empty(LIMITS.MOST_LOG_BYTES, np.uint8)  # more than the longest log in its longest numbers takes
    return text[: lent.write_log_sheet(corners, rows, _log(log), text)].tobytes()


def read_log_sheet(sheet: bytes) -> LogSheet:
    """Counts and log of a log sheet."""
    return _read_log(lent.read_log_sheet, sheet)


def each_record(sheet: bytes) -> LogSheet:
    """The same by the reader that keeps sheet and place; records past corners - 4 are read too."""
    return _read_log(lent.each_record, sheet)


def _read_log(call, sheet: bytes) -> LogSheet:
    shortest = len("K\n") + LIMITS.WIDTH * len("\t0")
    log = np.empty(LIMITS.WIDTH * (min(len(sheet), LIMITS.MOST_LOG_BYTES) // shortest), np.uint32)
    corners, rows, records = call(np.frombuffer(sheet, np.uint8), log)
    return LogSheet(corners, rows, _records(log, records))


def open_log_sheet(sheet: bytes) -> tuple[int, int, int]:
    """The corners and rows that a log sheet's first line tells, and the place after it."""
    return lent.open_log_sheet(np.frombuffer(sheet, np.uint8))


def next_record(sheet: bytes, place: int) -> tuple[np.ndarray, int] | None:
    """The record at a place of a log sheet and the place after its line, None at the end."""
    record = np.empty(LIMITS.WIDTH, np.uint32)
    after = lent.next_record(np.frombuffer(sheet, np.uint8), place, record)
    return None if after is None else (record, after)


def records(sheet: bytes) -> Iterator[np.ndarray]:
    """The records of a log sheet one by one. The first line is looked at now, each other line when its record is asked for, and no further: a bad
    one raises Refused there. Records are not counted against the corners."""
    return _records_from(sheet, open_log_sheet(sheet)[2])


def _records_from(sheet: bytes, place: int) -> Iterator[np.ndarray]:
    while (one := next_record(sheet, place)) is not None:
        record, place = one
        yield record

"""The C calls themselves, in the caller's memory: nothing is copied, and everything is checked before it crosses, since ctypes writes through
read-only arrays and cuts numbers that do not fit. A refused call leaves what it was lent as the header says, and raises Refused."""
import ctypes
import operator
from typing import NamedTuple

import numpy as np

from ._native import i64, library, u64
from .header import LIMITS
from .lengths import order
from .refusals import Refused


CUBIC_METRE = 6_000_000  # of a sixfold sum in cubic centimetres


class Shift(NamedTuple):
    stand_in: int
    count: int
    squared: int


def _array(array, kind, what: str) -> np.ndarray:
    flags = array.flags if type(array) is np.ndarray else None
    if flags is None or array.dtype != kind or not flags.c_contiguous or not flags.aligned:
        raise TypeError(f"{what} must be a numpy array of {np.dtype(kind).name} in C order")
    return array


def _written(array, kind, what: str, *others) -> np.ndarray:
    """An array that the call writes: not read-only, and apart from all else that is lent."""
    if not _array(array, kind, what).flags.writeable:
        raise ValueError(f"{what} is read-only, and the call writes it")
    if any(np.shares_memory(array, other) for other in others):
        raise ValueError(f"{what} shares memory with another array that is lent, and the call writes it")
    return array


def _whole(value, bits: int, what: str) -> int:
    value = operator.index(value)
    if not 0 <= value < 2**bits:
        raise OverflowError(f"{what}: {value} does not fit {bits} bits")
    return value


def _over(*arrays) -> list[int]:
    """Address and length of each array."""
    return [part for array in arrays for part in (array.ctypes.data, array.size)]


def _done(status: int, records: int = 0) -> None:
    if status:
        raise Refused(status, records)


def thin(table, corners, log, limit) -> int:
    """Thins the table under a limit, by the quick engine where there is none; how many records stand in front of the log."""
    return _thinned("thin", table, corners, log, limit)


def thin_plain(table, corners, log, limit) -> int:
    """The same by the plain engine, which leaves the same."""
    return _thinned("thin_plain", table, corners, log, limit)


def _thinned(call: str, table, corners, log, limit) -> int:
    _array(corners, np.int32, "corners")
    _written(log, np.uint32, "log", corners)
    _written(table, np.uint32, "table", corners, log)
    answer = getattr(library(), "flaxglimmer_" + call)(*order(limit), *_over(table, corners, log))
    _done(answer.status)
    return answer.records


def grow_back(rows: int, corner_count: int, room, log) -> int:
    """Grows the log back on the rows that stand in front of the room; how many records were grown back."""
    rows, corner_count = _whole(rows, 64, "rows"), _whole(corner_count, 64, "corner count")
    _array(log, np.uint32, "log")
    _written(room, np.uint32, "room", log)
    answer = library().flaxglimmer_grow_back(rows, corner_count, *_over(room, log))
    _done(answer.status, answer.records)
    return answer.records


def replay(corner_count: int, table, log) -> int:
    """Replays the log on the table; how many records were replayed."""
    return _followed("replay", corner_count, table, log)


def _followed(call: str, corner_count: int, table, log) -> int:
    corner_count = _whole(corner_count, 64, "corner count")
    _array(log, np.uint32, "log")
    _written(table, np.uint32, "table", log)
    answer = getattr(library(), "flaxglimmer_" + call)(corner_count, *_over(table, log))
    _done(answer.status, answer.records)
    return answer.records


def flip_list(corner_count: int, table, edges, log) -> int:
    """Flips the edges of the table in order; how many flips stand in front of the log."""
    corner_count = _whole(corner_count, 64, "corner count")
    _array(edges, np.uint32, "edges")
    _written(log, np.uint32, "log", edges)
    _written(table, np.uint32, "table", edges, log)
    answer = library().flaxglimmer_flip_list(corner_count, *_over(table, edges, log))
    _done(answer.status, answer.records)
    return answer.records


def undo_flips(corner_count: int, table, log) -> int:
    """Undoes the flips of the log on the table, the last first; how many were undone."""
    return _followed("undo_flips", corner_count, table, log)


def volume(table, corners) -> int:
    """The figure of a stage in cubic metres."""
    answer = library().flaxglimmer_volume(*_over(_array(table, np.uint32, "table"), _array(corners, np.int32, "corners")))
    _done(answer.status)
    return answer.figure


def exact_sum(table, corners) -> int:
    """The exact sixfold sum of a stage, in cubic centimetres."""
    whole, rest = i64(), u64()
    over = _over(_array(table, np.uint32, "table"), _array(corners, np.int32, "corners"))
    _done(library().flaxglimmer_exact_sum(*over, ctypes.byref(whole), ctypes.byref(rest)))
    return CUBIC_METRE * whole.value + rest.value


def change(earlier, later, corners) -> int:
    """The change from an earlier stage to a later one in cubic metres, rounded once."""
    _array(earlier, np.uint32, "earlier"), _array(later, np.uint32, "later"), _array(corners, np.int32, "corners")
    answer = library().flaxglimmer_change(*_over(earlier, later, corners))
    _done(answer.status)
    return answer.figure


def shift(corner: int, corners, log) -> Shift:
    """The stand-in of a corner, how many records moved it, and the squared distance in square centimetres."""
    corner = _whole(corner, 32, "corner")
    _array(corners, np.int32, "corners"), _array(log, np.uint32, "log")
    numbers = u64(), u64(), u64()
    _done(library().flaxglimmer_shift(corner, *_over(corners, log), *map(ctypes.byref, numbers)))
    return Shift(*(number.value for number in numbers))


def limit(typed) -> int:
    """A typed limit in whole centimetres, as the library rounds it down."""
    answer = library().flaxglimmer_limit(*order(typed))
    _done(answer.status)
    return answer.whole


def shorter_ring(first, second) -> np.ndarray:
    """The shorter of two rings, itself; the first where they are equally long."""
    _array(first, np.uint32, "first"), _array(second, np.uint32, "second")
    return (first, second)[library().flaxglimmer_shorter_ring(*_over(first, second))]


def catch_up(first, second) -> np.ndarray:
    """The rest of the longer log where the other is its beginning, else an empty part of the first; a part of the caller's own array."""
    _array(first, np.uint32, "first"), _array(second, np.uint32, "second")
    start, end = u64(), u64()
    which = library().flaxglimmer_catch_up(*_over(first, second), ctypes.byref(start), ctypes.byref(end))
    return (first, second)[which].reshape(-1)[start.value : end.value]


def read_sheet(sheet, table, corners) -> tuple[int, int]:
    """Reads a sheet's bytes into table and corners; how many corners and rows it has."""
    _array(sheet, np.uint8, "sheet")
    _written(corners, np.int32, "corners", sheet)
    _written(table, np.uint32, "table", sheet, corners)
    count, rows = u64(), u64()
    _done(library().flaxglimmer_read_sheet(*_over(sheet, table, corners), ctypes.byref(count), ctypes.byref(rows)))
    return count.value, rows.value


def trial_number(at: int) -> int | None:
    """The trial ring's number at a place, None past its end."""
    answer = library().flaxglimmer_trial_number(_whole(at, 64, "place"))
    return answer.number if answer.there else None


def reply(sheet, text) -> int:
    """The desk's answer to a sheet in front of the text; how many bytes it has."""
    _array(sheet, np.uint8, "sheet")
    _written(text, np.uint8, "text", sheet)
    answer = library().flaxglimmer_reply(*_over(sheet, text))
    _done(answer.status)
    return answer.bytes


def write_log_sheet(corners: int, rows: int, log, text) -> int:
    """A log with the counts of its skin as a log sheet in front of the text; how many bytes it has."""
    corners, rows = _whole(corners, 64, "corners"), _whole(rows, 64, "rows")
    _array(log, np.uint32, "log")
    _written(text, np.uint8, "text", log)
    answer = library().flaxglimmer_write_log_sheet(corners, rows, *_over(log, text))
    _done(answer.status)
    return answer.bytes


def read_log_sheet(sheet, log) -> tuple[int, int, int]:
    """Reads a log sheet's bytes into the log; how many corners, rows and records it has."""
    return _read_log("read_log_sheet", sheet, log)


def each_record(sheet, log) -> tuple[int, int, int]:
    """The same by the reader that keeps sheet and place; it does not count the records against the corners."""
    return _read_log("each_record", sheet, log)


def _read_log(call: str, sheet, log) -> tuple[int, int, int]:
    _array(sheet, np.uint8, "sheet")
    _written(log, np.uint32, "log", sheet)
    numbers = u64(), u64(), u64()
    _done(getattr(library(), "flaxglimmer_" + call)(*_over(sheet, log), *map(ctypes.byref, numbers)))
    return tuple(number.value for number in numbers)


def open_log_sheet(sheet) -> tuple[int, int, int]:
    """The corners and rows of a log sheet's first line, and the place after it."""
    numbers = u64(), u64(), u64()
    _done(library().flaxglimmer_open_log_sheet(*_over(_array(sheet, np.uint8, "sheet")), *map(ctypes.byref, numbers)))
    return tuple(number.value for number in numbers)


def next_record(sheet, place: int, record) -> int | None:
    """Puts the record at a place of a sheet into `record`; the place after its line, None at the end. Without a record there are zeros in it."""
    place = _whole(place, 64, "place")
    _array(sheet, np.uint8, "sheet")
    if _written(record, np.uint32, "record", sheet).size != LIMITS.WIDTH:
        raise ValueError(f"record has {record.size} numbers, and a record {LIMITS.WIDTH}")
    found, after = u64(), u64()
    start, length = _over(sheet)
    _done(library().flaxglimmer_next_record(start, length, place, ctypes.byref(found), ctypes.byref(after), record.ctypes.data))
    return after.value if found.value else None


def recover(table, corners, log, sheet, limit) -> tuple[int, int]:
    """Replays the whole lines of a cut log sheet on the table and thins on under a limit; how many records were replayed, and how many stand in front
    of the log."""
    _array(corners, np.int32, "corners"), _array(sheet, np.uint8, "sheet")
    _written(log, np.uint32, "log", corners, sheet)
    _written(table, np.uint32, "table", corners, sheet, log)
    kept, records = u64(), u64()
    status = library().flaxglimmer_recover(*order(limit), *_over(table, corners, log, sheet), ctypes.byref(kept), ctypes.byref(records))
    _done(status, records.value)
    return kept.value, records.value


def job(sheet) -> int:
    """The net of a job sheet's bytes in cubic metres, rounded once."""
    answer = library().flaxglimmer_job(*_over(_array(sheet, np.uint8, "sheet")))
    _done(answer.status)
    return answer.figure

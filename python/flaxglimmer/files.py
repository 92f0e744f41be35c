"""Files to skins and back: a scan read, prepared and rounded once to whole centimetres; sheets; logs, which are kept as log sheets or, with the rows
left, as the desk's answer. What was done to a file is told in notes, and nothing is mended, joined, turned or guessed unasked."""
import hashlib
import os
import re
import stat
from dataclasses import dataclass
from fractions import Fraction
from pathlib import Path

import numpy as np

from . import calls, lent, logs, readers
from .faults import in_sheet, quoted, shown
from .header import LIMITS
from .lengths import CENTIMETRES, known, which
from .refusals import Fault, FileFault, Refused, UsageFault
from .skins import Skin

SHEET = ".sheet"
WELDS = ("auto", "equal", "none")
TOLD = 20  # most notes of one kind
FLAT_ROOM = 4  # with flat rows to be left out, so many times the most rows are read


@dataclass
class Scan:
    """Points as they stand in the file, its rows, and each row's number there."""

    points: np.ndarray
    rows: np.ndarray
    file_rows: np.ndarray
    notes: list


# What is done to a scan, each only where it was asked


def weld(scan: Scan) -> None:
    """Joins equal points, 0.0 and -0.0 too; numbers go by first appearance, so that the file's order alone decides them."""
    _, first, same = np.unique(scan.points, axis=0, return_index=True, return_inverse=True)
    kept = np.sort(first)
    if len(kept) < len(scan.points):
        scan.notes.append(f"{len(scan.points):,} points of the file are {len(kept):,} corners: equal points were joined")
    _renumber(scan, kept, np.searchsorted(kept, first[same.reshape(-1)]))


def _renumber(scan: Scan, kept: np.ndarray, number: np.ndarray) -> None:
    """Keeps these points; rows have the new numbers. A number past the points stays as it is, and so past them."""
    inside = scan.rows < len(scan.points)
    scan.rows = np.where(inside, number[np.where(inside, scan.rows, 0)], scan.rows) if len(number) else scan.rows
    scan.points = scan.points[kept]


def drop_flat(scan: Scan) -> None:
    """Leaves out rows that have one corner twice; their neighbours stay matched."""
    a, b, c = scan.rows.T
    flat = (a == b) | (b == c) | (c == a)
    if flat.any():
        some = ", ".join(map(str, scan.file_rows[flat][:TOLD])) + (", …" if flat.sum() > TOLD else "")
        scan.notes.append(f"flat rows, with one corner twice, were left out ({flat.sum():,}): {some}")
        scan.rows, scan.file_rows = scan.rows[~flat], scan.file_rows[~flat]


def drop_unused(scan: Scan) -> None:
    """Leaves out points that no row uses: the file has them, the skin does not."""
    used = np.zeros(len(scan.points), bool)
    used[scan.rows[scan.rows < len(scan.points)]] = True
    if not used.all():
        scan.notes.append(f"points of the file that no row uses were left out ({np.count_nonzero(~used):,})")
        _renumber(scan, np.flatnonzero(used), np.cumsum(used) - 1)


def turn(scan: Scan) -> None:
    scan.rows = scan.rows[:, ::-1]
    scan.notes.append("every row was turned over, as asked")


def _finite(scan: Scan) -> None:
    bad = np.flatnonzero(~np.isfinite(scan.points).all(1))
    bad = bad[np.isin(bad, scan.rows)]
    if len(bad):
        row = int(scan.file_rows[(scan.rows == bad[0]).any(1)][0])
        more = f"; {len(bad) - 1:,} more such points" if len(bad) > 1 else ""
        raise FileFault(f"point {bad[0]}, in row {row}, has a coordinate that is no finite number: ({', '.join(map(str, scan.points[bad[0]]))}){more}")


# The one rounding


@dataclass
class Rounded:
    """Corners in whole centimetres, the largest move of a coordinate by the rounding, and the corner that has it."""

    corners: np.ndarray
    move: Fraction
    corner: int


def to_centimetres(points: np.ndarray, unit: str, origin=(0, 0, 0)) -> Rounded:
    """(exact value - origin in whole metres) in centimetres, to the nearest whole, a half away from zero: integers throughout, one rounding.
    What 32 bits do not hold goes over as the nearest number that they do, which is outside the library's range too."""
    factor, wholes, move, where = CENTIMETRES[unit], [], Fraction(0), 0
    for at, point in enumerate(points.tolist()):
        for value, metres in zip(point, origin):
            up, down = value.as_integer_ratio()
            down *= factor.denominator
            up = up * factor.numerator - 100 * metres * down
            whole = (2 * abs(up) + down) // (2 * down)
            if abs(abs(up) - whole * down) * move.denominator > move.numerator * down:
                move, where = Fraction(abs(abs(up) - whole * down), down), at
            wholes.append(min(whole, 2**31 - 1) * (1 if up >= 0 else -1))
    return Rounded(np.array(wholes, np.int32).reshape(-1, 3), move, where)


def nearest_metres(points: np.ndarray, unit: str) -> tuple:
    """The whole metres nearest to the middle of the points."""
    middles = [(Fraction(low) + Fraction(high)) / 2 * CENTIMETRES[unit] / 100 for low, high in zip(points.min(0).tolist(), points.max(0).tolist())]
    return tuple(round(middle) for middle in middles)


def _origin(origin, points, unit: str) -> tuple:
    if origin is None:
        return 0, 0, 0
    if origin == "auto":
        return nearest_metres(points, unit)
    if isinstance(origin, str):
        typed = re.fullmatch(r"\s*([+-]?\d{1,9})\s*,\s*([+-]?\d{1,9})\s*,\s*([+-]?\d{1,9})\s*", origin, re.ASCII)
        if not typed:
            raise UsageFault(f"{origin!r} is no origin: three whole numbers of metres, as 412345,7123457,-300, or auto")
        origin = typed.groups()
    return tuple(int(metres) for metres in origin)


def _told_move(rounded: Rounded) -> str:
    """The largest move in centimetres, rounded up to its third place."""
    return f"{-(-rounded.move.numerator * 1000 // rounded.move.denominator) / 1000:.3f}"


def _together(corners: np.ndarray) -> list:
    """Groups of corners that lie on one point."""
    _, same, count = np.unique(corners, axis=0, return_inverse=True, return_counts=True)
    groups = {}
    for corner in np.flatnonzero(count[same.reshape(-1)] > 1).tolist():
        groups.setdefault(int(same.reshape(-1)[corner]), []).append(corner)
    return sorted(groups.values())


def _skin(scan: Scan, unit: str, origin, single: bool, name: str, digest: str) -> Skin:
    """A prepared scan rounded to a skin, with what has to be told."""
    origin = _origin(origin, scan.points, unit)
    rounded = to_centimetres(scan.points, unit, origin)
    notes = scan.notes + [f"coordinates were rounded once to whole centimetres; the largest move is {_told_move(rounded)} cm, at corner {rounded.corner}"]
    if any(origin):
        told = ", ".join(f"{metres:,}" for metres in origin)
        notes.append(f"the origin ({told}) m was taken off before rounding; halves of a centimetre may round otherwise without it")
    together = _together(rounded.corners)
    notes += [f"corners {', '.join(map(str, group))} lie on one point after rounding; they stay apart" for group in together[:TOLD]]
    notes += [f"{len(together) - TOLD} more groups of corners lie on one point"] if len(together) > TOLD else []
    warnings = []
    spacing = float(np.spacing(np.float32(np.abs(scan.points).max()))) * float(CENTIMETRES[unit]) if single else 0
    if spacing > 0.1:
        warnings.append(f"the file's numbers have 32 bits, and at its largest coordinate they stand {spacing:.2g} cm apart: the scan has lost detail")
    rows = calls.whole(np.ascontiguousarray(scan.rows), np.uint32, "rows").reshape(-1, 3)
    return Skin(rows, rounded.corners, unit, scan.points, scan.file_rows, name, digest, origin, _told_move(rounded), single, notes, warnings)


def from_points(points, rows, unit: str, origin=None, weld: str = "none", drop_flat: bool = False, turn: bool = False) -> Skin:
    """A skin from coordinates in a unit and rows of numbers from 0; both are copied."""
    if weld not in WELDS:
        raise UsageFault(f"{weld!r} is no way to weld: these are {', '.join(WELDS)}")
    points = np.array(points, float).reshape(-1, 3)
    rows = calls.whole(rows, np.uint32, "rows").astype(np.int64).reshape(-1, 3)
    return _prepared(points, rows, unit, origin, weld == "equal", drop_flat, turn, name="skin from points")


def _prepared(points, rows, unit, origin, joined, flat, turned, single=False, name="", digest="") -> Skin:
    if len(rows) == 0:
        raise FileFault("it has no triangles")
    if unit is None:
        raise UsageFault(no_unit(points, name))
    known(unit)
    scan = Scan(points, rows, np.arange(len(rows)), [])
    _finite(scan)
    for asked, act in ((joined, weld), (flat, drop_flat), (True, drop_unused), (turned, turn)):
        if asked:
            act(scan)
    if len(scan.points) == 0:
        raise FileFault("none of its rows has a point of the file, or none is left")
    if len(scan.rows) > LIMITS.MOST_ROWS:
        refuse_count(len(scan.rows), name)
    return _skin(scan, unit, origin, single, name, digest)


def no_unit(points: np.ndarray, name: str) -> str:
    """What the file would measure in each unit: nothing is guessed."""
    finite = points[np.isfinite(points).all(1)]
    with np.errstate(over="ignore"):
        sizes = np.ptp(finite, axis=0).tolist() if len(finite) else (0, 0, 0)
    lines = [f"  --unit {unit:3}: {' x '.join(f'{size * float(factor) / 100:,.4g}' for size in sizes)} m{which(unit)}" for unit, factor in CENTIMETRES.items()]
    return "\n".join([f"{name}: the file does not tell its unit. It would measure", *lines])


# Files


def _open(path: Path):
    """A file to be read, which is no folder, pipe or device."""
    try:
        file = open(path, "rb", opener=lambda name, flags: os.open(name, flags | os.O_NONBLOCK))
    except (OSError, ValueError) as fault:
        raise FileFault(f"it cannot be read: {getattr(fault, 'strerror', None) or fault}") from None
    if not stat.S_ISREG(os.fstat(file.fileno()).st_mode):
        file.close()
        raise FileFault("it cannot be read: no plain file")
    return file


def _read_bytes(file, most: int = -1) -> bytes:
    try:
        return file.read(most)
    except OSError as fault:
        raise FileFault(f"it cannot be read: {fault.strerror}") from None


def bytes_of(path, most: int) -> bytes:
    """A file, as far as the longest of its kind goes and a byte more."""
    with _open(Path(path)) as file:
        return _read_bytes(file, most + 1)


def refuse_count(count: int, name: str) -> None:
    """Asks the library about a table of so many rows, in room that nothing is written to: its answer goes by the count alone."""
    try:
        lent.thin(np.empty(3 * count, np.uint32), np.empty(0, np.int32), np.empty(0, np.uint32), None)
    except Refused as refused:
        refused.faults = (Fault(f"{count:,} rows in {name}"),)
        raise


def read(path, unit: str | None, origin=None, weld: str = "auto", drop_flat: bool = False, turn: bool = False) -> Skin:
    """A skin from a scan (.stl, .obj, .ply, .off) in its unit, or from a sheet, which is in centimetres. Raises FileFault, and Refused by the count
    alone where the file has too many rows to be read."""
    path = Path(path)
    kind = path.suffix.lower()
    if is_sheet(path):
        if unit not in (None, "cm") or origin or weld != "auto" or drop_flat or turn:
            raise UsageFault(f"{shown(path)}: a sheet is in whole centimetres and taken as it stands: no unit, origin, weld, drop-flat or turn goes with it")
        return read_sheet(path)
    if kind not in readers.READERS:
        raise FileFault(f"{kind or 'no suffix'!r} is no format that is read; these are {' '.join(readers.READERS)} {SHEET}")
    if weld not in WELDS:
        raise UsageFault(f"{weld!r} is no way to weld: these are {', '.join(WELDS)}")
    with _open(path) as file:
        count = readers.told_rows(file, os.fstat(file.fileno()).st_size, kind)
        if count > LIMITS.MOST_ROWS * (FLAT_ROOM if drop_flat else 1):
            refuse_count(count, shown(path))
        file.seek(0)
        data = _read_bytes(file)
    points, rows, single = readers.READERS[kind](data)
    joined = weld == "equal" or (weld == "auto" and kind == ".stl")
    return _prepared(points, rows, unit, origin, joined, drop_flat, turn, single, shown(path), hashlib.sha256(data).hexdigest())


# Sheets


def is_sheet(path) -> bool:
    return Path(path).suffix.lower() == SHEET


def read_sheet(path) -> Skin:
    """A skin from a sheet, which the library reads and checks."""
    data = bytes_of(path, LIMITS.MOST_SHEET_BYTES)
    try:
        rows, corners = calls.read_sheet(data)
    except Refused as refused:
        refused.faults = in_sheet(data, refused.number)
        raise
    return Skin(rows, corners, name=shown(path), digest=hashlib.sha256(data).hexdigest())


def sheet_text(skin: Skin) -> str:
    lines = [f"SKIN\t{len(skin.corners)}\t{len(skin.rows)}"]
    lines += ["C\t%d\t%d\t%d" % tuple(corner) for corner in skin.corners.tolist()]
    lines += ["R\t%d\t%d\t%d" % tuple(row) for row in skin.rows.tolist()]
    return "\n".join(lines) + "\n"


# Logs: log sheets, and the desk's answer


@dataclass
class Log:
    """The log in a file, and what the file tells beside it: a log sheet the counts of the skin, the desk's answer the rows that are left."""

    log: np.ndarray
    rows: np.ndarray | None = None
    counts: tuple[int, int] | None = None  # corners, rows


def log_bytes(path) -> bytes:
    """A file that may be a log."""
    return bytes_of(path, max(LIMITS.MOST_TEXT, LIMITS.MOST_LOG_BYTES))


def read_log(path) -> Log:
    """The log in a file: a log sheet, whose first word is LOG, or the desk's answer."""
    data = log_bytes(path)
    if logs.is_log_sheet(data):
        corners, rows, log = logs.read(data, path)
        return Log(log, counts=(corners, rows))
    return _answer(data)


def read_answer(path) -> Log:
    """Rows and log of the desk's answer: OK, R and K lines."""
    return _answer(log_bytes(path))


def answer_text(rows, log, first: int, last: int) -> str:
    lines = [f"OK\t{len(rows)}\t{len(log)}\t{first}\t{last}"]
    lines += ["\t".join(["R", *map(str, row)]) for row in rows.tolist()]
    lines += ["\t".join(["K", *map(str, record)]) for record in log.tolist()]
    return "\n".join(lines) + "\n"


def _fields(line: bytes, at: int, word: bytes, count: int) -> list:
    fields = line.split(b"\t")
    if fields[0] != word or len(fields) != count + 1 or not all(re.fullmatch(rb"-?\d{1,10}", field) for field in fields[1:]):
        raise FileFault(f"expected {word.decode()} and {count} whole numbers, parted by tabs: {quoted(line)}", at)
    return [int(field) for field in fields[1:]]


def _answer(data: bytes) -> Log:
    first = data.partition(b"\n")[0]
    word = first.split(b"\t")[0]
    if word in logs.OTHERS and word not in (b"OK", b"NO"):
        raise FileFault(f"no log of a thinning but {logs.OTHERS[word]}: {quoted(first)}", 1)
    if len(data) > LIMITS.MOST_TEXT:
        raise FileFault(f"no answer of the desk: it has over {LIMITS.MOST_TEXT:,} bytes")
    if re.fullmatch(rb"NO\t\d{1,3}\n", data):
        raise FileFault(f"the desk said no: {data[3:-1].decode()}; there is no log in it")
    lines = data.split(b"\n")
    if not lines[0].startswith(b"OK"):
        raise FileFault(f"a log begins with LOG and 2 counts, as log sheets do, or with OK and 4 numbers, as the desk's answer: {quoted(lines[0])}", 1)
    rows, records, _, _ = _fields(lines[0], 1, b"OK", 4)
    if lines[-1] or len(lines) != rows + records + 2:
        raise FileFault(f"it tells {rows} rows and {records} records, which are {rows + records + 1} lines, each ended by a newline, and has {len(lines) - 1}")
    tables = []
    for word, start, count, width in ((b"R", 1, rows, 3), (b"K", 1 + rows, records, LIMITS.WIDTH)):
        numbers = [_fields(lines[at], at + 1, word, width) for at in range(start, start + count)]
        try:
            tables.append(calls.whole(np.array(numbers, np.int64), np.uint32, "numbers").reshape(-1, width))
        except OverflowError:
            raise FileFault(f"a number of its {word.decode()} lines is below 0 or past 32 bits") from None
    return Log(tables[1], tables[0])

"""The shared library: where it is found, and its functions with their C types. Nothing here decides anything."""
import ctypes as c
import os
from functools import cache
from pathlib import Path

from .header import LIMITS, UNITS
from .refusals import LibraryMissing

u32, u64, i64, size = c.c_uint32, c.c_uint64, c.c_int64, c.c_size_t
lent = c.c_void_p  # an array's address; its length follows
number, signed = c.POINTER(u64), c.POINTER(i64)  # a lent number


class Counted(c.Structure):
    _fields_ = [("status", u64), ("records", u64)]


class Measure(c.Structure):
    _fields_ = [("status", u64), ("figure", i64)]


class Centimetres(c.Structure):
    _fields_ = [("status", u64), ("whole", u64)]


class Written(c.Structure):
    _fields_ = [("status", u64), ("bytes", u64)]


class Stored(c.Structure):
    _fields_ = [("there", u64), ("number", u64)]


SIGNATURES = {  # name: (result, arguments)
    "thin": (Counted, [u32, c.c_double, lent, size, lent, size, lent, size]),
    "thin_plain": (Counted, [u32, c.c_double, lent, size, lent, size, lent, size]),
    "grow_back": (Counted, [size, size, lent, size, lent, size]),
    "replay": (Counted, [size, lent, size, lent, size]),
    "volume": (Measure, [lent, size, lent, size]),
    "exact_sum": (u64, [lent, size, lent, size, signed, number]),
    "change": (Measure, [lent, size, lent, size, lent, size]),
    "shift": (u64, [u32, lent, size, lent, size, number, number, number]),
    "limit": (Centimetres, [u32, c.c_double]),
    "shorter_ring": (u32, [lent, size, lent, size]),
    "catch_up": (u64, [lent, size, lent, size, number, number]),
    "read_sheet": (u64, [lent, size, lent, size, lent, size, number, number]),
    "trial_number": (Stored, [size]),
    "reply": (Written, [lent, size, lent, size]),
    "write_log_sheet": (Written, [size, size, lent, size, lent, size]),
    "read_log_sheet": (u64, [lent, size, lent, size, number, number, number]),
    "each_record": (u64, [lent, size, lent, size, number, number, number]),
    "open_log_sheet": (u64, [lent, size, number, number, number]),
    "next_record": (u64, [lent, size, size, number, number, lent]),
    "recover": (u64, [u32, c.c_double, lent, size, lent, size, lent, size, lent, size, number, number]),
    "job": (Measure, [lent, size]),
    "flip_list": (Counted, [size, lent, size, lent, size, lent, size]),
    "undo_flips": (Counted, [size, lent, size, lent, size]),
}


def places() -> list[Path]:
    """Where the library is looked for; the first that is there is taken."""
    named = os.environ.get("FLAXGLIMMER_LIBRARY")
    if named:
        return [Path(named)]
    here = Path(__file__).resolve().parent
    return [here / "libflaxglimmer.so", here.parents[1] / "target" / "native" / "libflaxglimmer.so"]


def told(loaded: c.CDLL) -> dict[str, str]:
    """What the library carries: the digest of its sources and the header's limits and units, a line each."""
    start = c.addressof(c.c_char.in_dll(loaded, "flaxglimmer_told"))
    return dict(line.split(" ") for line in c.string_at(start).decode("ascii").splitlines())


@cache
def library() -> c.CDLL:
    looked = places()
    place = next((place for place in looked if place.exists()), None)
    if place is None:
        raise LibraryMissing("the library is not there; looked for " + ", ".join(map(str, looked)))
    try:
        loaded = c.CDLL(str(place))
        for name, (result, arguments) in SIGNATURES.items():
            function = getattr(loaded, "flaxglimmer_" + name)
            function.restype, function.argtypes = result, arguments
        carried = told(loaded)
    except (OSError, AttributeError, ValueError) as fault:
        raise LibraryMissing(f"{place} is no library of this version: {fault}") from None
    carried.pop("sources", None)
    if carried != {name: str(value) for name, value in {**vars(LIMITS), **vars(UNITS)}.items()}:
        raise LibraryMissing(f"{place} is of another version: its limits, units or record width are not this package's")
    return loaded

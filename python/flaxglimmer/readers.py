"""STL, OBJ, PLY and OFF read from bytes to points and rows, as they stand there; a fault tells its line or byte. Nothing is joined, dropped or
turned here. Each reader gives (points, rows, single): binary64 coordinates, row numbers from 0, and whether the numbers were written in 32 bits."""
import re
import struct

import numpy as np

from .refusals import FileFault

STL = np.dtype([("normal", "<f4", (3,)), ("points", "<f4", (3, 3)), ("more", "<u2")])
HEAD = 84  # bytes of a binary STL before its rows
BLOCK = 1 << 22
TRIANGLES = "a skin has triangles alone"


def _lines(data: bytes):
    """Number and words of each line that has words."""
    return ((at, words) for at, line in enumerate(data.splitlines(), 1) if (words := line.split()))


def _shown(words) -> str:
    return repr(b" ".join(words)[:60].decode("ascii", "replace"))


def _numbers(words, at: int, kind=float, count: int = 3) -> list:
    """The first words of a line as numbers. Python's own reading also takes underscores, which no format has."""
    if len(words) < count:
        raise FileFault(f"{count} numbers are needed, and there are {len(words)}", at)
    try:
        if any(b"_" in word for word in words[:count]):
            raise ValueError
        return [kind(word) for word in words[:count]]
    except ValueError:
        raise FileFault(f"no numbers: {_shown(words)}", at) from None


def _points(points: list) -> np.ndarray:
    return np.array(points, float).reshape(-1, 3)


def _rows(rows: list) -> np.ndarray:
    """Numbers that 32 bits do not hold are no corner numbers of any table."""
    for at, row in enumerate(rows):
        if not all(0 <= number < 2**32 for number in row):
            raise FileFault(f"row {at} ({', '.join(map(str, row))[:60]}): a corner number below 0 or past 32 bits")
    return np.array(rows, np.int64).reshape(-1, 3)


# STL


def _binary_stl(head: bytes, size: int) -> int | None:
    """How many rows a binary STL of this size has, None where it is no such file."""
    told = int.from_bytes(head[HEAD - 4 : HEAD], "little") if len(head) >= HEAD else 0
    if len(head) >= HEAD and size == HEAD + STL.itemsize * told:
        return told
    if head.lstrip()[:5].lower() == b"solid":
        return None
    if len(head) < HEAD:
        raise FileFault(f"no STL: {size} bytes that do not begin with 'solid'" if size else "the file is empty")
    how = "it is cut short, or is no STL" if size < HEAD + STL.itemsize * told else "it has more behind its rows, or is no STL"
    raise FileFault(f"a binary STL of {told:,} rows has {HEAD + STL.itemsize * told:,} bytes, and this file has {size:,}: {how}")


def read_stl(data: bytes) -> tuple:
    count = _binary_stl(data[:HEAD], len(data))
    if count is not None:
        points = np.frombuffer(data, STL, offset=HEAD)["points"].reshape(-1, 3).astype(float)
        return points, np.arange(3 * count).reshape(-1, 3), True
    points, facets, at = [], 0, 0
    for at, words in _lines(data):
        word = words[0].lower()
        if word == b"vertex":
            points.append(_numbers(words[1:], at))
        elif word == b"endfacet":
            facets += 1
            if len(points) != 3 * facets:
                raise FileFault("a facet that has not three vertices", at)
    if facets == 0:
        raise FileFault("it begins with 'solid' but has no facet: an empty ASCII STL, or a binary one that is cut short")
    if len(points) != 3 * facets:
        raise FileFault("the file ends inside a facet", at)
    return _points(points), np.arange(3 * facets).reshape(-1, 3), False


# OBJ


def read_obj(data: bytes) -> tuple:
    """Numbers count from 1, or back from the last point where they are below zero; what stands behind three coordinates is passed over."""
    points, rows = [], []
    for at, words in _lines(data):
        if words[0] == b"v":
            points.append(_numbers(words[1:], at))
        elif words[0] == b"f":
            if len(words) != 4:
                raise FileFault(f"a face of {len(words) - 1} corners: {TRIANGLES}", at)
            row = _numbers([word.partition(b"/")[0] for word in words[1:]], at, int)
            if 0 in row:
                raise FileFault("corner number 0, where numbers count from 1", at)
            rows.append([number - 1 if number > 0 else len(points) + number for number in row])
            if min(rows[-1]) < 0:
                raise FileFault("a number that counts back past the first point", at)
    return _points(points), _rows(rows), False


# OFF


def read_off(data: bytes) -> tuple:
    """Comments and empty lines anywhere; colours, normals and textures behind coordinates and numbers are passed over."""
    lines = [(at, words) for at, line in enumerate(data.splitlines(), 1) if (words := line.partition(b"#")[0].split())]
    if not lines or not re.fullmatch(rb"(ST)?C?N?OFF", lines[0][1][0]):
        raise FileFault("no OFF: its first word is not OFF")
    at, words = lines[0]
    if b"BINARY" in words:
        raise FileFault("a binary OFF, which is not read", at)
    first = 1
    if len(words) == 1:
        if len(lines) == 1:
            raise FileFault("the file ends before its counts", at)
        (at, words), first = lines[1], 2
    else:
        words = words[1:]
    corners, faces = _numbers(words, at, int, 2)
    if corners < 0 or faces < 0:
        raise FileFault("a count below zero", at)
    if len(lines) - first < corners + faces:
        raise FileFault(f"it tells {corners:,} points and {faces:,} faces and has {len(lines) - first:,} lines for them: it is cut short")
    points = [_numbers(words, at) for at, words in lines[first : first + corners]]
    rows = []
    for at, words in lines[first + corners : first + corners + faces]:
        if words[0] != b"3":
            raise FileFault(f"a face of {_shown(words[:1])} corners: {TRIANGLES}", at)
        rows.append(_numbers(words[1:], at, int))
    return _points(points), _rows(rows), False


# PLY

KINDS = {"char": "b", "uchar": "B", "short": "h", "ushort": "H", "int": "i", "uint": "I", "float": "f", "double": "d"}
KINDS |= {"int8": "b", "uint8": "B", "int16": "h", "uint16": "H", "int32": "i", "uint32": "I", "float32": "f", "float64": "d"}
ORDERS = {"ascii": "", "binary_little_endian": "<", "binary_big_endian": ">"}
WHOLE = "bBhHiI"
LISTS = ("vertex_indices", "vertex_index")


class Element:
    """What a header tells of an element: its count, and for each property its name, kind and, of a list, the kind of its length."""

    def __init__(self, name: str, count: int):
        if count < 0:
            raise ValueError
        self.name, self.count, self.properties = name, count, []

    def add(self, words: list[str]) -> None:
        if words[1] == "list":
            length, kind, name = KINDS[words[2]], KINDS[words[3]], words[4]
            if length not in WHOLE:
                raise ValueError
        else:
            length, kind, name = None, KINDS[words[1]], words[2]
        if any(name == other for other, _, _ in self.properties):
            raise ValueError
        self.properties.append((name, kind, length))

    def kind(self, name: str) -> str:
        return next(kind for other, kind, _ in self.properties if other == name)

    def has(self, names, lists: bool) -> bool:
        return {name for name, _, length in self.properties if (length is not None) == lists} >= set(names)


def ply_header(data: bytes) -> tuple:
    """(order, elements, byte after the header, its lines). The elements are looked at up to the faces: what follows them is passed over."""
    end = re.search(rb"^end_header[ \t]*(\r\n|\n|\r)", data, re.M)
    if not re.match(rb"ply\s", data):
        raise FileFault("no PLY: its first line is not 'ply'")
    if not end:
        raise FileFault("the PLY's header does not end")
    order, elements = None, []
    for at, words in _lines(data[: end.start()]):
        words = [word.decode("ascii", "replace") for word in words]
        try:
            if words[0] == "format":
                order = ORDERS[words[1]]
            elif words[0] == "element":
                elements.append(Element(words[1], int(words[2])))
            elif words[0] == "property":
                elements[-1].add(words)
        except (IndexError, KeyError, ValueError):
            raise FileFault(f"the PLY's header cannot be read here: {' '.join(words)[:60]!r}", at) from None
    if order is None:
        raise FileFault("the PLY's header tells no format")
    return order, elements, end.end(), data[: end.end()].count(b"\n")


def _needed(elements: list) -> list:
    """The elements up to vertex and face, each of which is there once and has what a skin needs."""
    names = [element.name for element in elements]
    for name, what in (("vertex", "points"), ("face", "faces")):
        if names.count(name) != 1:
            raise FileFault(f"its header tells {names.count(name)} elements {name!r}, and {what} are told by one")
    vertex, face = (elements[names.index(name)] for name in ("vertex", "face"))
    if not vertex.has("xyz", lists=False):
        raise FileFault("its points have no x, y and z")
    if not any(face.has([name], lists=True) and face.kind(name) in WHOLE for name in LISTS):
        raise FileFault(f"its faces have no list {' or '.join(LISTS)} of whole numbers")
    needed = elements[: max(names.index("vertex"), names.index("face")) + 1]
    for element in needed:
        if not element.properties:
            raise FileFault(f"its element {element.name!r} has no properties")
    return needed


class Words:
    """The elements of an ASCII body, a line each."""

    def __init__(self, body: bytes, before: int):
        self.lines = [(before + at, words) for at, words in _lines(body)]
        self.done = 0

    def take(self, element: Element) -> dict:
        part = self.lines[self.done : self.done + element.count]
        self.done += element.count
        if len(part) < element.count:
            raise FileFault(f"its header tells {element.count:,} of {element.name}, and the file ends after {len(part):,}")
        columns = {name: [] for name, _, _ in element.properties}
        for at, words in part:
            for name, kind, length in element.properties:
                count = 1 if length is None else _numbers(words, at, int, 1)[0]
                words = words if length is None else words[1:]
                if count < 0:
                    raise FileFault("a list of a length below zero", at)
                values = _numbers(words, at, int if kind in WHOLE else float, count)
                columns[name].append(values[0] if length is None else values)
                words = words[count:]
        return columns


class Bytes:
    """The elements of a binary body."""

    def __init__(self, body: bytes, order: str):
        self.body, self.order, self.done = body, order, 0

    def take(self, element: Element) -> dict:
        try:
            if all(length is None for _, _, length in element.properties):
                return self.plain(element)
            columns = {name: [] for name, _, _ in element.properties}
            for _ in range(element.count):
                for name, kind, length in element.properties:
                    values = self.values(kind, 1 if length is None else self.values(length, 1)[0])
                    columns[name].append(values[0] if length is None else values)
            return columns
        except (struct.error, OverflowError):
            raise FileFault(f"its header tells {element.count:,} of {element.name}, and the file ends before them: it is cut short") from None

    def values(self, kind: str, count: int) -> tuple:
        form = struct.Struct(f"{self.order}{count}{kind}")
        values = form.unpack_from(self.body, self.done)
        self.done += form.size
        return values

    def plain(self, element: Element) -> dict:
        """An element without lists: all of it at once."""
        kinds = np.dtype({"names": [f"{i}" for i, _ in enumerate(element.properties)], "formats": [self.order + kind for _, kind, _ in element.properties]})
        if element.count * kinds.itemsize > len(self.body) - self.done:
            raise OverflowError
        table = np.frombuffer(self.body, kinds, element.count, self.done)
        self.done += table.nbytes
        return {name: table[f"{i}"] for i, (name, _, _) in enumerate(element.properties)}


def read_ply(data: bytes) -> tuple:
    """Points x, y, z and faces vertex_indices or vertex_index; other elements and properties are passed over."""
    order, elements, start, before = ply_header(data)
    body = Bytes(data[start:], order) if order else Words(data[start:], before)
    needed = _needed(elements)
    taken = {element.name: body.take(element) for element in needed}
    face = next(element for element in needed if element.name == "face")
    rows = taken["face"][next(name for name in LISTS if face.has([name], lists=True))]
    for at, row in enumerate(rows):
        if len(row) != 3:
            raise FileFault(f"face {at} has {len(row)} corners: {TRIANGLES}")
    points = np.stack([np.asarray(taken["vertex"][axis], float) for axis in "xyz"], 1)
    vertex = next(element for element in needed if element.name == "vertex")
    return points, _rows(rows), bool(order) and all(vertex.kind(axis) == "f" for axis in "xyz")


READERS = {".stl": read_stl, ".obj": read_obj, ".ply": read_ply, ".off": read_off}


# Counting before reading


def _count(file, words: list[bytes]) -> int:
    """How often the words stand in a file, in blocks."""
    longest, count, tail = max(map(len, words)), 0, b"\n"
    while block := file.read(BLOCK):
        block = tail + block.lower()
        count += sum(block.count(word) for word in words)
        tail = block[len(block) - longest + 1 :]
    return count


def told_rows(file, size: int, kind: str) -> int:
    """How many rows a file tells or seems to have: its size, its header, or words counted; nothing is parsed."""
    head = file.read(1 << 16)
    if kind == ".stl":
        count = _binary_stl(head[:HEAD], size)
        if count is not None:
            return count
    file.seek(0)
    if kind == ".stl":
        return _count(file, [b"endfacet"])
    if kind == ".obj":
        return _count(file, [b"\nf ", b"\nf\t"])
    pattern = rb"^element\s+face\s+(\d{1,18})\s" if kind == ".ply" else rb"\A\s*\w*OFF\s+(?:#[^\n]*\n\s*)*\d+\s+(\d{1,18})\b"
    told = re.search(pattern, head, re.M)
    if told and int(told[1]) > size:
        raise FileFault(f"it tells {int(told[1]):,} faces, and has {size:,} bytes: it is cut short")
    return int(told[1]) if told else 0

"""Flips: the calls against change request 6 in Python's own words, lists of edges and flip logs, what the commands say of each flip and of the edge or
the record that is refused, and what they write then."""
import json
import random
import re

import numpy as np
import pytest
from conftest import ROOT
from hypothesis import given
from hypothesis import strategies as st
from scans import off, shaft
from tables import O_CORNERS, O_ROWS, T_CORNERS, T_ROWS, damaged, exact_sum, figure
from texts import damaged_by, mended

import flaxglimmer as fg
from flaxglimmer import calls, faults, files, flips, lent
from flaxglimmer.header import LIMITS

SHEETS, SPALLED = ROOT / "sheets", ROOT / "scans" / "spalled.stl"

# The octahedron worked by hand. The rows (0, 1, 2), at place 0, and (1, 0, 4), stored as (0, 4, 1) at place 3, have the edge 0 1: c is 2 and d is 4.
# Then (2, 5, 3), stored as (5, 3, 2) at place 5, and (5, 2, 1), at place 4, have the edge 2 5: c is 3 and d is 1.
EDGES = [(0, 1), (2, 5)]
LOG = [[0, 0, 1, 2, 3, 0, 4, 1], [5, 5, 3, 2, 4, 5, 2, 1]]
AFTER_ONE = [(2, 0, 4), (0, 2, 3), (0, 3, 4), (2, 4, 1), (5, 2, 1), (5, 3, 2), (5, 4, 3), (5, 1, 4)]
AFTER_TWO = [(2, 0, 4), (0, 2, 3), (0, 3, 4), (2, 4, 1), (3, 1, 5), (3, 2, 1), (5, 4, 3), (5, 1, 4)]
O_FLIPS = b"FLIPS\t6\t8\nF\t0\t0\t1\t2\t3\t0\t4\t1\nF\t5\t5\t3\t2\t4\t5\t2\t1\n"
DONE = [
    "flip 0: edge 0 1 became 2 4; row (0, 1, 2) at place 0 became (2, 0, 4), row (0, 4, 1) at place 3 became (2, 4, 1)",
    "flip 1: edge 2 5 became 3 1; row (5, 3, 2) at place 5 became (3, 2, 1), row (5, 2, 1) at place 4 became (3, 1, 5)",
]
UNDONE = [
    "flip 1: edge 3 1 is 2 5 again; row (3, 2, 1) at place 5 is (5, 3, 2) again, row (3, 1, 5) at place 4 is (5, 2, 1) again",
    "flip 0: edge 2 4 is 0 1 again; row (2, 0, 4) at place 0 is (0, 1, 2) again, row (2, 4, 1) at place 3 is (0, 4, 1) again",
]


# The request in Python


def turns(row):
    a, b, c = row
    return [(a, b, c), (b, c, a), (c, a, b)]


def at_edge(rows, a, b):
    """The place of the row (a, b, c), however it is stored, and c; None where there is none."""
    return next(((place, z) for place, row in enumerate(rows) for x, y, z in turns(row) if (x, y) == (a, b)), None)


def neighbours(rows, c, d):
    return any(c in row and d in row for row in rows)


def one_flip(rows, a, b):
    """The rows and the record, or the refusal."""
    first, second = at_edge(rows, a, b), at_edge(rows, b, a)
    if first is None or second is None:
        return 30
    (p, c), (q, d) = first, second
    if neighbours(rows, c, d):
        return 31
    record, rows = [p, *rows[p], q, *rows[q]], list(rows)
    rows[p], rows[q] = (c, a, d), (c, d, b)
    return rows, record


def flipped(rows, edges):
    """Status, rows and log."""
    log = []
    for a, b in edges:
        came = one_flip(rows, a, b)
        if isinstance(came, int):
            return came, rows, log
        rows = came[0]
        log.append(came[1])
    return 0, rows, log


def is_stage(rows, corners):
    """01's stage: numbers below the count, three in a row, each directed edge once and its reverse too, one ring round each corner, connected."""
    edges = [edge for a, b, c in rows for edge in ((a, b), (b, c), (c, a))]
    if any(len({*row}) < 3 or max(row) >= corners for row in rows) or len({*edges}) < len(edges) or {(b, a) for a, b in edges} != {*edges}:
        return False
    for corner in {a for a, _ in edges}:
        follows = {x: y for row in rows for first, x, y in turns(row) if first == corner}
        if len(walk(follows, min(follows))) < len(follows):
            return False
    near = {}
    for a, b in edges:
        near.setdefault(a, set()).add(b)
    met, ahead = set(), [edges[0][0]]
    while ahead:
        met.add(corner := ahead.pop())
        ahead += near[corner] - met
    return met == {*near}


def walk(follows, start):
    ring = [start]
    while (after := follows[ring[-1]]) != start:
        ring.append(after)
    return ring


def undone(rows, corners, log):
    """Status, rows, and how many were undone: the two rows put back give a stage whose flip is allowed and writes the present rows and this record."""
    for count, record in enumerate(reversed(log)):
        p, q = record[0], record[4]
        back = list(rows)
        if max(p, q) >= len(rows):
            return 32, rows, count
        back[q], back[p] = tuple(record[5:]), tuple(record[1:4])
        came = [one_flip(back, a, b) for a, b, _ in turns(record[1:4])] if is_stage(back, corners) else []
        if (rows, record) not in came:
            return 32, rows, count
        rows = back
    return 0, rows, len(log)


def tuples(rows):
    return [tuple(row) for row in np.asarray(rows).tolist()]


def answer(call, *arguments):
    """Status, rows and log of flips, or of their undoing rows and count."""
    try:
        came = call(*arguments)
    except fg.Refused as refused:
        return refused.number, tuples(refused.rows), refused.log.tolist() if call is calls.flip_list else refused.records
    return (0, tuples(came[0]), came[1].tolist()) if call is calls.flip_list else (0, tuples(came), len(np.reshape(arguments[2], (-1, 8))))


# The calls


def test_the_octahedron_worked_by_hand():
    rows, log = fg.flip_list(O_ROWS, 6, EDGES)
    assert tuples(rows) == AFTER_TWO and log.tolist() == LOG and rows.shape == (8, 3) and log.shape == (2, 8)
    assert tuples(fg.flip_list(O_ROWS, 6, EDGES[:1])[0]) == AFTER_ONE
    assert tuples(fg.undo_flips(AFTER_TWO, 6, LOG)) == tuples(O_ROWS) and tuples(fg.undo_flips(AFTER_TWO, 6, LOG[1:])) == AFTER_ONE
    # the other way along the edge c is 4 and d is 2
    rows, log = fg.flip_list(O_ROWS, 6, [1, 0])
    assert log.tolist() == [[3, 0, 4, 1, 0, 0, 1, 2]] and tuples(rows)[3] == (4, 1, 2) and tuples(rows)[0] == (4, 2, 0)
    # each flip takes a quarter off: four thirds of a cubic metre, one, and two thirds
    assert [fg.exact_sum(stage, O_CORNERS) for stage in (O_ROWS, AFTER_ONE, AFTER_TWO)] == [8_000_000, 6_000_000, 4_000_000]
    assert [fg.volume(stage, O_CORNERS) for stage in (O_ROWS, AFTER_ONE, AFTER_TWO)] == [1, 1, 1] and fg.change(O_ROWS, AFTER_TWO, O_CORNERS) == -1


def test_every_edge_of_the_octahedron_is_flipped_and_none_of_the_tetrahedron():
    for a in range(7):
        for b in range(7):
            opposite = {a, b} in ({0, 5}, {1, 3}, {2, 4})
            status, rows, log = answer(calls.flip_list, O_ROWS, 6, [(a, b)])
            assert status == (30 if a == b or opposite or 6 in (a, b) else 0) and (status, rows, log) == flipped(tuples(O_ROWS), [(a, b)])
            assert answer(calls.flip_list, T_ROWS, 4, [(a, b)]) == (30 if a == b or max(a, b) > 3 else 31, tuples(T_ROWS), [])


def skin_rows(seed):
    """Rows of a shaft, sometimes thinned, its rows in another order, turned, or a few of its corners with other numbers; and how many corners there are."""
    chance = random.Random(seed)
    points, rows = shaft(3 + seed % 4, 2 + seed % 3, seed=seed)
    if seed % 3 == 0:
        rows = fg.thin(fg.from_points(points, rows, "m"), f"{2 + seed % 5} m").rows
    corners = len(points) + seed % 2
    order = chance.sample(range(corners), corners)
    rows = [turns([order[corner] for corner in row])[chance.randrange(3)] for row in np.asarray(rows).tolist()]
    return chance.sample(rows, len(rows)), corners


def drawn_edges(chance, rows, corners, length):
    """Edges that mostly stand when their turn comes, and a last one that may be anything."""
    edges = []
    for _ in range(length):
        _, now, _ = flipped(rows, edges)
        standing = [(a, b) for row in now for a, b, _ in turns(row) if not isinstance(one_flip(now, a, b), int)]
        edges += [chance.choice(standing)] if standing else []
    return edges + chance.choice([[], [(chance.randrange(corners + 1), chance.randrange(corners + 1))], [chance.choice(rows)[:2]], [(2**32 - 1, 0)]]) + chance.choice([[], EDGES])


@pytest.mark.parametrize("part", range(6))
def test_lists_are_flipped_logged_and_undone_as_the_request_has_it(part):
    statuses = []
    for seed in range(25 * part, 25 * part + 25):
        chance, (rows, corners) = random.Random(seed), skin_rows(seed)
        edges = drawn_edges(chance, rows, corners, chance.randrange(9))
        came = answer(calls.flip_list, rows, corners, edges)
        assert came == flipped(rows, edges)
        status, after, log = came
        assert answer(calls.undo_flips, after, corners, log) == (0, rows, len(log))
        # the same corners, and as many edges: the Euler number stays
        assert is_stage(after, corners) and {v for row in after for v in row} == {v for row in rows for v in row} and len(after) == len(rows)
        points = np.array([[chance.randrange(-50_000, 50_001) for _ in range(3)] for _ in range(corners)], np.int64)
        first, last = exact_sum(np.array(rows), points), exact_sum(np.array(after), points)
        assert (fg.volume(after, points), fg.change(rows, after, points)) == (figure(last), figure(last - first))
        statuses.append(status)
    assert {0, 30, 31} <= {*statuses}


@given(st.integers(0, 60), st.lists(st.tuples(st.integers(0, 200), st.integers(-3, 3)), max_size=3), st.integers(0, 3))
def test_a_record_is_undone_exactly_when_the_request_says_so(seed, spoilt, harm):
    chance, (rows, corners) = random.Random(seed), skin_rows(seed % 20)
    _, after, log = flipped(rows, drawn_edges(chance, rows, corners, 5))
    for at, more in spoilt:
        if log:
            record = log[at // 8 % len(log)]
            record[at % 8] = max(0, record[at % 8] + more)
    if harm == 1 and log:
        log[0][1:4] = turns(log[0][1:4])[chance.randrange(3)]  # a row turned is undone too
    elif harm == 2:
        log = chance.sample(log, len(log))
    elif harm == 3:
        log = log + log[:1]
    assert answer(calls.undo_flips, after, corners, log) == undone(after, corners, log)


def test_a_row_may_be_turned_and_no_edge_doubled():
    assert tuples(fg.undo_flips(AFTER_ONE, 6, [0, 1, 2, 0, 3, 4, 1, 0])) == [(1, 2, 0), *tuples(O_ROWS[1:3]), (4, 1, 0), *tuples(O_ROWS[4:])]
    # (0, 1, 2) and (0, 2, 3) stand as a flip of 1 3 would have left them, and 1 and 3 are neighbours
    assert answer(calls.undo_flips, T_ROWS, 4, [[0, 1, 3, 0, 1, 3, 1, 2]]) == (32, tuples(T_ROWS), 0)


@pytest.mark.parametrize("seed", range(60))
def test_tables_are_asked_as_replay_asks_them(seed):
    rows, corners = damaged(seed)
    first, log = rows.astype(np.uint32).reshape(-1), np.full(16, 77, np.uint32)
    expected = status_of(lent.replay, len(corners), first.copy(), log[:0])
    for call, arguments, stops in ((lent.flip_list, (np.array([0, 0, 1, 2], np.uint32), log), 30), (lent.undo_flips, (np.full(8, 9_999, np.uint32),), 32)):
        table = first.copy()
        assert status_of(call, len(corners), table, *arguments) == (expected or stops)
        assert np.array_equal(table, first) and (log == 77).all()


def status_of(call, *arguments):
    try:
        call(*arguments)
    except fg.Refused as refused:
        return refused.number
    return 0


def test_2_comes_before_3_and_3_before_the_table():
    table, edges, log = O_ROWS.reshape(-1).copy(), np.array(EDGES, np.uint32).reshape(-1), np.full(19, 77, np.uint32)
    for corners, length, room, number in (
        (6, 3, 0, 2), (5, 3, 19, 2), (3, 4, 0, 2), (515, 4, 0, 2), (2**64 - 1, 4, 16, 2), (6, 4, 15, 3), (5, 4, 15, 3), (6, 4, 0, 3), (6, 2, 7, 3), (5, 4, 16, 5), (5, 0, 0, 5), (6, 0, 0, 0),
    ):  # fmt: skip
        assert status_of(lent.flip_list, corners, table, edges[:length], log[:room]) == number
        assert np.array_equal(table, O_ROWS.reshape(-1)) and (log == 77).all()
    assert status_of(lent.flip_list, 6, table[:23], edges, log) == status_of(lent.flip_list, 6, table[:9], edges, log) == 2
    assert lent.flip_list(6, table, edges, log) == 2 and log.tolist() == [*sum(LOG, []), 77, 77, 77]
    for length in (1, 7, 9, 15, 17):
        assert status_of(lent.undo_flips, 6, table, log[:length]) == status_of(lent.undo_flips, 5, table, log[:length]) == 2
    assert tuples(table.reshape(-1, 3)) == AFTER_TWO and lent.undo_flips(6, table, log[:16]) == 2 and np.array_equal(table, O_ROWS.reshape(-1))


def test_what_is_done_before_a_refusal_is_the_refusals():
    for edges, number in ((EDGES[:1] + [(5, 3)] + EDGES[1:], 31), (EDGES[:1] * 2, 30)):
        with pytest.raises(fg.Refused) as raised:
            fg.flip_list(O_ROWS, 6, edges)
        refused = raised.value
        assert (refused.number, refused.records, tuples(refused.rows), refused.log.tolist()) == (number, 1, AFTER_ONE, LOG[:1])
    with pytest.raises(fg.Refused) as raised:
        fg.undo_flips(AFTER_TWO, 6, [[1, *LOG[0][1:]], LOG[1]])
    assert (raised.value.number, raised.value.records, tuples(raised.value.rows)) == (32, 1, AFTER_ONE)


def test_what_is_lent_is_looked_at_first():
    table, edges, log = O_ROWS.reshape(-1).copy(), np.array([0, 1], np.uint32), np.zeros(8, np.uint32)
    locked = np.zeros(24, np.uint32)
    locked.flags.writeable = False
    for call, error in (
        (lambda: lent.flip_list(6, table.tolist(), edges, log), TypeError),
        (lambda: lent.flip_list(6, table, edges.astype(np.int32), log), TypeError),
        (lambda: lent.flip_list(6, table, edges, log.astype(np.int64)), TypeError),
        (lambda: lent.flip_list(6, locked, edges, log), ValueError),
        (lambda: lent.flip_list(6, table, edges, locked), ValueError),
        (lambda: lent.flip_list(-1, table, edges, log), OverflowError),
        (lambda: lent.flip_list(2**64, table, edges, log), OverflowError),
        (lambda: lent.undo_flips(6, locked, log), ValueError),
        (lambda: lent.undo_flips(6, table, log[::2]), TypeError),
        (lambda: lent.undo_flips(6.0, table, log), TypeError),
        (lambda: calls.flip_list(O_ROWS, 6, [[-1, 0]]), OverflowError),
        (lambda: calls.flip_list(O_ROWS, 6, [[0.5, 1]]), TypeError),
        (lambda: calls.undo_flips(O_ROWS, 6, [[2**32] * 8]), OverflowError),
    ):
        with pytest.raises(error) as raised:
            call()
        assert type(raised.value) is error  # and no refusal, which is a ValueError too
    assert np.array_equal(table, O_ROWS.reshape(-1)) and not log.any()
    rows = O_ROWS.copy()
    rows.flags.writeable = False
    calls.undo_flips(calls.flip_list(rows, 6, EDGES)[0], 6, LOG)
    assert np.array_equal(rows, O_ROWS)


# The commands


@pytest.fixture
def folder(tmp_path, run):
    """The octahedron as a sheet, its list of edges, and what flip makes of them."""
    put(tmp_path, files.sheet_text(fg.Skin(O_ROWS, O_CORNERS)).encode(), "o.sheet")
    put(tmp_path, b"0 1\n2 5\n", "o.edges")
    assert run("flip", tmp_path / "o.sheet", tmp_path / "o.edges", "--sheet", tmp_path / "f.sheet", "--log", tmp_path / "o.flips").exit == 0
    return tmp_path


def put(folder, data, name):
    (folder / name).write_bytes(data)
    return folder / name


def sheet_of(rows):
    return files.sheet_text(fg.Skin(np.array(rows), O_CORNERS)).encode()


def volumes(told):
    """Volume before and after, and the change."""
    _, before, after = [line.split() for line in told.out.splitlines()[-3:]]
    return [int(number.replace(",", "")) for number in (*before[-2:], after[-1])]


def test_flip_tells_each_flip_and_writes_sheet_and_log(folder, run):
    told = run("flip", folder / "o.sheet", folder / "o.edges")
    assert told.exit == 0 and told.err == "" and told.out.splitlines()[:3] == ["o.sheet: 2 flips done", *DONE] and volumes(told) == [1, 1, -1]
    assert (folder / "f.sheet").read_bytes() == sheet_of(AFTER_TWO) and (folder / "o.flips").read_bytes() == O_FLIPS
    assert run("flip", folder / "o.sheet", folder / "o.edges", "--json").told == {
        "exit": 0, "notes": [], "status": 0, "file": "o.sheet", "listed": 2, "flips": 2, "volume": [1, 1], "change": -1,
        "log": [
            {"flip": 0, "edge": [0, 1], "became": [2, 4], "places": [0, 3], "before": [[0, 1, 2], [0, 4, 1]], "after": [[2, 0, 4], [2, 4, 1]]},
            {"flip": 1, "edge": [2, 5], "became": [3, 1], "places": [5, 4], "before": [[5, 3, 2], [5, 2, 1]], "after": [[3, 2, 1], [3, 1, 5]]},
        ],
    }  # fmt: skip


def test_undo_restores_the_sheet_byte_for_byte(folder, run):
    told = run("undo", folder / "f.sheet", folder / "o.flips", "--sheet", folder / "back.sheet")
    assert told.exit == 0 and told.err == "" and told.out.splitlines()[:3] == ["f.sheet: 2 flips undone", *UNDONE] and volumes(told) == [1, 1, 1]
    assert (folder / "back.sheet").read_bytes() == (folder / "o.sheet").read_bytes()
    told = run("undo", folder / "f.sheet", folder / "o.flips", "--json").told
    assert (told["status"], told["file"], told["listed"], told["flips"], told["volume"], told["change"]) == (0, "f.sheet", 2, 2, [1, 1], 1)
    assert [(one["flip"], one["edge"], one["became"]) for one in told["log"]] == [(1, [2, 5], [3, 1]), (0, [0, 1], [2, 4])]


@pytest.mark.parametrize("file,options", [(SPALLED, ["--unit", "m"]), (SPALLED, ["--unit", "m", "--turn"]), (SHEETS / "shaft.sheet", []), (SHEETS / "torus.sheet", [])])
def test_a_skin_comes_back_from_many_flips(file, options, tmp_path, run):
    skin = fg.read(file, options[1] if options else None, turn="--turn" in options)
    edges = drawn_edges(random.Random(1), tuples(skin.rows), len(skin.corners), 12)[:12]
    listed = put(tmp_path, "".join(f"{a}\t{b}\n" for a, b in edges).encode(), "a.edges")
    told = run("flip", file, listed, *options, "--sheet", tmp_path / "f.sheet", "--log", tmp_path / "a.flips")
    _, rows, log = flipped(tuples(skin.rows), edges)
    corners = skin.corners.astype(np.int64)
    first, last = exact_sum(skin.rows, corners), exact_sum(np.array(rows), corners)
    assert told.exit == 0 and len(log) == 12 and volumes(told) == [figure(first), figure(last), figure(last - first)]
    assert ("rows turn inward" in told.err) == (first < 0) and ("rounded once to whole centimetres" in told.err) == bool(options)
    assert tuples(files.read_sheet(tmp_path / "f.sheet").rows) == rows and run("check", tmp_path / "f.sheet").exit == 0
    told = run("undo", tmp_path / "f.sheet", tmp_path / "a.flips", "--sheet", tmp_path / "back.sheet")
    assert told.exit == 0 and volumes(told) == [figure(last), figure(first), figure(first - last)]
    assert (tmp_path / "back.sheet").read_text() == run("sheet", file, *options, "--quiet").out
    # the flipped skin is a skin as any other: it is thinned
    assert run("thin", tmp_path / "f.sheet", "--limit", "none").exit == 0


def test_the_list_that_ships(tmp_path, run):
    assert flips.read_edges((SHEETS / "octahedron.edges").read_bytes()).numbers.tolist() == [[0, 1], [2, 5]]
    told = run("flip", SHEETS / "octahedron.sheet", SHEETS / "octahedron.edges", "--log", tmp_path / "o.flips")
    assert told.exit == 0 and (tmp_path / "o.flips").read_bytes() == O_FLIPS
    becomes = re.findall(r"(\d) (\d) +# becomes (\d) (\d)", (SHEETS / "octahedron.edges").read_text())
    assert [tuple(map(int, one)) for one in becomes] == [(0, 1, 2, 4), (2, 5, 3, 1)]


# Lists of edges


LISTS = [
    (b"", [], []),
    (b"\n\n# nothing\n", [], []),
    (b"0 1", [(0, 1)], [1]),
    (b"0\t1\n2,5\n", [(0, 1), (2, 5)], [1, 2]),
    (b"  0   1  \n\n# and then\n2 ,\t5# its end\n\n", [(0, 1), (2, 5)], [1, 4]),
    (b"\xef\xbb\xbf0 1\r\n2, 5\r\n", [(0, 1), (2, 5)], [1, 2]),
    (b"# \xc3\xa9 \xff\n0 1 # \xc3\xa9\n", [(0, 1)], [2]),
    (b"4294967295 0\n", [(2**32 - 1, 0)], [1]),
    (b"007 8\n", [(7, 8)], [1]),
    (b"0" * 5000 + b"7, " + b"0" * 5000 + b"\n", [(7, 0)], [1]),
    (b"\r\n\r\r\n 0 1 #\r\n\x0b2 5\x0c\r", [(0, 1), (2, 5)], [3, 4]),
]  # fmt: skip


@pytest.mark.parametrize("data,edges,lines", LISTS, ids=range(len(LISTS)))
def test_an_edge_a_line_parted_by_blanks_a_tab_or_a_comma(data, edges, lines):
    listed = flips.read_edges(data)
    assert tuples(listed.numbers) == edges and listed.lines == lines
    assert listed.bytes == [sum(len(line) + 1 for line in data.split(b"\n")[: line - 1]) for line in lines]


PARTED = "not two corner numbers from 0, parted by blanks, a tab or a comma"
LARGE = "a corner number over 4,294,967,295, which is too large"
NO_LISTS = [
    (b"0\n", 1, f"{PARTED}: '0'"),
    (b"0 1\n2 5 3\n", 2, f"{PARTED}: '2 5 3'"),
    (b"0 1\n\n# more\n2;5\n", 4, f"{PARTED}: '2;5'"),
    (b"0,,1\n", 1, f"{PARTED}: '0,,1'"),
    (b"0,1,\n", 1, PARTED),
    (b"0 -1\n", 1, f"{PARTED}: '0 -1'"),
    (b"0 1.0\n", 1, PARTED),
    (b"0 4294967296\n", 1, f"{LARGE}: '0 4294967296'"),
    (b"099999999999 0\n", 1, f"{LARGE}: '099999999999 0'"),
    (b"0 " + b"9" * 5000 + b"\n", 1, LARGE),
    (b"edge 0 1\n", 1, PARTED),
    ("٠ ١\n".encode(), 1, PARTED),
    (b"\x1b[31m\n", 1, f"{PARTED}: '\\x1b[31m'"),
    (b"0 1\r2 5\r", 1, "a carriage return within the line, and lines end in newlines: '0 1\\r2 5\\r'"),
    (b"# two\r0 1\r2 5\r", 1, "a carriage return within the line"),
    ("0 1\n".encode("utf-16"), None, "the file has 16 bits a letter"),
    (b"#" * (2**20 + 1), None, "no list of edges: it has over 1,048,576 bytes"),
    (O_FLIPS, 1, "no list of edges but a flip log, which `flaxglimmer undo` reads: 'FLIPS\\t6\\t8'"),
    (b"LOG\t6\t8\n", 1, "no list of edges but a log sheet"),
    (b"SKIN\t6\t8\n", 1, "no list of edges but a sheet: 'SKIN\\t6\\t8'"),
]  # fmt: skip


@pytest.mark.parametrize("data,line,words", NO_LISTS, ids=range(len(NO_LISTS)))
def test_what_is_no_list_of_edges_ends_with_3_and_writes_nothing(data, line, words, folder, run):
    asked = ["flip", folder / "o.sheet", put(folder, data, "a.edges"), "--sheet", folder / "out.sheet", "--log", folder / "out.flips"]
    told = run(*asked)
    where = "" if line is None else f"line {line}: "
    assert told.exit == 3 and told.out == "" and told.err.startswith(f"flaxglimmer: a.edges: {where}{words}") and told.err.count("\n") == 1 and "\x1b" not in told.err
    assert not (folder / "out.sheet").exists() and not (folder / "out.flips").exists()
    told = run(*asked, "--json").told
    assert (told["exit"], told["status"], told["line"]) == (3, None, line)


def test_an_empty_list_flips_nothing(folder, run):
    told = run("flip", folder / "o.sheet", put(folder, b"# none yet\n", "a.edges"), "--sheet", folder / "out.sheet", "--log", folder / "out.flips")
    assert told.exit == 0 and told.out.splitlines()[0] == "o.sheet: 0 flips done" and volumes(told) == [1, 1, 0]
    assert (folder / "out.sheet").read_bytes() == (folder / "o.sheet").read_bytes() and (folder / "out.flips").read_bytes() == b"FLIPS\t6\t8\n"
    assert run("undo", folder / "o.sheet", folder / "out.flips").out.splitlines()[0] == "o.sheet: 0 flips undone"


def test_a_long_list_and_the_log_of_the_longest(tmp_path, run):
    """One edge to and fro: a flip turns it to 2 4, whose rows are (2, 4, 1) and (4, 2, 0)."""
    put(tmp_path, sheet_of(O_ROWS), "o.sheet")
    told = run("flip", tmp_path / "o.sheet", put(tmp_path, b"0 1\n2 4\n" * 1000 + b"0 1\n", "a.edges"), "--sheet", tmp_path / "f.sheet", "--log", tmp_path / "a.flips")
    assert told.exit == 0 and told.out.startswith("o.sheet: 2,001 flips done\n") and "flip 2000: edge 0 1 became 2 4; " in told.out
    told = run("undo", tmp_path / "f.sheet", tmp_path / "a.flips", "--sheet", tmp_path / "back.sheet")
    assert told.exit == 0 and (tmp_path / "back.sheet").read_bytes() == sheet_of(O_ROWS)
    # no list has more edges than one of four bytes a line, and no line of a flip log is longer than that of the last places and corners
    place, corner = LIMITS.MOST_ROWS - 1, LIMITS.MOST_CORNERS - 1
    longest = flips.RECORD.text([place, corner, corner, corner] * 2)
    assert len("FLIPS\t999999\t999999\n") + flips.MOST_LIST_BYTES // 4 * len(longest) <= flips.MOST_FLIP_LOG_BYTES


# Refused edges


AT = {0: "(0, 0, 100)", 1: "(100, 0, 0)", 2: "(0, 100, 0)", 3: "(-100, 0, 0)", 4: "(0, -100, 0)", 5: "(0, 0, -100)"}
REFUSED = [  # list, number, flips before it, its line and byte, corners, and why
    (b"1 3\n", 30, 0, 1, 0, [1, 3], f"edge 0, counted from 0, is 1 3: no row has both corner 1 at {AT[1]} cm and corner 3 at {AT[3]} cm; 0 flips were done before it"),
    (b"# twice\n0 1\n\n1,0\n", 30, 1, 4, 13, [1, 0], f"edge 1, counted from 0, is 1 0: no row has both corner 1 at {AT[1]} cm and corner 0 at {AT[0]} cm; flip 0 made it 2 4; 1 flip was done before it"),
    (b"0 1\n2 5\n0 1 # again\n", 30, 2, 3, 8, [0, 1], f"edge 2, counted from 0, is 0 1: no row has both corner 0 at {AT[0]} cm and corner 1 at {AT[1]} cm; flip 0 made it 2 4; 2 flips were done before it"),
    (b"0 1\n3 3\n", 30, 1, 2, 4, [3], f"edge 1, counted from 0, is 3 3: its two corners are one, corner 3 at {AT[3]} cm; 1 flip was done before it"),
    (b"9 9\n", 30, 0, 1, 0, [9], "edge 0, counted from 0, is 9 9: corner 9 is in no row, and there are 6 corners, counted from 0; 0 flips were done before it"),
    (b"0 1\n0 6\n2 5\n", 30, 1, 2, 4, [6], "edge 1, counted from 0, is 0 6: corner 6 is in no row, and there are 6 corners, counted from 0; 1 flip was done before it"),
    (b"4294967295 7\n", 30, 0, 1, 0, [2**32 - 1, 7], "edge 0, counted from 0, is 4294967295 7: corner 4294967295 is in no row, and there are 6 corners"),
    (b"0 1\n5 3\n2 5\n", 31, 1, 2, 4, [2, 4], f"edge 1, counted from 0, is 5 3: corner 2 at {AT[2]} cm and corner 4 at {AT[4]} cm, opposite to it, are neighbours already, since flip 0; 1 flip was done before it"),
    (b"0 1\n3 5\n", 31, 1, 2, 4, [4, 2], f"edge 1, counted from 0, is 3 5: corner 4 at {AT[4]} cm and corner 2 at {AT[2]} cm, opposite to it, are neighbours already, since flip 0; 1 flip was done before it"),
]  # fmt: skip


@pytest.mark.parametrize("data,number,before,line,byte,corners,why", REFUSED, ids=[f"{number}-{at}" for at, (_, number, *_) in enumerate(REFUSED)])
def test_a_refused_edge_is_told_and_the_flips_before_it_are_written(data, number, before, line, byte, corners, why, folder, run):
    asked = ["flip", folder / "o.sheet", put(folder, data, "a.edges"), "--sheet", folder / "out.sheet", "--log", folder / "out.flips"]
    listed = len(flips.read_edges(data).numbers)
    told = run(*asked)
    lines = told.err.splitlines()
    assert told.exit == 1 and len(lines) == 4 and lines[0].startswith(f"refused, {number}: ") and lines[1].startswith(f"  a.edges, line {line}, byte {byte}: {why}")
    assert lines[2] == "  out.flips and out.sheet have the flips before it and no others" and lines[3] == f"  hint: {faults.HINTS[number]}"
    assert told.out.splitlines()[: before + 1] == [f"o.sheet: {before} flip{'' if before == 1 else 's'} done of {listed}", *DONE[:before]]
    rows = (tuples(O_ROWS), AFTER_ONE, AFTER_TWO)[before]
    assert volumes(told) == [1, 1, (0, 0, -1)[before]]
    assert (folder / "out.sheet").read_bytes() == sheet_of(rows) and (folder / "out.flips").read_bytes() == b"".join(O_FLIPS.splitlines(keepends=True)[: before + 1])
    assert run("undo", folder / "out.sheet", folder / "out.flips", "--sheet", folder / "back.sheet").exit == 0
    assert (folder / "back.sheet").read_bytes() == (folder / "o.sheet").read_bytes()
    quiet = run(*asked[:3], "--quiet")
    assert quiet.exit == 1 and quiet.err.splitlines() == lines[:2] and quiet.out == told.out
    told = run(*asked, "--json").told
    (fault,) = told["faults"]
    at = [int(number) for number in re.findall(r"-?\d+", AT[corners[0]])] if corners[0] in AT else None
    assert (fault["line"], fault["byte"], fault["corners"], fault["at"], f"  {fault['text']}") == (line, byte, corners, at, lines[1])
    assert (told["exit"], told["status"], told["listed"], told["flips"], len(told["log"]), told["change"]) == (1, number, listed, before, before, (0, 0, -1)[before])


def test_places_are_in_the_files_unit(tmp_path, run):
    off(tmp_path / "t.off", T_CORNERS / 100, T_ROWS)
    told = run("flip", tmp_path / "t.off", "--unit", "m", put(tmp_path, b"0 3\n", "a.edges"))
    # the rows (0, 3, 1) and (3, 0, 2)
    assert told.exit == 1 and "corner 1 at (3.0, 0.0, 0.0) m and corner 2 at (0.0, 3.0, 0.0) m, opposite to it, are neighbours already; 0 flips" in told.err


def test_a_skin_that_is_refused_is_told_by_its_own_places_and_nothing_is_written(tmp_path, run):
    points, rows = shaft(5, 4)
    listed, out = put(tmp_path, b"0 1\n", "a.edges"), tmp_path / "out.sheet"
    for change, number, words in ((lambda: (points, rows[1:]), 8, "a hole of 3 edges"), (lambda: (points + [600, 0, 0], rows), 4, "corner 0 at (60"), (lambda: (points, rows[:3]), 2, "3 rows and")):
        off(tmp_path / "a.off", *change())
        for command, log in (("flip", listed), ("undo", put(tmp_path, flips.log_text(fg.read(tmp_path / "a.off", "m"), np.empty((0, 8), int)).encode(), "a.flips"))):
            told = run(command, tmp_path / "a.off", log, "--unit", "m", "--sheet", out)
            assert told.exit == 1 and told.out == "" and told.err.startswith(f"refused, {number}: ") and words in told.err and not out.exists()


# Flip logs


def test_a_log_of_another_skin_is_told_in_one_line(folder, run):
    for counts, told in ((b"7\t8", "7 corners and 8 rows"), (b"6\t10", "6 corners and 10 rows"), (b"3\t999999", "3 corners and 999,999 rows")):
        ended = run("undo", folder / "f.sheet", put(folder, O_FLIPS.replace(b"6\t8", counts, 1), "a.flips"), "--sheet", folder / "out.sheet")
        assert ended.exit == 2 and ended.out == "" and not (folder / "out.sheet").exists()
        assert ended.err == f"flaxglimmer: a.flips is the log of a skin of {told}, and f.sheet has 6 corners and 8 rows: is it the skin that the flips left?\n"


LINES = O_FLIPS.splitlines(keepends=True)
NOT_UNDONE = [  # log, flips undone, its line and byte, and why; the lines begin at bytes 0, 10 and 28
    (LINES[0] + LINES[1] + LINES[2].replace(b"F\t5", b"F\t6", 1), 0, 3, 28, "flip 1, counted from 0: place 6 has row (5, 4, 3), where its flip left (3, 2, 1); 0 flips were undone before it"),
    (LINES[0] + LINES[1] + LINES[2].replace(b"\t4\t5", b"\t8\t5", 1), 0, 3, 28, "flip 1, counted from 0: it has place 8, and there are 8 rows, counted from 0"),
    (LINES[0] + LINES[1].replace(b"F\t0", b"F\t1", 1) + LINES[2], 1, 2, 10, "flip 0, counted from 0: place 1 has row (0, 2, 3), where its flip left (2, 0, 4); 1 flip was undone before it"),
    (LINES[0] + LINES[1][:-2] + b"5\n" + LINES[2], 1, 2, 10, "flip 0, counted from 0: its rows (0, 1, 2) and (0, 4, 5) are not the two sides of an edge; 1 flip was undone before it"),
    (O_FLIPS + LINES[2], 1, 3, 28, "flip 1, counted from 0: place 5 has row (5, 3, 2), where its flip left (3, 2, 1); 1 flip was undone before it"),
    (LINES[0] + LINES[1] + LINES[1] + LINES[2], 2, 2, 10, "flip 0, counted from 0: place 0 has row (0, 1, 2), where its flip left (2, 0, 4); 2 flips were undone before it"),
    (LINES[0] + b"F\t0\t0\t1\t2\t3\t2\t1\t0\n", 0, 2, 10, "flip 0, counted from 0: its rows (0, 1, 2) and (2, 1, 0) have the same corners; 0 flips"),
    (LINES[0] + b"F\t0\t0\t1\t2\t3\t1\t0\t2\n", 0, 2, 10, "flip 0, counted from 0: its rows (0, 1, 2) and (1, 0, 2) have the same corners; 0 flips"),
    (LINES[0] + b"F" + b"\t0" * 8 + b"\n", 0, 2, 10, "flip 0, counted from 0: its rows (0, 0, 0) and (0, 0, 0) have the same corners; 0 flips"),
    (LINES[0] + b"F\t999999" + b"\t0" * 7 + b"\n", 0, 2, 10, "flip 0, counted from 0: it has place 999999, and there are 8 rows"),
]  # fmt: skip


@pytest.mark.parametrize("data,before,line,byte,why", NOT_UNDONE, ids=range(len(NOT_UNDONE)))
def test_a_record_that_is_not_undone_is_told_and_those_undone_are_written(data, before, line, byte, why, folder, run):
    asked = ["undo", folder / "f.sheet", put(folder, data, "a.flips"), "--sheet", folder / "out.sheet"]
    told = run(*asked)
    lines, records = told.err.splitlines(), data.count(b"F\t")
    assert told.exit == 1 and len(lines) == 4 and lines[0] == "refused, 32: a flip's record that is not undone"
    assert told.out.splitlines()[0] == f"f.sheet: {before} flip{'' if before == 1 else 's'} undone of {records}" and [line.partition(": ")[2] for line in told.out.splitlines()[1:-3]] == [line.partition(": ")[2] for line in UNDONE[:before]]
    assert (folder / "out.sheet").read_bytes() == sheet_of((AFTER_TWO, AFTER_ONE, O_ROWS)[before])
    assert lines[1].startswith(f"  a.flips, line {line}, byte {byte}: {why}") and lines[2] == "  out.sheet has the flips behind it undone and no others" and lines[3] == f"  hint: {faults.HINTS[32]}"
    told = run(*asked, "--json").told
    (fault,) = told["faults"]
    assert (told["exit"], told["status"], told["flips"], len(told["log"]), fault["line"], fault["byte"]) == (1, 32, before, before, line, byte)


def test_the_edge_that_stands_elsewhere_is_told(tmp_path, run):
    put(tmp_path, files.sheet_text(fg.Skin(T_ROWS, T_CORNERS)).encode(), "t.sheet")
    told = run("undo", tmp_path / "t.sheet", put(tmp_path, b"FLIPS\t4\t4\nF\t0\t1\t3\t0\t1\t3\t1\t2\n", "a.flips"))
    assert told.exit == 1 and "flip 0, counted from 0: corner 1 at (300, 0, 0) cm and corner 3 at (0, 0, 300) cm, the ends of its edge, are neighbours already; 0 flips were undone" in told.err


def test_flips_that_do_not_meet_may_be_undone_in_another_order(folder, run):
    told = run("undo", folder / "f.sheet", put(folder, LINES[0] + LINES[2] + LINES[1], "a.flips"), "--sheet", folder / "out.sheet")
    assert told.exit == 0 and (folder / "out.sheet").read_bytes() == (folder / "o.sheet").read_bytes()


def test_the_skin_before_its_flips_is_not_undone(folder, run):
    told = run("undo", folder / "o.sheet", folder / "o.flips")
    assert told.exit == 1 and told.err.startswith("refused, 32") and "line 3, byte 28: flip 1, counted from 0: place 5 has row (5, 3, 2), where its flip left (3, 2, 1); 0 flips" in told.err
    assert "is FILE the skin that the flips left, as `flip --sheet` wrote it" in told.err


@given(st.integers(0, 60), st.integers(0, 7), st.integers(-3, 9))
def test_every_record_that_is_not_undone_has_its_words(seed, field, more):
    chance, (rows, corners) = random.Random(seed), skin_rows(seed % 20)
    _, after, log = flipped(rows, drawn_edges(chance, rows, corners, 4))
    if not log:
        return
    record = chance.choice(log)
    record[field] = max(0, record[field] + more)
    skin = fg.Skin(np.array(after, np.uint32), np.array([(i, i * i % 97, i * i * i % 89) for i in range(corners)], np.int32))
    status, left, count = undone(after, corners, log)
    text = flips.log_text(skin, np.array(log)).encode()
    counts, listed = flips.read_log(text, "a.flips")
    assert counts == (corners, len(rows)) and listed.numbers.tolist() == log
    if calls.check(skin.rows, skin.corners):
        return  # a corner that no row uses: the command says so first
    led = flips.undo(skin, listed, "a.flips")
    assert tuples(led.rows) == left and len(led.flips) == count and (led.refused is None) == (status == 0)
    if status:
        (fault,) = led.refused.faults
        assert fault.text.startswith(f"a.flips, line {len(log) + 1 - count}, byte {fault.byte}: flip {len(log) - 1 - count}, ") and text[fault.byte :].startswith(b"F\t")


MAIL = [
    (O_FLIPS.replace(b"\n", b"\r\n"), 1, "the line ends in a carriage return"),
    (LINES[0] + LINES[1].replace(b"\n", b" \n") + LINES[2], 2, "the line ends in blanks"),
    (O_FLIPS.replace(b"\t", b"    "), 1, "the line has blanks where tabs should be"),
    (b"".join(b"> " + line for line in LINES), 1, "the line has > or blanks in front"),
    (b"\xef\xbb\xbf" + O_FLIPS, 1, "the line has a byte order mark in front"),
    (O_FLIPS.decode().encode("utf-16"), 1, "the file has 16 bits a letter"),
    (O_FLIPS + b"\n", 4, "an empty line"),
    (O_FLIPS[:-1], 3, "the last line has no newline"),
]  # fmt: skip


@pytest.mark.parametrize("data,line,words", MAIL, ids=[words for _, _, words in MAIL])
def test_what_mail_and_editors_do_is_told_and_how_it_is_undone(data, line, words, folder, run):
    told = run("undo", folder / "f.sheet", put(folder, data, "flips of shaft 3.flips"))
    assert told.exit == 3 and told.out == "" and told.err.startswith(f"flaxglimmer: flips of shaft 3.flips: line {line}: {words}") and told.err.count("\n") == 1
    assert mended(told.err, folder) == O_FLIPS


SPOILT = [
    (b"", 1, "the file is empty"),
    (b"FLIPS", 1, "0 numbers and not 2, and the file ends in it: 'FLIPS'"),
    (b"FLIPS\t6\n", 1, "1 number and not 2: 'FLIPS\\t6'"),
    (O_FLIPS.replace(b"FLIPS\t6", b"FLIPS\t06"), 1, "number 1 is '06', and not one to six digits"),
    (O_FLIPS.replace(b"FLIPS", b"flips"), 1, "not FLIPS and 2 numbers, parted by tabs: 'flips\\t6\\t8'"),
    (LINES[0] + b"F\t0\t0\t1\t2\t3\t0\t4\n" + LINES[2], 2, "7 numbers and not 8"),
    (O_FLIPS + LINES[1].replace(b"\n", b"\t1\n"), 4, "9 numbers and not 8"),
    (O_FLIPS.replace(b"\t5\t3", b"\t-5\t3"), 3, "number 2 is '-5'"),
    (O_FLIPS.replace(b"\t5\t3", b"\t1234567\t3"), 3, "number 2 is '1234567'"),
    (O_FLIPS[:-5], 3, "6 numbers and not 8, and the file ends in it: 'F\\t5\\t5\\t3\\t2\\t4\\t5'"),
    (O_FLIPS + b"K\t0\t1\n", 4, "not F and 8 numbers, parted by tabs: 'K\\t0\\t1'"),
    (O_FLIPS + b"\x1b[31m\n", 4, "not F and 8 numbers, parted by tabs: '\\x1b[31m'"),
    (O_FLIPS + O_FLIPS, 4, "not F and 8 numbers"),
    (b"LOG\t6\t8\n", 1, "no flip log but a log sheet, whose records `flaxglimmer grow-back` takes back: 'LOG\\t6\\t8'"),
    (b"OK\t4\t2\t1\t0\n", 1, "no flip log but the desk's answer"),
    (b"SKIN\t6\t8\n", 1, "no flip log but a sheet"),
    (b"JOB\t1\n", 1, "no flip log but a job sheet"),
    (b"0 1\n2 5\n", 1, "not FLIPS and 2 numbers, parted by tabs: '0 1'"),
    (LINES[0] + LINES[1] * 932_068, None, "no flip log: it has over 16,777,216 bytes"),
]  # fmt: skip


@pytest.mark.parametrize("data,line,words", SPOILT, ids=range(len(SPOILT)))
def test_other_damage_of_a_flip_log_is_told_by_its_line(data, line, words, folder, run):
    asked = ["undo", folder / "f.sheet", put(folder, data, "a.flips"), "--sheet", folder / "out.sheet"]
    told = run(*asked)
    where = "" if line is None else f"line {line}: "
    assert told.exit == 3 and told.out == "" and told.err.startswith(f"flaxglimmer: a.flips: {where}{words}") and told.err.count("\n") == 1 and "\x1b" not in told.err
    assert not (folder / "out.sheet").exists()
    told = run(*asked, "--json").told
    assert (told["exit"], told["status"], told["line"]) == (3, None, line)


def test_a_flip_log_cut_at_any_byte_is_whole_only_after_a_line(folder, run):
    for cut in range(len(O_FLIPS)):
        told = run("undo", folder / "f.sheet", put(folder, O_FLIPS[:cut], "a.flips"))
        if cut and O_FLIPS[cut - 1 : cut] == b"\n":  # of fewer flips; the first may be undone before the second, since they do not meet
            assert told.exit == 0 and told.out.startswith(f"f.sheet: {O_FLIPS[:cut].count(b'F') - 1} flip")
        else:
            whole = O_FLIPS[:cut].count(b"\n")
            assert told.exit == 3 and f"a.flips: line {whole + 1}: " in told.err


DAMAGE = st.tuples(st.integers(0, 4), st.integers(0, 2**20), st.sampled_from([b"\t", b"\n", b"\r", b" ", b"0", b"7", b"-", b"F", b"#", b"\0", b"\xff", b"FLIPS\t", b"F\t1\t2\n"]))


@given(st.sampled_from([O_FLIPS, b"FLIPS\t6\t8\n", O_FLIPS + LINES[1] * 5]), st.lists(DAMAGE, max_size=3))
def test_damaged_logs_are_read_as_their_form_says(data, damage):
    data = damaged_by(data, damage)
    *lines, tail = data.split(b"\n")
    number = b"(?:0|[1-9][0-9]{0,5})"
    bad = [at for at, line in enumerate(lines, 1) if not re.fullmatch((b"FLIPS(\t%b){2}" if at == 1 else b"F(\t%b){8}") % number, line)]
    bad += [len(lines) + 1] if tail or not lines else []
    try:
        (corners, rows), listed = flips.read_log(data, "x")
    except fg.FileFault as fault:
        assert fault.line == bad[0] and str(fault).isprintable()
        return
    assert not bad and [corners, rows] == [int(field) for field in lines[0].split(b"\t")[1:]]
    assert listed.numbers.tolist() == [[int(field) for field in line.split(b"\t")[1:]] for line in lines[1:]]


@given(st.binary(max_size=200))
def test_any_bytes_end_in_a_line_and_no_traceback(data):
    for read in (flips.read_edges, lambda data: flips.read_log(data, "x")):
        try:
            read(data)
        except fg.FileFault as fault:
            assert str(fault).isprintable()


# Usage, and what must not happen


@pytest.mark.parametrize("arguments,message", [
    (["flip", "o.sheet"], "Missing argument"),
    (["undo", "o.sheet"], "Missing argument"),
    (["flip", "o.sheet", "o.edges", "--unit", "m"], "a sheet is in whole centimetres"),
    (["flip", "o.sheet", "o.edges", "--sheet", "o.sheet"], "never written over"),
    (["flip", "o.sheet", "o.edges", "--log", "o.edges"], "never written over"),
    (["flip", "o.sheet", "o.edges", "--log", "new", "--sheet", "new"], "named twice"),
    (["undo", "f.sheet", "o.flips", "--sheet", "f.sheet"], "never written over"),
    (["undo", "f.sheet", "o.flips", "--sheet", "link"], "never written over"),
    (["flip", "o.sheet", "o.edges", "--log", "none/new"], "cannot be written"),
    (["flip", "o.sheet", "o.edges", "--sheet", "new.sheet", "--log", "none/new"], "new cannot be written: No such file or directory\n"),
    (["flip", "a.off", "o.edges"], "a.off: the file does not tell its unit"),
])  # fmt: skip
def test_wrong_usage_ends_with_2_and_writes_nothing(arguments, message, folder, run, monkeypatch):
    monkeypatch.chdir(folder)
    (folder / "link").hardlink_to(folder / "o.flips")
    off(folder / "a.off", *shaft(3, 2))
    before = {path: path.read_bytes() for path in folder.iterdir()}
    told = run(*arguments)
    assert told.exit == 2 and told.out == "" and message in told.err and "Traceback" not in told.err
    assert {path: path.read_bytes() for path in folder.iterdir()} == before


def test_a_log_without_its_sheet_is_told(folder, run):
    told = run("flip", folder / "o.sheet", folder / "o.edges", "--sheet", folder / "none" / "new.sheet", "--log", folder / "new.flips")
    assert told.exit == 2 and told.out == "" and told.err == "flaxglimmer: new.sheet cannot be written: No such file or directory; new.flips was written\n"
    assert (folder / "new.flips").read_bytes() == O_FLIPS


def test_files_that_cannot_be_read_end_with_3(folder, run):
    for path, words in ((folder / "none", "No such file"), (folder, "Is a directory"), ("/dev/null", "no plain file")):
        for command, file in (("flip", "o.sheet"), ("undo", "f.sheet")):
            told = run(command, folder / file, path)
            assert told.exit == 3 and told.out == "" and told.err.count("\n") == 1 and words in told.err
    name = "\x1b[31mred\n.edges"
    told = run("flip", folder / "o.sheet", put(folder, b"0 5\n", name))
    assert told.exit == 1 and "  ?[31mred?.edges, line 1, byte 0: edge 0" in told.err and "\x1b" not in told.err


def refuse(number, **known):
    def call(*_):
        refused = fg.Refused(number, 1)
        refused.rows, refused.log = known.get("rows"), known.get("log")
        raise refused

    return call


def test_where_places_and_number_disagree_it_ends_with_5_and_writes_nothing(folder, run, monkeypatch):
    rows, log, out = np.array(AFTER_ONE, np.uint32), np.array(LOG[:1], np.uint32), folder / "out.sheet"
    for number in (30, 31):
        monkeypatch.setattr(calls, "flip_list", refuse(number, rows=rows, log=log))
        told = run("flip", folder / "o.sheet", folder / "o.edges", "--sheet", out)
        assert told.exit == 5 and told.err == f"flaxglimmer: our fault: the library refuses by {number}, and no place of it is found\n" and not out.exists()
    monkeypatch.setattr(calls, "undo_flips", refuse(32, rows=np.array(AFTER_ONE, np.uint32)))
    told = run("undo", folder / "f.sheet", folder / "o.flips", "--sheet", out)
    assert told.exit == 5 and told.err == "flaxglimmer: our fault: the library refuses by 32, and no place of it is found\n" and not out.exists()
    for number in (8, 33):
        monkeypatch.setattr(calls, "flip_list", refuse(number))
        told = run("flip", folder / "o.sheet", folder / "o.edges", "--sheet", out)
        assert told.exit == 5 and f"refuses by {number}, and no place of it is found" in told.err and not out.exists()


def test_what_does_not_lead_back_ends_with_5_and_writes_nothing(folder, run, monkeypatch):
    out, flip_list, undo_flips = folder / "out.sheet", calls.flip_list, calls.undo_flips
    for undo in (lambda *_: np.array(AFTER_ONE), refuse(32)):
        monkeypatch.setattr(calls, "undo_flips", undo)
        told = run("flip", folder / "o.sheet", folder / "o.edges", "--sheet", out, "--log", folder / "out.flips")
        assert told.exit == 5 and told.err.startswith("flaxglimmer: our fault: what flips did ") and not out.exists() and not (folder / "out.flips").exists()
    monkeypatch.setattr(calls, "undo_flips", undo_flips)
    for flip in (lambda *_: (np.array(AFTER_ONE), None), refuse(31)):
        monkeypatch.setattr(calls, "flip_list", flip)
        told = run("undo", folder / "f.sheet", folder / "o.flips", "--sheet", out)
        assert told.exit == 5 and told.err.startswith("flaxglimmer: our fault: what flips did ") and not out.exists()
    monkeypatch.setattr(calls, "flip_list", flip_list)
    assert run("undo", folder / "f.sheet", folder / "o.flips", "--sheet", out).exit == 0


def test_other_commands_say_what_a_flip_log_is(folder, run):
    told = run("log", folder / "o.flips")
    assert told.exit == 1 and "it is no log sheet but a flip log, which `flaxglimmer undo` reads" in told.err
    assert "it is no job sheet but a flip log" in run("job", folder / "o.flips").err
    assert "a flip log, which `flaxglimmer undo` reads" in run("recover", folder / "o.sheet", folder / "o.flips", "--limit", "none").err
    put(folder, O_FLIPS * 100_000, "long.flips")
    for command, *more in (["replay"], ["volume"], ["grow-back"], ["change"], ["shift", 0]):
        for log in ("o.flips", "long.flips"):
            told = run(command, folder / "o.sheet", folder / log, *more)
            assert told.exit == 3 and told.out == "" and told.err == f"flaxglimmer: {log}: line 1: no log of a thinning but a flip log, which `flaxglimmer undo` reads: 'FLIPS\\t6\\t8'\n"


def test_json_of_a_refused_flip_is_one_object(folder, run):
    told = run("flip", folder / "o.sheet", put(folder, b"0 5\n", "a.edges"), "--json")
    assert told.exit == 1 and told.err == "" and len(told.out.splitlines()) == 1
    assert set(json.loads(told.out)) == {"exit", "status", "meaning", "faults", "hint", "notes", "file", "listed", "flips", "log", "volume", "change"}


def test_feet_are_told_beside_a_refused_flip(tmp_path, run):
    off(tmp_path / "t.off", T_CORNERS / 10, T_ROWS)
    told = run("flip", tmp_path / "t.off", "--unit", "ft", put(tmp_path, b"0 3\n", "a.edges"))
    assert told.exit == 1 and "  the file is read in survey feet of 1200/3937 m" in told.err

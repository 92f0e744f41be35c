"""The library: its table of limits, the calls against document 01, against exact integers, against the pipe and the desk; what is lent is checked."""
import random
import re
import struct
import subprocess
import threading

import numpy as np
import pytest
from conftest import ROOT
from scans import shaft
from tables import O_CORNERS, O_ROWS, T_CORNERS, T_ROWS, centimetres, damaged, exact_sum, figure

import flaxglimmer as fg
from flaxglimmer import _native, calls, files, lengths, refusals
from flaxglimmer.header import LIMITS, MOST_SUM, UNITS

HEADER = (ROOT / "include" / "flaxglimmer.h").read_text()

# 01's answer to the octahedron
O_LAST = [(0, 3, 4), (5, 3, 0), (5, 4, 3), (5, 0, 4)]
O_LOG = [(0, 1, 0, 0, 1, 2, 3, 0, 4, 1), (0, 2, 0, 0, 2, 3, 2, 5, 2, 0)]


def test_the_tables_of_limits_and_units_are_the_headers():
    defined = dict(re.findall(r"^#define FLAXGLIMMER_((?:LEAST|MOST|WIDTH|FLIP_WIDTH)\w*) (\d+)$", HEADER, re.M))
    assert {name: str(value) for name, value in vars(LIMITS).items()} == defined
    units = re.search(r"Units of a limit.*?enum \{(.*?)\}", HEADER, re.S)[1]
    numbered = dict(re.findall(r"FLAXGLIMMER_(\w+) = (\d+)", units))
    assert {name: str(value) for name, value in vars(UNITS).items()} == numbered
    typed = {"m": "METRES", "cm": "CENTIMETRES", "ft": "FEET", "ift": "INTERNATIONAL_FEET"}
    assert lengths.UNITS == {unit: int(numbered[name]) for unit, name in typed.items()} and lengths.order("none") == (int(numbered["NO_LIMIT"]), 0.0)
    carried = _native.told(_native.library())
    assert re.fullmatch("[0-9a-f]{64}", carried.pop("sources")) and carried == {**defined, **numbered}


def test_every_function_of_the_header_is_called_with_its_types():
    pointers = {"uint64_t": _native.number, "int64_t": _native.signed}
    kinds = {"uint32_t": _native.u32, "double": _native.c.c_double, "size_t": _native.size}
    results = {"uint64_t": _native.u64, "uint32_t": _native.u32, **{f"struct flaxglimmer_{one.__name__.lower()}": one for one in
               (_native.Counted, _native.Measure, _native.Centimetres, _native.Written, _native.Stored)}}
    declared = re.findall(r"^((?:struct )?\w+) flaxglimmer_(\w+)\(([^;]*)\);", HEADER, re.M)
    assert {name for _, name, _ in declared} == set(_native.SIGNATURES)
    for result, name, arguments in declared:
        expected = [pointers.get(one.split()[0], _native.lent) if "*" in one else kinds[one.split()[0]] for one in re.split(r",\s*", arguments)]
        assert _native.SIGNATURES[name] == (results[result], expected), name


def test_every_refusal_has_the_headers_words():
    told = re.findall(r"^    FLAXGLIMMER_\w+ = (\d+),? +/\* ([^,;:(]*?)(?:[,;:(].*)? \*/$", HEADER, re.M)
    assert [int(number) for number, _ in told] == [*range(1, 14), *range(20, 26), *range(30, 33)]
    for number, words in told:
        assert refusals.meaning(int(number)).startswith(words)


def test_the_octahedron_is_01s():
    rows, log = calls.thin(O_ROWS, O_CORNERS, None)
    assert rows.tolist() == [list(row) for row in O_LAST] and log.tolist() == [list(record) for record in O_LOG]
    middle = calls.replay(O_ROWS, 6, log[:1])
    assert [calls.volume(stage, O_CORNERS) for stage in (O_ROWS, middle, rows)] == [1, 1, 0]
    assert [calls.change(*pair, O_CORNERS) for pair in ((O_ROWS, middle), (middle, rows), (O_ROWS, rows))] == [-1, 0, -1]
    assert calls.grow_back(rows, 6, log).tolist() == O_ROWS.tolist()
    assert len(calls.thin(O_ROWS, O_CORNERS, "141 cm")[1]) == 0 and len(calls.thin(O_ROWS, O_CORNERS, "142 cm")[1]) == 2
    assert calls.shift(1, O_CORNERS, log) == (0, 1, 20000)


def test_the_tetrahedron_and_limits_are_01s():
    assert calls.volume(T_ROWS, T_CORNERS) == -5 and len(calls.thin(T_ROWS, T_CORNERS, "none")[1]) == 0
    for typed, whole in (("1.5 m", 150), ("1.375 m", 137), ("4.75 ft", 144), ("0.29 m", 28), ("0.3 m", 29), (("m", 0.3), 29), ("200000 cm", 200_000), ("0 m", 0), ("-0 m", 0)):
        assert calls.limit(typed) == whole


def test_feet_are_02s():
    for typed, whole in (("4.75 ft", 144), ("4.75 ift", 144), ("6561.25 ft", 199_987), ("6561.25 ift", 199_986), (("ift", 6561.25), 199_986), ("6561.7 ift", 200_000)):
        assert calls.limit(typed) == whole
    with pytest.raises(fg.Refused) as refused:
        calls.limit("6561.7 ft")
    assert refused.value.number == 1


def test_the_trial_ring_is_01s():
    at = lambda r, c: 8 * (r % 8) + c % 8
    rule = [row for r in range(8) for c in range(8) for row in ((at(r, c), at(r + 1, c), at(r + 1, c + 1)), (at(r, c), at(r + 1, c + 1), at(r, c + 1)))]
    assert calls.trial_ring().tolist() == [list(row) for row in rule]


def test_rings_and_catching_up():
    first, second = np.array([1, 2, 3], np.uint32), np.array([4, 5, 6], np.uint32)
    assert calls.shorter_ring(first, second) is first and calls.shorter_ring(first, second[:2]).tolist() == [4, 5]
    part = calls.catch_up(first[:1], first)
    assert part.tolist() == [2, 3] and np.shares_memory(part, first)
    assert calls.catch_up(first, second).size == 0 and calls.catch_up(first, first).size == 0


@pytest.mark.parametrize("seed", range(40))
def test_figures_are_the_exact_sums_and_logs_lead_both_ways(seed):
    points, rows = shaft(5 + seed % 7, 4 + seed % 5, seed=seed)
    skin = fg.from_points(points, rows, "m")
    corners = skin.corners.astype(np.int64)
    thinned = fg.thin(skin, f"{2 + seed % 9} m")
    first, last = exact_sum(rows, corners), exact_sum(thinned.rows, corners)
    assert thinned.volumes() == (figure(first), figure(last)) and thinned.change() == figure(last - first)
    assert np.array_equal(thinned.grow_back(), rows)
    corner, far = thinned.farthest()
    gone = corners[corner] - corners[far.stand_in]
    assert far.squared == int(gone @ gone) <= (far.count * thinned.limit) ** 2


class Pipe:
    """The calls over a pipe, as docs/CALLS.md has them."""

    def __init__(self):
        self.program = subprocess.Popen([ROOT / "tools" / "start", "calls"], stdin=subprocess.PIPE, stdout=subprocess.PIPE)

    def words(self, count):
        data = self.program.stdout.read(8 * count)
        return list(struct.unpack(f"<{count}q", data))

    def ask(self, *parts, lists):
        """Asks with numbers and lists; the answer and so many written lists, each as a list."""
        words = [word for part in parts for word in ([len(part), *part] if isinstance(part, list) else [part])]
        self.program.stdin.write(struct.pack(f"<{len(words)}q", *words))
        self.program.stdin.flush()
        return [self.words(self.words(1)[0]) for _ in range(1 + lists)]

    def close(self):
        self.program.stdin.close()
        self.program.stdout.close()
        assert self.program.wait() == 0


@pytest.fixture(scope="module")
def pipe():
    one = Pipe()
    yield one
    one.close()


def lent_answer(call, *arguments):
    """(status, value) of a lent call."""
    try:
        return [0, call(*arguments)]
    except fg.Refused as refused:
        return [refused.number, refused.records]


@pytest.mark.parametrize("part", range(10))
def test_the_library_is_the_pipe_in_every_number_of_every_buffer(pipe, part):
    for seed in range(40 * part, 40 * part + 40):
        rows, corners = damaged(seed)
        rows, corners = rows.astype(np.uint32), corners.astype(np.int32)
        table, log = rows.reshape(-1).copy(), np.full(max(0, 10 * (len(corners) - 4)) + seed % 3, 77, np.uint32)
        unit, typed = (0, None) if seed % 2 else (1, ("m", 0.5 + seed % 9))
        bits = struct.unpack("<q", struct.pack("<d", typed[1] if typed else 0.0))[0]
        asked, plain = (unit, bits, table.tolist(), corners.reshape(-1).tolist(), log.tolist()), (table.copy(), log.copy())
        over = pipe.ask(1, *asked, lists=2)
        thinned = lent_answer(fg.lent.thin, table, corners, log, typed)
        assert over == [thinned, table.tolist(), log.tolist()]
        assert over == pipe.ask(20, *asked, lists=2) == [lent_answer(fg.lent.thin_plain, plain[0], corners, plain[1], typed), *(one.tolist() for one in plain)]
        assert pipe.ask(4, rows.reshape(-1).tolist(), corners.reshape(-1).tolist(), lists=0) == [lent_answer(fg.lent.volume, rows, corners)]
        done = thinned[1]
        records = log[: 10 * done] if seed % 4 else log[: len(log) // 10 * 10]
        for corner in (0, len(corners)):
            status = lent_answer(fg.lent.shift, corner, corners, records)
            expected = [0, *status[1]] if status[0] == 0 else [status[0], 0, 0, 0]
            assert pipe.ask(6, corner, corners.reshape(-1).tolist(), records.tolist(), lists=0) == [expected]
        again, left = rows.reshape(-1).copy(), pipe.ask(3, len(corners), rows.reshape(-1).tolist(), records.tolist(), lists=1)
        assert left == [lent_answer(fg.lent.replay, len(corners), again, records), again.tolist()]
        room = table.copy()
        standing = len(table) // 3 - 2 * done
        grown = pipe.ask(2, standing, len(corners), room.tolist(), records.tolist(), lists=1)
        assert grown == [lent_answer(fg.lent.grow_back, standing, len(corners), room, records), room.tolist()]


def changed(chance, sheet):
    """A log sheet, mostly with up to two bytes put in, left out or changed, or cut."""
    for _ in range(chance.choice([0, 1, 1, 2])):
        at = chance.randrange(len(sheet) + 1)
        sheet = chance.choice([sheet[:at] + chance.choice([b"\t", b"\n", b"0", b"7", b"K", b"\r"]) + sheet[at + chance.randrange(2) :], sheet[:at] + sheet[at + 1 :], sheet[:at]])
    return sheet


@pytest.mark.parametrize("part", range(5))
def test_log_sheets_are_the_pipes_in_every_number_of_every_buffer(pipe, part):
    statuses = set()
    for seed in range(30 * part, 30 * part + 30):
        chance = random.Random(seed)
        points, rows = shaft(3 + seed % 5, 2 + seed % 4, seed=seed)
        log = fg.thin(fg.from_points(points, rows, "m"), f"{2 + seed % 9} m").log.reshape(-1).copy()
        if log.size and seed % 5 == 0:
            log[chance.randrange(log.size)] = chance.choice([999_999, 1_000_000, 2**32 - 1])
        log = log[: log.size - (seed % 7 == 0)]
        corners = len(points) if seed % 6 else chance.choice([0, 3, 4, 515, 2**63 - 1])
        text = np.full(8 * log.size + 20 if seed % 4 else chance.randrange(40), 77, np.uint8)
        over = pipe.ask(13, corners, len(rows), log.tolist(), text.tolist(), lists=1)
        wrote = lent_answer(fg.lent.write_log_sheet, corners, len(rows), log, text)
        assert over == [wrote, text.tolist()]
        sheet = changed(chance, text[: wrote[1]].tobytes() or b"LOG\t6\t8\n" + b"K\t0\t1\t0\t0\t1\t2\t3\t0\t4\t1\n" * chance.randrange(5))
        data = np.frombuffer(sheet, np.uint8)
        room = np.full(max(0, log.size + 20 - chance.randrange(60)), 77, np.uint32)
        over = pipe.ask(14, data.tolist(), room.tolist(), lists=1)
        status, counts = lent_answer(fg.lent.read_log_sheet, data, room)
        assert over == [[status, *(counts or (0, 0, 0))], room.tolist()]
        statuses |= {wrote[0], status}
        room = np.full(len(sheet), 77, np.uint32)
        status, counts = lent_answer(fg.lent.each_record, data, room)
        assert pipe.ask(15, data.tolist(), lists=0) == [[status, *(counts or (0, 0, 0)), *room[: 10 * counts[2] if counts else 0].tolist()]]
        status, counts = lent_answer(fg.lent.open_log_sheet, data)
        assert pipe.ask(24, data.tolist(), lists=0) == [[status, *(counts or (0, 0, 0))]]
        for place in {0, len(sheet), 2**40, chance.randrange(len(sheet) + 1), *(match.end() for match in re.finditer(b"\n", sheet))}:
            record = np.full(10, 77, np.uint32)
            status, after = lent_answer(fg.lent.next_record, data, place, record)
            found = [1, after] if after and not status else [0, 0 if status else place]
            assert pipe.ask(25, data.tolist(), place, lists=0) == [[status, *found, *record.tolist()]]
    assert statuses == {0, 2, 3, 12}


SOUND = [(rows, centimetres(points)) for points, rows in (shaft(3 + seed % 3, 2 + seed % 4, seed=seed) for seed in range(7))]
ORDERS = [None, ("m", 5.0), ("m", 9.0)]


def cut_sheet(chance, rows, corners, harm):
    """A log sheet of a table cut after some byte, the octahedron's where it is no skin; with a digit, a count or a line changed."""
    try:
        sheet = calls.write_log_sheet(len(corners), len(rows), calls.thin(rows, corners, chance.choice(ORDERS))[1])
    except fg.Refused:
        sheet = calls.write_log_sheet(6, 8, O_LOG)
    if harm == "digit":
        sheet = sheet[:-2] + b"%d\n" % ((sheet[-2] + 1) % 10)
    elif harm == "count":
        sheet = sheet.replace(b"\t", b"\t1", 1)
    elif harm == "line":
        sheet = changed(chance, sheet)
    return sheet if harm == "digit" else sheet[: chance.randrange(len(sheet) + 1)]


def test_recovery_is_the_pipes_in_every_number_of_every_buffer(pipe):
    statuses = []
    for seed in range(240):
        chance, harm = random.Random(seed), ("skin", "limit", "room", "digit", "count", "line", None, None)[seed % 8]
        rows, corners = damaged(seed) if harm == "skin" else SOUND[seed % len(SOUND)]
        rows, corners = rows.astype(np.uint32), corners.astype(np.int32)
        table, log = rows.reshape(-1).copy(), np.full(max(0, 10 * (len(corners) - 4) + (-1 if harm == "room" else seed % 3)), 77, np.uint32)
        data = np.frombuffer(cut_sheet(chance, rows, corners, harm), np.uint8)
        typed = ("m", float("nan")) if harm == "limit" else chance.choice(ORDERS)
        bits = struct.unpack("<q", struct.pack("<d", typed[1] if typed else 0.0))[0]
        over = pipe.ask(16, 1 if typed else 0, bits, table.tolist(), corners.reshape(-1).tolist(), log.tolist(), data.tolist(), lists=2)
        status, counts = lent_answer(fg.lent.recover, table, corners, log, data, typed)
        assert over == [[status, *(counts if status == 0 else (counts, counts))], table.tolist(), log.tolist()]
        statuses.append(status)
    assert min(statuses.count(number) for number in (0, 1, 2, 3, 12, 13)) >= 10


def test_jobs_and_exact_sums_are_the_pipes(pipe):
    statuses = []
    for seed in range(240):
        chance = random.Random(seed)
        rows, corners = damaged(seed)
        rows, corners = rows.astype(np.uint32), corners.astype(np.int32)
        status, total = lent_answer(fg.lent.exact_sum, rows, corners)
        expected = [0, *divmod(total, 6_000_000)] if status == 0 else [status, 0, 0]
        assert pipe.ask(26, rows.reshape(-1).tolist(), corners.reshape(-1).tolist(), lists=0) == [expected]
        sheet = job_sheet(chance, total if status == 0 else chance.randrange(-MOST_SUM, MOST_SUM))
        data = np.frombuffer(changed(chance, sheet) if seed % 8 == 0 else sheet, np.uint8)
        answer = lent_answer(fg.lent.job, data)
        assert pipe.ask(17, data.tolist(), lists=0) == [answer]
        statuses.append(answer[0])
    assert min(statuses.count(number) for number in (0, 12, *range(20, 26))) >= 5


def test_flips_are_the_pipes_in_every_number_of_every_buffer(pipe):
    statuses = []
    for seed in range(240):
        chance, harm = random.Random(seed), ("table", "odd", "room", "edge", "record", "log", None, None)[seed % 8]
        rows, corners = damaged(seed) if harm == "table" else SOUND[seed % len(SOUND)]
        table, log = rows.astype(np.uint32).reshape(-1), np.full(seed % 3, 77, np.uint32)
        edges = np.array([edge for _ in range(chance.randrange(6)) for edge in chance.choice(rows.tolist())[:2]], np.uint32)
        if harm == "edge":
            edges = np.append(edges, np.array([chance.choice([0, len(corners), 2**32 - 1]), chance.randrange(len(corners))], np.uint32))
        log = np.append(np.full(8 * (len(edges) // 2), 77, np.uint32), log)
        edges, log = edges[: len(edges) - (harm == "odd")], log[harm == "room" :]
        over = pipe.ask(18, len(corners), table.tolist(), edges.tolist(), log.tolist(), lists=2)
        done = lent_answer(fg.lent.flip_list, len(corners), table, edges, log)
        assert over == [done, table.tolist(), log.tolist()]
        log = log[: 8 * done[1]]
        if harm == "record" and log.size:
            log[chance.randrange(log.size)] = chance.choice([0, 1, len(rows), 2**32 - 1])
        log = log[harm == "log" :]
        over = pipe.ask(19, len(corners), table.tolist(), log.tolist(), lists=1)
        undone = lent_answer(fg.lent.undo_flips, len(corners), table, log)
        assert over == [undone, table.tolist()]
        statuses += [done[0], undone[0]]
    assert min(statuses.count(number) for number in (0, 2, 3, 30, 31, 32)) >= 5


def job_sheet(chance, total):
    """A job with this sum on top: one that stands, or with a fault of a kind of its own."""
    count = chance.choice([1, 2, 5, 12, 32])
    depth = lambda at: at if at < 8 else 7  # a chain as deep as may be, and the rest beside its last
    entries = [["VS"[depth(at) % 2], depth(at) - 1 if at else "-", total if at == 0 else chance.randrange(-MOST_SUM, MOST_SUM)] for at in range(count)]
    at, harm = chance.randrange(count), chance.randrange(12)
    if harm == 0:
        entries = entries * 33 if count > 1 else []
    elif harm in (1, 2, 3):
        entries[at][harm - 1] = (chance.choice("PXZ"), chance.choice([at, at + 1, 999_999]), chance.choice([-1, 1]) * (MOST_SUM + 1))[harm - 1]
    elif harm == 4:
        entries.append([entries[at][0], at, 0])
    elif harm == 5:
        entries = [["VS"[at % 2], at - 1 if at else "-", total] for at in range(9)]
    return "".join("\t".join(map(str, line)) + "\n" for line in [["JOB", len(entries)], *(["J", *entry] for entry in entries)]).encode()


def test_the_answer_without_a_limit_is_the_desks_byte_for_byte():
    for path in sorted((ROOT / "sheets").glob("*.sheet")):
        skin = files.read_sheet(path)
        thinned = fg.thin(skin, "none")
        asked = subprocess.run([ROOT / "tools" / "start", "desk"], input=path.read_bytes(), capture_output=True, check=True).stdout
        assert files.answer_text(thinned.rows, thinned.log, *thinned.volumes()).encode() == asked == calls.reply(path.read_bytes())
        assert files.sheet_text(skin).encode() == path.read_bytes()


def test_what_does_not_fit_never_crosses():
    for call, error in (
        (lambda: calls.volume([[-1, 1, 2]], O_CORNERS), OverflowError),
        (lambda: calls.volume([[2**32, 1, 2]], O_CORNERS), OverflowError),
        (lambda: calls.volume(O_ROWS, O_CORNERS * 1.5), TypeError),
        (lambda: calls.volume(O_ROWS, O_CORNERS.astype(np.int64) * 2**30), OverflowError),
        (lambda: calls.shift(-1, O_CORNERS, []), OverflowError),
        (lambda: calls.shift(2**32, O_CORNERS, []), OverflowError),
        (lambda: calls.shift(1.0, O_CORNERS, []), TypeError),
        (lambda: calls.replay(O_ROWS, -1, []), OverflowError),
        (lambda: calls.grow_back(O_ROWS, 2**64, []), OverflowError),
        (lambda: fg.lent.trial_number(2**70), OverflowError),
        (lambda: calls.limit("0.3"), fg.UsageFault),
        (lambda: calls.limit("300 mm"), fg.UsageFault),
        (lambda: calls.limit("nan m"), fg.UsageFault),
        (lambda: calls.limit("٣ m"), fg.UsageFault),
        (lambda: calls.limit(("yd", 1)), fg.UsageFault),
    ):
        with pytest.raises(error):
            call()


def test_what_is_handed_in_is_never_written():
    rows, corners = O_ROWS.copy(), O_CORNERS.copy()
    rows.flags.writeable = corners.flags.writeable = False
    last, log = calls.thin(rows, corners, "none")
    calls.grow_back(last, 6, log), calls.replay(rows, 6, log), calls.volume(rows, corners), calls.change(rows, last, corners)
    assert np.array_equal(rows, O_ROWS) and np.array_equal(corners, O_CORNERS)


def lent_arrays():
    return O_ROWS.reshape(-1).copy(), O_CORNERS.copy(), np.zeros(20, np.uint32)


def test_lent_memory_is_thinned_in_place():
    table, corners, log = lent_arrays()
    assert fg.lent.thin(table, corners, log, "none") == 2
    assert table.tolist() == [v for row in O_LAST for v in row] + [0] * 12 and log.tolist() == [v for record in O_LOG for v in record]
    room = np.concatenate([table[:12], np.full(14, 9, np.uint32)])
    assert fg.lent.grow_back(4, 6, room, log) == 2 and room.tolist() == [*O_ROWS.reshape(-1).tolist(), 9, 9]


def test_lent_memory_is_looked_at_first():
    table, corners, log = lent_arrays()
    locked = table.copy()
    locked.flags.writeable = False
    both = np.zeros(44, np.uint32)
    for arguments, error in (
        ((table.astype(np.int64), corners, log), TypeError),
        ((table.astype(">u4"), corners, log), TypeError),
        ((table.tolist(), corners, log), TypeError),
        ((np.ma.array(table), corners, log), TypeError),
        ((np.zeros(48, np.uint32)[::2], corners, log), TypeError),
        ((table, corners.astype(np.uint32), log), TypeError),
        ((np.frombuffer(b"\0" * 97, np.uint8)[1:].view(np.uint32), corners, log), TypeError),
        ((locked, corners, log), ValueError),
        ((both[:24], corners, both[20:40]), ValueError),
        ((both[:24], both[18:36].view(np.int32), log), ValueError),
    ):
        with pytest.raises(error) as raised:
            fg.lent.thin(*arguments, "none")
        assert type(raised.value) is error  # and no refusal, which is a ValueError too
    for call in (
        lambda: fg.lent.replay(6, both[:24], both[14:24]),
        lambda: fg.lent.undo_flips(6, both[:24], both[16:24]),
        lambda: fg.lent.flip_list(6, both[:24], both[22:24], log),
        lambda: fg.lent.flip_list(6, table, both[:2], both[:8]),
        lambda: fg.lent.flip_list(6, both[:24], np.zeros(2, np.uint32), both[20:28]),
        lambda: fg.lent.grow_back(4, 6, both[:24], both[14:34]),
        lambda: fg.lent.read_sheet(both.view(np.uint8), both[:12], corners),
        lambda: fg.lent.reply(both.view(np.uint8), both.view(np.uint8)[4:]),
    ):
        with pytest.raises(ValueError, match="shares memory"):
            call()
    assert np.array_equal(locked, O_ROWS.reshape(-1)) and not both.any()


def test_room_that_is_short_is_refused_and_left():
    table, corners, log = lent_arrays()
    with pytest.raises(fg.Refused) as refused:
        fg.lent.thin(table, corners, log[:19], "none")
    assert refused.value.number == 3 and np.array_equal(table, O_ROWS.reshape(-1)) and not log.any()


def test_13_carries_the_stage_reached():
    last, log = calls.thin(O_ROWS, O_CORNERS, "none")
    wrong = log.copy()
    wrong[1, 0] = 3
    with pytest.raises(fg.Refused) as refused:
        calls.replay(O_ROWS, 6, wrong)
    assert (refused.value.number, refused.value.records) == (13, 1)
    assert np.array_equal(refused.value.rows, calls.replay(O_ROWS, 6, log[:1]))
    wrong = log.copy()
    wrong[0, 0] = 3
    with pytest.raises(fg.Refused) as refused:
        calls.grow_back(last, 6, wrong)
    assert (refused.value.number, refused.value.records) == (13, 1)
    assert np.array_equal(refused.value.rows, calls.replay(O_ROWS, 6, log[:1]))


@pytest.fixture
def fresh(monkeypatch):
    """The library is looked for anew, and again afterwards."""
    _native.library.cache_clear()
    yield monkeypatch
    _native.library.cache_clear()


def test_a_library_that_is_missing_or_of_another_version_is_told(fresh, tmp_path):
    fresh.setenv("FLAXGLIMMER_LIBRARY", str(tmp_path / "none.so"))
    with pytest.raises(fg.LibraryMissing, match="none.so"):
        calls.limit("1 m")
    (tmp_path / "none.so").write_bytes(b"no library")
    with pytest.raises(fg.LibraryMissing, match="no library of this version"):
        calls.limit("1 m")
    fresh.delenv("FLAXGLIMMER_LIBRARY")
    fresh.setattr(LIMITS, "WIDTH", 12)
    with pytest.raises(fg.LibraryMissing, match="another version"):
        calls.limit("1 m")
    fresh.setattr(LIMITS, "WIDTH", 10)
    fresh.delattr(UNITS, "INTERNATIONAL_FEET")
    with pytest.raises(fg.LibraryMissing, match="another version"):
        calls.limit("1 m")
    fresh.setattr(UNITS, "INTERNATIONAL_FEET", 4, raising=False)
    assert calls.limit("1 m") == 100


def test_threads_may_call_at_once_on_a_small_stack():
    points, rows = shaft(16, 31)
    skin = fg.from_points(points, rows, "m")
    expected, found = fg.thin(skin, "0.8 m").log, []
    threads = [threading.Thread(target=lambda: found.append(fg.thin(skin, "0.8 m").log)) for _ in range(8)]
    before = threading.stack_size(256 * 1024)
    for thread in threads:
        thread.start()
    threading.stack_size(before)
    for thread in threads:
        thread.join()
    assert len(found) == 8 and all(np.array_equal(expected, one) for one in found)

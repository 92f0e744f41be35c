"""Log sheets: the calls against change request 1 in Python's own words, what the commands do with them, and what is told of damaged ones."""
import json
import re

import numpy as np
import pytest
from conftest import ROOT
from hypothesis import given
from hypothesis import strategies as st
from scans import shaft
from tables import O_CORNERS, O_ROWS, T_CORNERS, T_ROWS
from texts import damaged_by, mended

import flaxglimmer as fg
from flaxglimmer import calls, files, lent, logs
from flaxglimmer.header import LIMITS

SPALLED = ROOT / "scans" / "spalled.stl"

# 01's log of the octahedron, as the request writes it
O_SHEET = b"LOG\t6\t8\nK\t0\t1\t0\t0\t1\t2\t3\t0\t4\t1\nK\t0\t2\t0\t0\t2\t3\t2\t5\t2\t0\n"
O_LOG = [[0, 1, 0, 0, 1, 2, 3, 0, 4, 1], [0, 2, 0, 0, 2, 3, 2, 5, 2, 0]]
O_WORDS = [
    "record 0: corner 0 kept, 1 removed; row (0, 1, 2) left place 0, row (0, 4, 1) place 3",
    "record 1: corner 0 kept, 2 removed; row (0, 2, 3) left place 0, row (5, 2, 0) place 2",
]


# The request in Python: first line LOG, corners, rows; then a K line for each record


def line_at(data, place, word, count):
    """The numbers of the line at a place and the place after it, or None."""
    end = data.find(b"\n", place)
    fields = data[place:end].split(b"\t") if end >= 0 else []
    if fields[:1] != [word] or len(fields) != count + 1 or not all(re.fullmatch(b"0|[1-9][0-9]{0,5}", field) for field in fields[1:]):
        return None
    return [int(field) for field in fields[1:]], end + 1


def counts_in(corners, rows, records=0):
    return 4 <= corners <= 514 and 4 <= rows <= 1024 and records <= corners - 4


def opened(data):
    """Status, corners, rows, place."""
    first = line_at(data, 0, b"LOG", 2) if len(data) <= 65_536 else None
    if first is None:
        return 12, 0, 0, 0
    return (0, *first[0], first[1]) if counts_in(*first[0]) else (2, 0, 0, 0)


def at_place(data, place):
    """Status, the place after it and the record; at the end None and None."""
    if place >= len(data):
        return 0, None, None
    found = line_at(data, place, b"K", 10)
    return (12, None, None) if found is None else (0, found[1], found[0])


def read(data, counting=True):
    """Status, corners, rows, log: by the whole reader, or by the one that takes a record at a time."""
    first = line_at(data, 0, b"LOG", 2) if len(data) <= 65_536 else None
    if first is None:
        return 12, None, None, None
    if not counting and not counts_in(*first[0]):
        return 2, None, None, None
    (corners, rows), place, log = *first, []
    while place < len(data):
        status, place, record = at_place(data, place)
        if status:
            return 12, None, None, None
        log.append(record)
    if counting and not counts_in(corners, rows, len(log)):
        return 2, None, None, None
    return 0, corners, rows, log


def written(corners, rows, log):
    lines = [["LOG", corners, rows]] + [["K", *record] for record in log]
    return "".join("\t".join(map(str, line)) + "\n" for line in lines).encode()


def answer(call, *arguments):
    """Status and what it gave."""
    try:
        return 0, call(*arguments)
    except fg.Refused as refused:
        return refused.number, None


def agree(data):
    """Every reading call answers as the request has it."""
    for call, counting in ((calls.read_log_sheet, True), (calls.each_record, False)):
        status, corners, rows, log = read(data, counting)
        found, sheet = answer(call, data)
        assert found == status and (sheet is None or (sheet.corners, sheet.rows, sheet.log.tolist()) == (corners, rows, log))
    status, *expected = opened(data)
    found, first = answer(calls.open_log_sheet, data)
    assert found == status and (first is None or list(first) == expected)
    places = {0, len(data), len(data) + 7, *(match.end() for match in re.finditer(b"\n", data))}
    for place in places:
        status, after, record = at_place(data, place)
        found, one = answer(calls.next_record, data, place)
        assert found == status and (None if one is None else (one[1], one[0].tolist())) == (None if after is None else (after, record))


# The calls


def thinnings():
    """(corners, rows, log) of scans, sheets and tables, under several limits."""
    skins = [fg.read(SPALLED, "m"), *(files.read_sheet(path) for path in sorted((ROOT / "sheets").glob("*.sheet")))]
    skins += [fg.Skin(O_ROWS, O_CORNERS), fg.Skin(T_ROWS, T_CORNERS), fg.from_points(*shaft(16, 31), "m")]
    ring = calls.trial_ring()
    skins.append(fg.Skin(ring, np.array([(i, i * i % 97, i * i * i % 89) for i in range(64)], np.int32)))
    for skin in skins:
        for limit in ("none", "1 m", "0 cm"):
            yield len(skin.corners), len(skin.rows), fg.thin(skin, limit)


def test_what_is_written_is_the_requests_and_reads_as_the_same_log():
    lengths = set()
    for corners, rows, thinned in thinnings():
        sheet = thinned.log_sheet()
        assert sheet == written(corners, rows, thinned.log.tolist())
        for found in (calls.read_log_sheet(sheet), calls.each_record(sheet)):
            assert found[:2] == (corners, rows) and found.log.shape == (len(thinned.log), 10) and np.array_equal(found.log, thinned.log)
        assert [record.tolist() for record in fg.records(sheet)] == thinned.log.tolist()
        agree(sheet)
        lengths.add(len(thinned.log))
    assert 0 in lengths and max(lengths) > 400


def test_the_k_lines_are_the_desks():
    for path in sorted((ROOT / "sheets").glob("*.sheet")):
        told = calls.reply(path.read_bytes()).splitlines(keepends=True)
        sheet = fg.thin(files.read_sheet(path), "none").log_sheet()
        assert sheet.splitlines(keepends=True)[1:] == [line for line in told if line.startswith(b"K")]


def test_the_octahedrons_log_is_written_as_the_request_says():
    assert fg.write_log_sheet(6, 8, O_LOG) == fg.write_log_sheet(6, 8, np.array(O_LOG).reshape(-1)) == O_SHEET
    assert fg.thin(fg.Skin(O_ROWS, O_CORNERS), "none").log_sheet() == O_SHEET


def test_what_is_read_grows_back_and_replays():
    skin = fg.read(SPALLED, "m")
    thinned = fg.thin(skin, "1 m")
    log = fg.read_log_sheet(thinned.log_sheet()).log
    assert np.array_equal(fg.replay(skin.rows, len(skin.corners), log), thinned.rows)
    assert np.array_equal(fg.grow_back(thinned.rows, len(skin.corners), log), skin.rows)
    assert fg.shift(109, skin.corners, log) == thinned.shift(109)


def test_writing_is_refused_by_2_and_then_by_3():
    record = O_LOG[0]
    for corners, rows, log, number in (
        (3, 8, [], 2), (515, 8, [], 2), (6, 3, [], 2), (6, 1025, [], 2), (0, 0, [], 2), (2**64 - 1, 8, [], 2),
        (4, 4, [], 0), (514, 1024, [], 0), (6, 8, [record] * 2, 0), (6, 8, [record] * 3, 2), (514, 4, [record] * 510, 0), (514, 4, [record] * 511, 2),
        (514, 1024, [[999_999] * 10] * 510, 0), (6, 8, record[:9], 2), (6, 8, record + [1], 2), (6, 8, [[999_999] * 10] * 2, 0), (6, 8, [[0] * 9 + [1_000_000]], 2), (6, 8, [[2**32 - 1] + [0] * 9], 2),
    ):  # fmt: skip
        assert answer(calls.write_log_sheet, corners, rows, log) == (number, None if number else written(corners, rows, np.reshape(log, (-1, 10)).tolist()))
    log, text = np.array(O_LOG, np.uint32), np.full(len(O_SHEET) + 3, 77, np.uint8)
    for room, number in ((len(O_SHEET) - 1, 3), (0, 3), (len(O_SHEET), 0), (len(O_SHEET) + 3, 0)):
        text[:] = 77
        assert answer(lent.write_log_sheet, 6, 8, log, text[:room]) == (number, None if number else len(O_SHEET))
        assert text.tobytes() == (b"" if number else O_SHEET).ljust(len(text), b"M")
    assert answer(lent.write_log_sheet, 3, 8, log, text[:0])[0] == 2


def test_reading_is_refused_by_12_and_then_by_2_and_then_by_3():
    data, room = np.frombuffer(O_SHEET, np.uint8), np.full(23, 77, np.uint32)
    for call in (lent.read_log_sheet, lent.each_record):
        for length, number in ((19, 3), (0, 3), (20, 0), (23, 0)):
            room[:] = 77
            assert answer(call, data, room[:length]) == (number, None if number else (6, 8, 2))
            assert room.tolist() == ([] if number else sum(O_LOG, [])) + [77] * (23 if number else 3)
    three = O_SHEET.replace(b"LOG\t6", b"LOG\t3")
    assert [answer(call, three)[0] for call in (calls.read_log_sheet, calls.each_record, calls.open_log_sheet)] == [2, 2, 2]
    assert [answer(call, three + b"K\n")[0] for call in (calls.read_log_sheet, calls.each_record, calls.open_log_sheet)] == [12, 2, 2]
    more = O_SHEET + O_SHEET.splitlines(keepends=True)[1]
    assert answer(calls.read_log_sheet, more)[0] == 2 and len(calls.each_record(more).log) == 3
    assert answer(lent.read_log_sheet, np.frombuffer(more, np.uint8), room[:0])[0] == 2
    assert answer(lent.each_record, np.frombuffer(more, np.uint8), room[:29])[0] == 3


def test_a_sheet_may_have_so_many_bytes_and_no_more():
    first, shortest = b"LOG\t514\t1024\n", b"K" + b"\t0" * 10 + b"\n"
    assert LIMITS.MOST_LOG_BYTES == 65_536
    longest = first + b"K\t111111\t111" + b"\t0" * 8 + b"\n" + shortest * 2977
    assert len(longest) == 65_536
    agree(longest)
    assert len(calls.each_record(longest).log) == 2978
    agree(longest.replace(b"\t0\n", b"\t10\n", 1))
    assert answer(calls.open_log_sheet, longest + b"\n")[0] == 12


DAMAGE = st.tuples(st.integers(0, 4), st.integers(0, 2**20), st.sampled_from([b"\t", b"\n", b"\r", b" ", b"0", b"7", b"-", b"K", b"R", b"\0", b"\xff", b"LOG\t", b"K\t1\t2\n"]))


@given(st.integers(0, 2**32 - 1), st.lists(DAMAGE, max_size=3))
def test_damage_of_every_kind_is_answered_as_the_request_has_it(seed, damage):
    chance = np.random.default_rng(seed)
    corners, rows = (int(chance.choice(some)) for some in ([3, 4, 6, 9, 514, 515], [3, 4, 8, 1024, 1025]))
    log = chance.integers(0, int(chance.choice([10, 1000, 1_000_001])), (int(chance.integers(0, 6)), 10))
    agree(damaged_by(written(corners, rows, log.tolist()), damage))


@pytest.mark.parametrize("bad", [b"K\t0\t1\n", b"R\t0\t1\t2\n", b"\n", b"K\t0\t1\t0\t0\t1\t2\t3\t0\t4\t01\n", b"K\t0\t1\t0\t0\t1\t2\t3\t0\t4\t1"])
def test_a_bad_line_raises_at_its_record_and_not_before(bad):
    lines = O_SHEET.splitlines(keepends=True)
    for before in range(3):
        found = fg.records(b"".join(lines[: 1 + before]) + bad)
        assert [next(found).tolist() for _ in range(before)] == O_LOG[:before]
        with pytest.raises(fg.Refused) as refused:
            next(found)
        assert refused.value.number == 12
    for sheet, number in ((b"", 12), (b"LOG\t6\n" + lines[1], 12), (b"LOG\t3\t8\n" + lines[1], 2)):
        with pytest.raises(fg.Refused) as refused:
            fg.records(sheet)
        assert refused.value.number == number


def test_no_line_is_looked_at_before_its_record_is_asked_for():
    sheet = bytearray(O_SHEET)
    found = fg.records(sheet)
    assert next(found).tolist() == O_LOG[0]
    sheet[-2:-1] = b"9"  # the last number of the last record
    assert next(found).tolist() == [*O_LOG[1][:9], 9] and next(found, None) is None


def test_what_is_lent_for_log_sheets_is_looked_at_first():
    sheet, log, text, record = np.frombuffer(O_SHEET, np.uint8).copy(), np.zeros(20, np.uint32), np.zeros(80, np.uint8), np.zeros(10, np.uint32)
    locked, both = log.copy(), np.zeros(40, np.uint32)
    locked.flags.writeable = False
    for call, error in (
        (lambda: lent.read_log_sheet(O_SHEET, log), TypeError),
        (lambda: lent.read_log_sheet(sheet.astype(np.int8), log), TypeError),
        (lambda: lent.read_log_sheet(sheet, log.astype(np.int64)), TypeError),
        (lambda: lent.read_log_sheet(sheet, locked), ValueError),
        (lambda: lent.read_log_sheet(both.view(np.uint8), both[30:]), ValueError),
        (lambda: lent.each_record(sheet[::2], log), TypeError),
        (lambda: lent.each_record(sheet, locked), ValueError),
        (lambda: lent.open_log_sheet(O_SHEET), TypeError),
        (lambda: lent.next_record(sheet, -1, record), OverflowError),
        (lambda: lent.next_record(sheet, 2**64, record), OverflowError),
        (lambda: lent.next_record(sheet, 8.0, record), TypeError),
        (lambda: lent.next_record(sheet, 8, record[:9]), ValueError),
        (lambda: lent.next_record(sheet, 8, log), ValueError),
        (lambda: lent.next_record(sheet, 8, locked[:10]), ValueError),
        (lambda: lent.next_record(both.view(np.uint8), 8, both[:10]), ValueError),
        (lambda: lent.write_log_sheet(6, 8, log, text.astype(np.int8)), TypeError),
        (lambda: lent.write_log_sheet(-1, 8, log, text), OverflowError),
        (lambda: lent.write_log_sheet(6, 2**64, log, text), OverflowError),
        (lambda: lent.write_log_sheet(6, 8, both[:20], both.view(np.uint8)), ValueError),
        (lambda: calls.write_log_sheet(6, 8, [[-1] * 10]), OverflowError),
        (lambda: calls.write_log_sheet(6, 8, [[0.5] * 10]), TypeError),
    ):
        with pytest.raises(error) as raised:
            call()
        assert type(raised.value) is error  # and no refusal, which is a ValueError too
    assert not (log.any() or text.any() or record.any() or both.any())


def test_a_record_is_written_whatever_is_found():
    sheet, record = np.frombuffer(O_SHEET, np.uint8), np.full(10, 77, np.uint32)
    assert lent.next_record(sheet, 8, record) == 8 + len("K\t0\t1\t0\t0\t1\t2\t3\t0\t4\t1\n") and record.tolist() == O_LOG[0]
    assert lent.next_record(sheet, len(sheet), record) is None and not record.any()
    record[:] = 77
    assert answer(lent.next_record, sheet, 0, record) == (12, None) and not record.any()
    assert lent.next_record(sheet, 2**64 - 1, record) is None


# The commands


@pytest.fixture
def folder(tmp_path, run):
    """The octahedron as a sheet, its log as a log sheet and as the desk's answer; and a thinned scan's."""
    (tmp_path / "o.sheet").write_text(files.sheet_text(fg.Skin(O_ROWS, O_CORNERS)))
    (tmp_path / "o.log").write_bytes(O_SHEET)
    (tmp_path / "o.answer").write_bytes(calls.reply((tmp_path / "o.sheet").read_bytes()))
    told = run("thin", SPALLED, "--unit", "m", "--limit", "1 m", "--log", tmp_path / "s.log", "--answer", tmp_path / "s.answer")
    assert told.exit == 0
    return tmp_path


def put(folder, data, name="a.log"):
    (folder / name).write_bytes(data)
    return folder / name


def test_thin_writes_the_log_with_the_counts_of_the_scanned_skin(folder):
    skin = fg.read(SPALLED, "m")
    thinned = fg.thin(skin, "1 m")
    assert (folder / "s.log").read_bytes() == written(len(skin.corners), len(skin.rows), thinned.log.tolist())
    found = files.read_answer(folder / "s.answer")
    assert np.array_equal(found.rows, thinned.rows) and np.array_equal(found.log, thinned.log)
    assert len(thinned.rows) < len(skin.rows)


SCAN = [SPALLED, "--unit", "m"]


def test_each_command_says_the_same_of_a_log_sheet_and_of_the_answer(folder, run):
    o, sheet, answered = folder / "o.sheet", folder / "o.log", folder / "o.answer"
    for file, log, other in (([o], sheet, answered), (SCAN, folder / "s.log", folder / "s.answer")):
        for command, more in (("volume", []), ("change", []), ("shift", [0]), ("shift", [1]), ("grow-back", []), ("replay", [])):
            by_sheet, by_answer = run(command, *file, log, *more), run(command, *file, other, *more)
            assert by_sheet.exit == by_answer.exit == 0 and by_sheet.out == by_answer.out != "", command
    # 01's figures
    assert run("volume", o, sheet).out == "0 cubic metres\n" and run("change", o, sheet).out == "-1 cubic metres\n"
    assert run("shift", o, sheet, 1).out == "corner 1: corner 0 stands in after 1, squared distance 20,000 square cm\n"
    assert run("grow-back", o, sheet).out == o.read_text() and run("replay", o, sheet).out == answered.read_text()


def test_what_growing_back_starts_from(folder, run):
    o, sheet, answered = folder / "o.sheet", folder / "o.log", folder / "o.answer"
    told = run("grow-back", o, sheet)
    assert "o.log was replayed on o.sheet first" in told.err and "those of o.sheet, number for number" in told.err
    told = run("grow-back", o, sheet, "--from", answered)
    assert told.out == o.read_text() and "replayed" not in told.err and "the grown rows are those of o.sheet" in told.err
    # other rows: the answer's after one record, from which the last record does not grow back
    rows = calls.replay(O_ROWS, 6, O_LOG[:1])
    other = put(folder, files.answer_text(rows, np.array(O_LOG[:1]), 1, 1).encode(), "other")
    told = run("grow-back", o, sheet, "--from", other)
    assert told.exit == 1 and "record 1, counted from 0, keeps corner 0 and removes 2; 0 were done before it" in told.err
    # and with the first record alone they do
    assert run("grow-back", o, put(folder, O_SHEET[: O_SHEET.rindex(b"K")]), "--from", other).out == o.read_text()
    told = run("grow-back", o, sheet, "--from", folder / "s.log")
    assert told.exit == 3 and told.err.startswith("flaxglimmer: s.log: line 1: ") and "as the desk's answer" in told.err
    assert run("grow-back", o, sheet, "--from", answered, "--sheet", answered).exit == 2


def test_replay_tells_whether_there_were_rows_to_compare_with(folder, run):
    assert run("replay", folder / "o.sheet", folder / "o.log", "--json").told["same"] is None
    assert run("replay", folder / "o.sheet", folder / "o.answer", "--json").told["same"] is True
    assert "o.log replays to its end, 2 records; a log sheet has no rows" in run("replay", folder / "o.sheet", folder / "o.log").err
    for option in ("--answer", "--log"):
        told = run("replay", folder / "o.sheet", folder / "o.log", option, folder / "out")
        assert told.exit == 0 and told.out == "" and (folder / "out").read_bytes() == (folder / "o.answer").read_bytes()
        (folder / "out").unlink()


EVERY = [("replay", []), ("grow-back", []), ("shift", [0]), ("change", []), ("volume", [])]


@pytest.mark.parametrize("command,more", EVERY)
def test_counts_that_are_not_the_skins_are_told_in_one_line(command, more, folder, run):
    for counts, told in (("7\t8", "7 corners and 8 rows"), ("6\t10", "6 corners and 10 rows")):
        log = put(folder, O_SHEET.replace(b"6\t8", counts.encode(), 1))
        ended = run(command, folder / "o.sheet", log, *more)
        assert ended.exit == 2 and ended.out == "" and ended.err.count("\n") == 1
        assert ended.err.startswith(f"flaxglimmer: a.log is the log of a skin of {told}, and o.sheet has 6 corners and 8 rows")
    ended = run(command, folder / "o.sheet", folder / "s.log", *more)
    assert ended.exit == 2 and "242 corners and 480 rows, and o.sheet has 6 corners and 8 rows" in ended.err
    told = json.loads(run(command, folder / "o.sheet", folder / "s.log", *more, "--json").out)
    assert (told["exit"], told["status"]) == (2, None) and f"flaxglimmer: {told['error']}\n" == ended.err
    # the scan read with other options has other corners
    ended = run(command, *SCAN, folder / "s.log", *more, "--weld", "none")
    assert ended.exit == 2 and "spalled.stl has 1,440 corners and 480 rows: is it that scan, read with the same options?" in ended.err


def test_a_log_of_another_skin_with_the_same_counts_does_not_replay(folder, run):
    rows = O_ROWS[::-1].copy()
    other = put(folder, files.sheet_text(fg.Skin(rows, O_CORNERS)).encode(), "other.sheet")
    for command in ("replay", "grow-back", "volume", "change"):
        told = run(command, other, folder / "o.log")
        assert told.exit == 1 and told.err.startswith("refused, 13") and "record 0, counted from 0, keeps corner 0 and removes 1; 0 were done before it" in told.err
    told = run("grow-back", other, folder / "o.log", "--from", folder / "o.answer")
    assert told.exit == 0 and "NOT those of other.sheet" in told.err
    # a record that was changed in its last number
    log = put(folder, O_SHEET[:-2] + b"1\n")
    assert "record 1, counted from 0, keeps corner 0 and removes 2; 1 were done before it" in run("replay", folder / "o.sheet", log).err
    log = put(folder, O_SHEET.replace(b"K\t0\t2", b"K\t0\t6"))
    assert "record 1 has corner 6, and there are 6, counted from 0" in run("shift", folder / "o.sheet", log, 0).err


# What a log sheet holds


def test_log_says_what_a_log_sheet_holds(folder, run):
    told = run("log", folder / "o.log")
    assert told.exit == 0 and told.err == ""
    assert told.out.splitlines() == ["o.log: the log of a skin of 6 corners and 8 rows", "2 records, counted from 0; 4 rows on 4 corners are left after them", *O_WORDS]
    told = run("log", folder / "o.log", "--json").told
    assert told == {
        "exit": 0, "notes": [], "status": 0, "file": "o.log", "corners": 6, "rows": 8, "records": 2,
        "log": [{"kept": 0, "removed": 1, "places": [0, 3], "rows": [[0, 1, 2], [0, 4, 1]]}, {"kept": 0, "removed": 2, "places": [0, 2], "rows": [[0, 2, 3], [5, 2, 0]]}],
    }  # fmt: skip
    lines = run("log", folder / "s.log").out.splitlines()
    skin, thinned = fg.read(SPALLED, "m"), files.read_answer(folder / "s.answer")
    left = len(thinned.rows), len(np.unique(thinned.rows))
    assert lines[1].startswith(f"{len(thinned.log)} records") and lines[1].endswith("{} rows on {} corners are left after them".format(*left))
    assert len(lines) == 2 + len(thinned.log) and f"{len(skin.corners)} corners and {len(skin.rows)} rows" in lines[0]


def test_the_rows_that_log_names_stand_at_their_places(folder, run):
    told, rows = run("log", folder / "s.log", "--json").told, fg.read(SPALLED, "m").rows
    for record in told["log"]:
        assert rows[record["places"]].tolist() == record["rows"]
        rows = np.delete(rows, record["places"], 0)
        rows[rows == record["removed"]] = record["kept"]
    assert np.array_equal(rows, files.read_answer(folder / "s.answer").rows)


def test_logs_without_a_record_and_with_more_than_the_rows_can_lose(folder, run):
    assert run("log", put(folder, b"LOG\t4\t4\n")).out == "a.log: the log of a skin of 4 corners and 4 rows\nno record: no edge was contracted\n"
    assert "1 record, counted from 0; 4 rows on 5 corners are left" in run("log", put(folder, O_SHEET[: O_SHEET.rindex(b"K")].replace(b"\t8", b"\t6", 1))).out
    told = run("log", put(folder, O_SHEET.replace(b"\t8", b"\t6", 1)))
    assert told.exit == 0 and "2 records, counted from 0; more than 6 rows can lose" in told.out


def test_a_log_cut_at_any_byte(folder, run):
    """Line, byte and the records before it, worked out from the lines alone."""
    for cut in range(len(O_SHEET)):
        whole = O_SHEET[:cut].split(b"\n")[:-1]
        byte = sum(len(line) + 1 for line in whole)
        told = run("log", put(folder, O_SHEET[:cut]), "--json").told
        records = max(0, len(whole) - 1)
        assert told["records"] == len(told["log"]) == records and [record["removed"] for record in told["log"]] == [1, 2][:records]
        if cut == byte and whole:
            assert (told["exit"], told["status"]) == (0, 0)
            continue
        assert (told["exit"], told["status"], len(told["faults"])) == (1, 12, 1)
        fault = told["faults"][0]
        assert (fault["line"], fault["byte"]) == (len(whole) + 1, byte) and fault["text"].startswith(f"a.log, line {len(whole) + 1}, byte {byte}: ")
        assert ("cut" if cut else "the file is empty") in fault["text"] + told["hint"]
        assert (told["corners"], told["rows"]) == ((6, 8) if whole else (None, None))


def test_a_cut_log_shows_its_whole_records_first(folder, run):
    told = run("log", put(folder, O_SHEET[:-9]))
    assert told.exit == 1
    assert told.out.splitlines() == ["a.log: the log of a skin of 6 corners and 8 rows", "1 whole record, counted from 0; then line 3, which is none", O_WORDS[0]]
    lines = told.err.splitlines()
    assert lines[0].startswith("refused, 12: sheet not in its form") and len(lines) == 3
    start = O_SHEET.rindex(b"K")
    assert lines[1] == f"  a.log, line 3, byte {start}: the log was cut within this line: {O_SHEET[start:-9].decode()!r}; 1 whole record before it"
    assert lines[2].startswith("  hint: ask for the log again")
    assert run("log", folder / "a.log", "--quiet").err.splitlines() == lines[:2]


LINES = O_SHEET.splitlines(keepends=True)
MAIL = [
    (O_SHEET.replace(b"\n", b"\r\n"), 1, "the line ends in a carriage return"),
    (LINES[0] + LINES[1].replace(b"\n", b"\r\n") + LINES[2], 2, "the line ends in a carriage return"),
    (O_SHEET.replace(b"\n", b"\r\r\n"), 1, "the line ends in a carriage return"),
    (O_SHEET.replace(b"\n", b"  \n"), 1, "the line ends in blanks"),
    (LINES[0] + LINES[1] + LINES[2].replace(b"\n", b"\t\n"), 3, "the line ends in blanks"),
    (O_SHEET.replace(b"\t", b" "), 1, "the line has blanks where tabs should be"),
    (O_SHEET.replace(b"\t", b"        "), 1, "the line has blanks where tabs should be"),
    (LINES[0] + O_SHEET[len(LINES[0]) :].replace(b"\t", b"    "), 2, "the line has blanks where tabs should be"),
    (O_SHEET.replace(b"\t", b" ").replace(b"\n", b" \r\n"), 1, "the line ends in a carriage return and ends in blanks and has blanks where tabs should be"),
    (b"".join(b"> " + line for line in LINES), 1, "the line has > or blanks in front"),
    (b"".join(b">>" + line for line in LINES), 1, "the line has > or blanks in front"),
    (b"\xef\xbb\xbf" + O_SHEET, 1, "the line has a byte order mark in front"),
    (b"\xef\xbb\xbf" + O_SHEET.replace(b"\n", b"\r\n"), 1, "the line has a byte order mark in front and ends in a carriage return"),
    (O_SHEET.decode().encode("utf-16"), 1, "the file has 16 bits a letter"),
    (O_SHEET.decode().encode("utf-16-be").join([b"\xfe\xff", b""]), 1, "the file has 16 bits a letter"),
    (O_SHEET + b"\n", 4, "an empty line"),
    (b"\n" + O_SHEET, 1, "an empty line"),
    (LINES[0] + b"\n" + LINES[1] + b" \n" + LINES[2], 2, "an empty line"),
    (O_SHEET[:-1], 3, "the last line has no newline"),
]  # fmt: skip


@pytest.mark.parametrize("data,line,words", MAIL)
def test_what_mail_and_editors_do_is_told_and_how_it_is_undone(data, line, words, folder, run):
    log = put(folder, data)
    told = run("log", log)
    assert told.exit == 1 and re.match(rf"  a\.log, line {line}, byte \d+: {words}", told.err.splitlines()[1])
    assert told.out.count("record ") - told.out.count("whole record ") == max(0, line - 2)
    assert mended(told.err.splitlines()[2], folder) == O_SHEET
    for command, more in EVERY:
        other = run(command, folder / "o.sheet", log, *more)
        assert other.exit == 1 and other.out == "" and other.err == told.err


def test_a_name_with_blanks_is_quoted_in_the_hint(folder, run):
    put(folder, O_SHEET.replace(b"\n", b"\r\n"), "log of shaft 3.log")
    assert mended(run("log", folder / "log of shaft 3.log").err.splitlines()[2], folder) == O_SHEET


def test_a_cut_in_the_last_number_shows_when_it_is_replayed(folder, run):
    sheet = (folder / "s.log").read_bytes()
    last = sheet.rindex(b"\t")
    assert len(sheet) - last > 3  # a number of more than one digit: what is left of it is one too
    told = run("log", put(folder, sheet[:-2]))
    assert "the last line has no newline" in told.err and "replay then says whether its last number is whole" in told.err
    again = put(folder, mended(told.err.splitlines()[2], folder))
    assert run("log", again).exit == 0
    told = run("replay", *SCAN, again)
    assert told.exit == 1 and told.err.startswith("refused, 13")


def test_the_whole_records_of_a_cut_log_are_a_log_of_fewer_steps(folder, run):
    sheet = (folder / "s.log").read_bytes()
    told = run("log", put(folder, sheet[:1000]))
    lines = sheet[:1000].count(b"\n")
    shorter = mended(told.err.splitlines()[2], folder)
    assert shorter == b"".join(sheet.splitlines(keepends=True)[:lines])
    assert f"; {lines - 1} whole records before it" in told.err
    skin, log = fg.read(SPALLED, "m"), files.read_answer(folder / "s.answer").log
    reached = run("replay", *SCAN, put(folder, shorter, "shorter.log")).out
    rows = [list(map(int, line.split("\t")[1:])) for line in reached.splitlines() if line.startswith("R")]
    assert rows == calls.replay(skin.rows, len(skin.corners), log[: lines - 1]).tolist()


OTHER = [  # the lines of the octahedron's log begin at bytes 0, 8 and 30, and it ends at 52
    (b"", 12, "a.log, line 1, byte 0: the file is empty", "ask for the log again"),
    (LINES[0] + b"K\t0\t1\t0\t0\t1\t2\t3\t0\t4\n" + LINES[2], 12, "a.log, line 2, byte 8: 9 numbers and not 10", "the line was changed"),
    (LINES[0] + LINES[1] + b"K\t0\t2\t0\t0\t2\t3\t2\t5\t2\t0\t0\n", 12, "a.log, line 3, byte 30: 11 numbers and not 10", "the line was changed"),
    (O_SHEET.replace(b"\t3\t0\t4", b"\t03\t0\t4"), 12, "a.log, line 2, byte 8: number 7 is '03', and not one to six digits", "the line was changed"),
    (O_SHEET.replace(b"\t3\t0\t4", b"\t-3\t0\t4"), 12, "a.log, line 2, byte 8: number 7 is '-3'", "the line was changed"),
    (O_SHEET.replace(b"\t3\t0\t4", b"\t1234567\t0\t4"), 12, "a.log, line 2, byte 8: number 7 is '1234567'", "the line was changed"),
    (O_SHEET.replace(b"\t3\t0\t4", b"\t\t0\t4"), 12, "a.log, line 2, byte 8: number 7 is ''", "the line was changed"),
    (O_SHEET.replace(b"LOG\t6", b"LOG\t06"), 12, "a.log, line 1, byte 0: number 1 is '06'", "the line was changed"),
    (O_SHEET.replace(b"LOG\t6\t8", b"LOG\t6"), 12, "a.log, line 1, byte 0: 1 number and not 2", "the line was changed"),
    (O_SHEET + b"-- \nSent from site\n", 12, "a.log, line 4, byte 52: not K and 10 numbers, parted by tabs: '-- '; 2 whole records before it", "does not belong there"),
    (O_SHEET + b"Sent from site", 12, "a.log, line 4, byte 52: not K and 10 numbers, parted by tabs: 'Sent from site'", "does not belong there"),
    (O_SHEET.replace(b"K", b"k"), 12, "a.log, line 2, byte 8: not K and 10 numbers", "the line was changed"),
    (O_SHEET + b"\x1b[31mred\n", 12, "'\\x1b[31mred'", "the line was changed"),
    (O_SHEET + b"K" * 70_000, 12, "a.log has over 65,536 bytes", "is it another file"),
    (O_SHEET.replace(b"6\t8", b"3\t8", 1), 2, "a.log, line 1: 3 corners and 8 rows", "its first line was changed"),
    (O_SHEET.replace(b"6\t8", b"515\t8", 1), 2, "a.log, line 1: 515 corners and 8 rows", "its first line was changed"),
    (O_SHEET.replace(b"6\t8", b"6\t1025", 1), 2, "a.log, line 1: 6 corners and 1,025 rows", "its first line was changed"),
    (O_SHEET + LINES[2], 2, "a.log, line 1: 3 records, and a skin of 6 corners has 2 at most", "two logs put into one file"),
    (O_SHEET.replace(b"6\t8", b"3\t8", 1) + b"K\n", 12, "a.log, line 4, byte 52: 0 numbers and not 10: 'K'; 2 whole records before it", "the line was changed"),
]  # fmt: skip


@pytest.mark.parametrize("data,number,place,hint", OTHER)
def test_other_damage_is_told_by_its_place(data, number, place, hint, folder, run):
    log = put(folder, data)
    told = run("log", log)
    lines = told.err.splitlines()
    assert told.exit == 1 and len(lines) == 3 and lines[0].startswith(f"refused, {number}: ") and place in lines[1] and lines[2].startswith("  hint: ") and hint in lines[2]
    assert "\x1b" not in told.out + told.err
    if not data:
        return  # nothing says which of the two it is
    for command, more in EVERY:
        other = run(command, folder / "o.sheet", log, *more)
        assert other.exit == 1 and other.out == "" and other.err == told.err


def test_records_are_shown_where_the_counts_are_refused(folder, run):
    told = run("log", put(folder, O_SHEET + LINES[2]))
    assert told.out.splitlines()[1:] == ["3 whole records, counted from 0; refused", *O_WORDS, O_WORDS[1].replace("record 1", "record 2")]
    told = run("log", put(folder, O_SHEET.replace(b"6\t8", b"3\t8", 1)), "--json").told
    assert (told["status"], told["corners"], told["rows"], told["records"]) == (2, 3, 8, 2)


def test_log_is_asked_about_other_files(folder, run):
    for name, words in (("o.answer", "it is no log sheet but the desk's answer, with its rows"), ("o.sheet", "it is no log sheet but a sheet, which has a skin and no log")):
        told = run("log", folder / name)
        assert told.exit == 1 and told.out == "" and f"  {name}, line 1, byte 0: {words}" in told.err and "thin --log" in told.err
    assert "the desk's answer to a sheet that it refused" in run("log", put(folder, b"NO\t8\n")).err
    assert run("log", SPALLED).exit == 1
    for path, words in ((folder / "none.log", "No such file"), (folder, "Is a directory")):
        told = run("log", path)
        assert told.exit == 3 and told.out == "" and told.err.count("\n") == 1 and words in told.err


def test_the_two_are_told_apart_by_the_first_word():
    for sheet in (O_SHEET, O_SHEET[:5], b"LOG", b"LOG 6 8\n", b"> LOG\t6\t8\n", b"\r\nLOG\t6\t8\r\n", "\ufeffLOG\t6\t8\n".encode(), O_SHEET.decode().encode("utf-16")):
        assert logs.is_log_sheet(sheet)
    for other in (b"", b"OK\t4\t2\t1\t0\nLOG\t6\t8\n", b"NO\t8\n", b"SKIN\t6\t8\n", b"LOGS\t6\t8\n", b"x LOG\t6\t8\n", b"solid LOG\n", b"K\t1\n"):
        assert not logs.is_log_sheet(other)

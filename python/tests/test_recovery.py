"""Thinning taken up from a cut log sheet: the call against change request 3 in Python's own words, and what the command does and tells."""
import random
import re

import numpy as np
import pytest
from conftest import ROOT
from hypothesis import given
from hypothesis import strategies as st
from scans import shaft
from tables import O_CORNERS, O_ROWS, T_CORNERS, T_ROWS
from test_logs import DAMAGE, LINES, MAIL, O_LOG, O_SHEET, SPALLED, folder, line_at, put, written  # noqa: F401
from texts import damaged_by, mended

import flaxglimmer as fg
from flaxglimmer import calls, lent, mail

# The octahedron contracted over the edge of 2 and 5, which is not the least: rows 4 and 5 leave
OTHER_RECORD = [2, 5, 4, 5, 2, 1, 5, 5, 3, 2]
OTHER = written(6, 8, [OTHER_RECORD])


# The request in Python: whole lines are used, an unfinished tail is dropped, the records replayed, and thinning goes on


def whole_lines(data):
    """Status, counts and records of the lines that end in a newline."""
    whole, records = data[: data.rfind(b"\n") + 1], []
    found = line_at(whole, 0, b"LOG", 2) if len(data) <= 65_536 else None
    while found is not None:
        numbers, place = found
        records.append(numbers)
        if place == len(whole):
            return 0, tuple(records[0]), records[1:]
        found = line_at(whole, place, b"K", 10)
    return 12, None, None


def thinned_on(stage, corners, limit):
    """Thinning from a stage, as that of a skin which has its used corners alone: their numbers keep their order."""
    used = np.unique(stage)
    last, log = calls.thin(np.searchsorted(used, stage), corners[used], limit)
    numbers = [at for at in range(10) if at not in (2, 6)]  # all but the places
    log = log.astype(np.int64)
    log[:, numbers] = used[log[:, numbers]]
    return used[last], log.tolist()


def expected(rows, corners, data, limit):
    """Status, kept, rows and log."""
    try:
        calls.thin(rows, corners, limit)
    except fg.Refused as refused:
        return refused.number, 0, rows, []
    status, counts, records = whole_lines(data)
    if status:
        return 12, 0, rows, []
    if counts != (len(corners), len(rows)) or len(records) > len(corners) - 4:
        return 2, 0, rows, []
    try:
        stage = calls.replay(rows, len(corners), records)
    except fg.Refused as refused:
        return 13, refused.records, refused.rows, records[: refused.records]
    last, added = thinned_on(stage, corners, limit)
    return 0, len(records), last, records + added


def agree(rows, corners, data, limit):
    """The call answers as the request has it, in every number of table and log; the status."""
    status, kept, last, log = expected(rows, corners, data, limit)
    table, room = np.array(rows, np.uint32).reshape(-1), np.full(10 * len(corners), 77, np.uint32)
    try:
        found = (0, *lent.recover(table, corners, room, np.frombuffer(data, np.uint8), limit))
    except fg.Refused as refused:
        found = refused.number, refused.records, refused.records
    assert found == (status, kept, len(log))
    assert table.tolist() == np.ravel(last).tolist() + [0] * (table.size - last.size)
    assert room.tolist() == sum(log, []) + [77] * (room.size - 10 * len(log))
    return status


# The call


def small_skins():
    yield O_ROWS, O_CORNERS
    yield T_ROWS, T_CORNERS
    for seed, (around, rings) in enumerate([(3, 2), (4, 3), (5, 4)]):
        skin = fg.from_points(*shaft(around, rings, seed=seed), "m")
        yield skin.rows, skin.corners


def test_a_log_cut_after_any_byte_ends_as_the_unbroken_run():
    most = 0
    for rows, corners in small_skins():
        for limit in ("none", "142 cm", "8 m", "0 cm"):
            last, log = calls.thin(rows, corners, limit)
            sheet = calls.write_log_sheet(len(corners), len(rows), log)
            for cut in range(len(sheet) + 1):
                whole = sheet[:cut].count(b"\n")
                if whole == 0:
                    assert agree(rows, corners, sheet[:cut], limit) == 12
                    continue
                found = calls.recover(rows, corners, sheet[:cut], limit)
                assert np.array_equal(found[0], last) and np.array_equal(found[1], log) and found[2] == whole - 1
            most = max(most, len(log))
    assert most >= 16


def test_the_stage_handed_over_is_the_one_after_the_whole_lines():
    """Under a limit of 0 cm nothing is added where no two corners lie on one point."""
    skin = fg.read(SPALLED, "m")
    log = fg.thin(skin, "1 m").log
    sheet = calls.write_log_sheet(len(skin.corners), len(skin.rows), log)
    for cut in range(sheet.index(b"\n") + 1, len(sheet) + 1, 131):
        whole = sheet[:cut].count(b"\n") - 1
        rows, found, kept = calls.recover(skin.rows, skin.corners, sheet[:cut], "0 cm")
        assert kept == whole and np.array_equal(found, log[:whole])
        assert np.array_equal(rows, calls.replay(skin.rows, len(skin.corners), log[:whole]))


def test_the_tail_may_be_anything():
    for tail in (b"", b"K", LINES[2][:-1], b"LOG\t7\t9", b"\0" * 4096, b"\xff\xfe\r", bytes(byte for byte in range(256) if byte != 10)):
        rows, log, kept = calls.recover(O_ROWS, O_CORNERS, b"".join(LINES[:2]) + tail, "none")
        assert kept == 1 and log.tolist() == O_LOG and rows.tolist() == [[0, 3, 4], [5, 3, 0], [5, 4, 3], [5, 0, 4]]
    longest = O_SHEET.ljust(65_536, b"\0")
    assert agree(O_ROWS, O_CORNERS, longest, None) == 0 and agree(O_ROWS, O_CORNERS, longest + b"\0", None) == 12


def test_under_another_order_other_records_are_added():
    rows, log, kept = calls.recover(O_ROWS, O_CORNERS, OTHER, "none")
    assert kept == 1 and log.tolist() == [OTHER_RECORD, O_LOG[0]] and rows.tolist() == [[0, 2, 3], [0, 3, 4], [2, 4, 3], [2, 0, 4]]
    rows, log, kept = calls.recover(O_ROWS, O_CORNERS, OTHER, "141 cm")
    assert kept == 1 and log.tolist() == [OTHER_RECORD] and len(rows) == 6
    statuses = {agree(O_ROWS, O_CORNERS, OTHER, limit) for limit in ("none", "141 cm", "142 cm")}
    for rows, corners in small_skins():
        for wrote, limit in (("none", "8 m"), ("8 m", "none"), ("12 m", "9 m")):
            sheet = calls.write_log_sheet(len(corners), len(rows), calls.thin(rows, corners, wrote)[1])
            statuses |= {agree(rows, corners, sheet[:cut], limit) for cut in range(sheet.index(b"\n") + 1, len(sheet), 17)}
    assert statuses == {0}


def test_a_record_that_does_not_replay_carries_the_stage_and_its_records():
    for spoilt, done in ((O_SHEET[:-2] + b"1\n", 1), (LINES[0] + LINES[1] * 2, 1), (LINES[0] + LINES[2] + LINES[1], 0)):
        assert agree(O_ROWS, O_CORNERS, spoilt + b"K\t0", None) == 13
        with pytest.raises(fg.Refused) as refused:
            calls.recover(O_ROWS, O_CORNERS, spoilt, "none")
        assert (refused.value.number, refused.value.records, refused.value.log.tolist()) == (13, done, O_LOG[:done])
        assert np.array_equal(refused.value.rows, calls.replay(O_ROWS, 6, O_LOG[:done]))


def test_the_refusals_come_in_their_order():
    other, more, fails = O_SHEET.replace(b"6\t8", b"7\t9", 1), O_SHEET + LINES[2], LINES[0] + LINES[2]
    numbers = {other: 2, more: 2, other.replace(LINES[1], b""): 2, fails + LINES[2] * 2: 2, fails: 13, O_SHEET: 0}
    numbers |= {data + b"K\n": 12 for data in numbers}
    for data, number in numbers.items():
        assert agree(O_ROWS, O_CORNERS, data, None) == number
        assert agree(O_ROWS, O_CORNERS, data, ("m", 2001)) == 1
        assert agree(O_ROWS[:3], O_CORNERS, data, None) == 2
        assert agree(O_ROWS, O_CORNERS + np.int32(50_000), data, None) == 4
        assert agree(O_ROWS[:-1], O_CORNERS, data, None) == 8
        assert agree(O_ROWS, np.concatenate([O_CORNERS, O_CORNERS[:1]]), data, None) == 9
        table, room = O_ROWS.reshape(-1).copy(), np.full(19, 77, np.uint32)
        with pytest.raises(fg.Refused) as refused:
            lent.recover(table, O_CORNERS, room, np.frombuffer(data, np.uint8), None)
        assert refused.value.number == 3 and np.array_equal(table, O_ROWS.reshape(-1)) and (room == 77).all()


@given(st.integers(0, 2**32 - 1), st.lists(DAMAGE, max_size=3))
def test_damage_of_every_kind_is_answered_as_the_request_has_it(seed, damage):
    chance = random.Random(seed)
    skin = fg.from_points(*shaft(*chance.choice([(3, 2), (4, 3), (3, 5)]), seed=seed % 7), "m")
    wrote, limit = (chance.choice(["none", "2 m", "7 m", "11 m"]) for _ in range(2))
    sheet = fg.thin(skin, wrote).log_sheet()
    data = damaged_by(sheet[: chance.choice([len(sheet), chance.randrange(len(sheet) + 1)])], damage)
    agree(skin.rows, skin.corners, data, limit)


def test_what_is_handed_in_is_never_written():
    rows, corners = O_ROWS.copy(), O_CORNERS.copy()
    rows.flags.writeable = corners.flags.writeable = False
    calls.recover(rows, corners, O_SHEET, "none")
    assert np.array_equal(rows, O_ROWS) and np.array_equal(corners, O_CORNERS)


def test_what_is_lent_is_looked_at_first():
    table, corners, log, sheet = O_ROWS.reshape(-1).copy(), O_CORNERS.copy(), np.zeros(20, np.uint32), np.frombuffer(O_SHEET, np.uint8).copy()
    locked, both = log.copy(), np.zeros(64, np.uint32)
    locked.flags.writeable = False
    for arguments, error in (
        ((table.astype(np.int64), corners, log, sheet), TypeError),
        ((table, corners.astype(np.int64), log, sheet), TypeError),
        ((table, corners, log.astype(np.int32), sheet), TypeError),
        ((table, corners, log, O_SHEET), TypeError),
        ((table, corners, log, sheet[::2]), TypeError),
        ((table, corners, locked, sheet), ValueError),
        ((both[:24], corners, both[20:40], sheet), ValueError),
        ((both[:24], corners, log, both.view(np.uint8)[90:]), ValueError),
        ((table, corners, both[:20], both.view(np.uint8)[70:]), ValueError),
        ((table, both[:18].view(np.int32), both[10:30], sheet), ValueError),
        ((both[:24], both[18:36].view(np.int32), log, sheet), ValueError),
    ):
        with pytest.raises(error) as raised:
            lent.recover(*arguments, "none")
        assert type(raised.value) is error  # and no refusal, which is a ValueError too
    with pytest.raises(fg.UsageFault):
        lent.recover(table, corners, log, sheet, "0.8")
    assert np.array_equal(table, O_ROWS.reshape(-1)) and not (log.any() or both.any())


def test_skins_are_taken_up_from_bytes():
    skin = fg.read(SPALLED, "m")
    thinned = fg.thin(skin, "1 m")
    found = fg.recover(skin, thinned.log_sheet()[:1000], "1 m")
    assert isinstance(found, fg.Thinned) and np.array_equal(found.log, thinned.log) and np.array_equal(found.rows, thinned.rows)
    assert (found.limit, found.typed, found.unbroken) == (100, "1 m", True) and found.kept + found.added == len(thinned.log)
    assert thinned.log_sheet()[:1000].endswith(b"\n" + found.dropped) and found.log_sheet() == thinned.log_sheet()
    with pytest.raises(fg.UsageFault):
        fg.recover(skin, O_SHEET, "fast")


# The command

SCAN = [SPALLED, "--unit", "m"]


def lines_of(told):
    return told.out.splitlines()


def test_each_cut_is_told_in_one_line_and_writes_the_unbroken_log(folder, run):
    thinned = lines_of(run("thin", folder / "o.sheet", "--limit", "none"))
    for cut in range(8, len(O_SHEET) + 1):
        whole, tail = O_SHEET[:cut].rsplit(b"\n", 1)
        kept = whole.count(b"\n")
        told = run("recover", folder / "o.sheet", put(folder, O_SHEET[:cut]), "--limit", "none", "--log", folder / "out.log")
        rest = f"dropped an unfinished line of {len(tail)} byte{'s' * (len(tail) > 1)}: {tail.decode()!r}" if tail else "nothing was dropped"
        assert told.exit == 0 and lines_of(told) == [f"a.log: {kept} record{'s' * (kept != 1)} kept, {2 - kept} added; {rest}", *thinned]
        assert told.err == "  rows and log are those of an unbroken run under this order\n"
        assert (folder / "out.log").read_bytes() == O_SHEET
        told = run("recover", folder / "o.sheet", folder / "a.log", "--limit", "none", "--json").told
        assert (told["status"], told["kept"], told["added"], told["dropped"], told["same"], told["records"]) == (0, kept, 2 - kept, len(tail), True, 2)
        assert told["claimed"] in told["notes"] and "unbroken" in told["claimed"]


def test_all_that_thin_writes_is_that_of_the_unbroken_run(folder, run):
    sheet = (folder / "s.log").read_bytes()
    put(folder, sheet[:2000])
    outputs = ["log", "answer", "sheet", "report"]
    asked = ["--limit", "1 m", "--length", "30 m", "--mean-at-least", "3000 mm"]
    written = {name: [f"--{option}" if at % 2 == 0 else folder / f"{name}.{option}" for option in outputs for at in range(2)] for name in ("thin", "recover")}
    thinned = run("thin", *SCAN, *asked, *written["thin"])
    told = run("recover", *SCAN, folder / "a.log", *asked, *written["recover"])
    assert thinned.exit == told.exit == 0 and lines_of(told)[1:] == lines_of(thinned)
    for option in outputs[:3]:
        assert (folder / f"recover.{option}").read_bytes() == (folder / f"thin.{option}").read_bytes() != b""
    sentence = f"<p>The log was taken up from {lines_of(told)[0]}; rows and log are those of an unbroken run under this order.</p>\n".replace("'", "&#39;")
    page = (folder / "recover.report").read_text()
    assert sentence in page and page.replace(sentence, "") == (folder / "thin.report").read_text()
    for more, ended in ((["--mean-at-least", "9 m"], 4), (["--mean-at-least", "1 m"], 0)):
        assert run("recover", *SCAN, folder / "a.log", "--limit", "1 m", "--length", "30 m", *more).exit == ended


def test_another_order_is_told_plainly(folder, run):
    put(folder, OTHER)
    for limit, words in (
        ("none", "a.log was begun under another order: the least edge is claimed for the 1 record added alone"),
        ("142 cm", "a.log was begun under another order or over other coordinates: least edge, limit and shift bound are claimed for the 1 record added alone, stand-ins and counts started afresh after the 1 kept"),
        ("141 cm", "a.log was begun under another order or over other coordinates: least edge, limit and shift bound are claimed for none of its records"),
    ):  # fmt: skip
        for quiet in ([], ["--quiet"]):
            told = run("recover", folder / "o.sheet", folder / "a.log", "--limit", limit, "--report", folder / "r.html", *quiet)
            assert told.exit == 0 and told.err == words + "\n" and "unbroken" not in told.out
        page = (folder / "r.html").read_text()
        assert page.index(f"<p class=\"warning\"><b>Warning:</b> {words}.</p>") < page.index("<h2>Figures") and "unbroken" not in page
        told = run("recover", folder / "o.sheet", folder / "a.log", "--limit", limit, "--json").told
        assert (told["status"], told["same"], told["claimed"]) == (0, False, words)


def test_a_log_that_goes_further_than_the_order_was_begun_under_another(folder, run):
    cut = put(folder, (folder / "s.log").read_bytes()[:3000])
    for limit, same in (("1 m", True), ("100 cm", True), ("0.4 m", False), ("2 m", False), ("none", False)):
        told = run("recover", *SCAN, cut, "--limit", limit, "--json").told
        assert told["same"] is same and told["kept"] > 50 and (told["added"] > 0) is (limit != "0.4 m")


def test_a_scan_in_another_unit_shows_under_a_limit(folder, run):
    cut = put(folder, (folder / "s.log").read_bytes()[:3000])
    told = run("recover", SPALLED, "--unit", "ft", cut, "--limit", "1 m")
    assert told.exit == 0 and "a.log was begun under another order or over other coordinates" in told.err


def test_what_cannot_be_shown_of_a_tail_is_told_by_its_bytes_alone(folder, run):
    for tail, words in (
        (b"\0" * 4096, "of 4,096 bytes"),
        (b"\x1b[31m", "of 5 bytes"),
        (b"K\t0\r", "of 4 bytes"),
        ("K\t0é".encode(), "of 5 bytes"),
        (b"x" * 100, f"of 100 bytes: '{'x' * 60}'"),
        (b"K\t0\t2", "of 5 bytes: 'K\\t0\\t2'"),
    ):
        told = run("recover", folder / "o.sheet", put(folder, b"".join(LINES[:2]) + tail), "--limit", "none")
        assert lines_of(told)[0] == f"a.log: 1 record kept, 1 added; dropped an unfinished line {words}" and "\x1b" not in told.out


REFUSED = [  # the lines of the octahedron's log begin at bytes 0, 8 and 30
    (b"", 12, "a.log, line 1, byte 0: the file is empty", "it has no record; `flaxglimmer thin` begins anew"),
    (b"LO", 12, "a.log, line 1, byte 0: the log was cut within its first line: 'LO'", "it has no record; `flaxglimmer thin` begins anew"),
    (b"LOG\t6\t8", 12, "a.log, line 1, byte 0: the log was cut within its first line: 'LOG\\t6\\t8'", "it has no record; `flaxglimmer thin` begins anew"),
    (b"OK\t4", 12, "a.log, line 1, byte 0: it is no log sheet but the desk's answer, with its rows", "`flaxglimmer thin --log` writes a log sheet"),
    (b"\x1b[31m", 12, "a.log, line 1, byte 0: not LOG and 2 numbers, parted by tabs: '\\x1b[31m'", "the line was changed"),
    (LINES[0] + b"K\t0\t1\n" + LINES[1] + b"K", 12, "a.log, line 2, byte 8: 2 numbers and not 10: 'K\\t0\\t1'; 0 whole records before it", "no record stands before it; `flaxglimmer thin` begins anew"),
    (O_SHEET + b"K\t01" + b"\t1" * 9 + b"\nK\t0", 12, "a.log, line 4, byte 52: number 1 is '01', and not one to six digits", "can be recovered: head -n 3 <a.log >shorter.log"),
    (LINES[0] + LINES[1] + b"\n" + LINES[2] + b"K\t0", 12, "a.log, line 3, byte 30: an empty line; 1 whole record before it", "without empty lines: sed"),
    (O_SHEET.ljust(65_537, b"\0"), 12, "a.log has over 65,536 bytes; what follows its line 3 is no line of a log", "its whole lines can be recovered: head -n 3 <a.log >shorter.log"),
    (LINES[0] + LINES[1] * 3_000, 12, "a.log has over 65,536 bytes", "no log is so long"),
    (O_SHEET.replace(b"6\t8", b"7\t8", 1) + b"K", 2, "a.log is the log of a skin of 7 corners and 8 rows, and o.sheet has 6 corners and 8 rows", "is it that scan, read with the same options?"),
    (b"LOG\t514\t1024\n", 2, "a.log is the log of a skin of 514 corners and 1,024 rows, and o.sheet has 6 corners and 8 rows", "is it that scan"),
    (b"LOG\t3\t9999\nK\t0", 2, "a.log is the log of a skin of 3 corners and 9,999 rows, and o.sheet has 6 corners and 8 rows", "is it that scan"),
    (O_SHEET + LINES[2] + b"K\t0", 2, "a.log, line 1: 3 records, and a skin of 6 corners has 2 at most", "two logs put into one file"),
    (O_SHEET[:-2] + b"1\nK\t0", 13, "a.log, line 3, byte 30: record 1, counted from 0, keeps corner 0 and removes 2; 1 replayed before it, and 6 rows stand then", "can be recovered: head -n 2 <a.log >shorter.log"),
    (LINES[0] + LINES[2] + b"K\t0", 13, "a.log, line 2, byte 8: record 0, counted from 0, keeps corner 0 and removes 2; 0 replayed before it, and 8 rows stand then", "no record stands before it; `flaxglimmer thin` begins anew"),
]  # fmt: skip


@pytest.mark.parametrize("data,number,place,hint", REFUSED, ids=[str(place) for _, _, place, _ in REFUSED])
def test_each_refusal_by_its_place_and_nothing_is_written(data, number, place, hint, folder, run):
    log, out = put(folder, data), [folder / name for name in ("out.log", "out.answer", "r.html")]
    asked = ["recover", folder / "o.sheet", log, "--limit", "none", "--log", out[0], "--answer", out[1], "--report", out[2]]
    told = run(*asked)
    lines = told.err.splitlines()
    assert told.exit == 1 and told.out == "" and len(lines) == 3 and lines[0].startswith(f"refused, {number}: ")
    assert lines[1].startswith(f"  {place}") and lines[2].startswith("  hint: ") and hint.replace("<", f"<{folder}/") in lines[2] and "\x1b" not in told.err
    assert not any(path.exists() for path in out) and log.read_bytes() == data
    told = run(*asked, "--json").told
    (fault,) = told["faults"]
    assert (told["exit"], told["status"]) == (1, number) and fault["text"].startswith(place)
    line, byte = (int(at) for at in re.search(r"line (\d+), byte (\d+)", place).groups()) if "byte " in place else (1, 0)
    assert (fault["line"], fault["byte"]) == (line, byte) and byte == sum(map(len, data.splitlines(keepends=True)[: line - 1]))


def test_what_stands_before_a_bad_line_is_recovered_by_the_hints_own_command(folder, run):
    sheet = (folder / "s.log").read_bytes()
    lines = sheet.splitlines(keepends=True)
    for bad in (b"K\t0\t1\n", lines[60]):
        spoilt = put(folder, b"".join(lines[:40]) + bad + b"".join(lines[41:60]))
        told = run("recover", *SCAN, spoilt, "--limit", "1 m")
        assert told.exit == 1 and ", line 41, byte " in told.err
        shorter = put(folder, mended(told.err.splitlines()[-1].partition("; what")[2], folder), "shorter.log")
        assert shorter.read_bytes() == b"".join(lines[:40])
        told = run("recover", *SCAN, shorter, "--limit", "1 m", "--log", folder / "out.log")
        assert lines_of(told)[0] == f"shorter.log: 39 records kept, {len(lines) - 40} added; nothing was dropped" and (folder / "out.log").read_bytes() == sheet


@pytest.mark.parametrize("data,line,words", [one for one in MAIL if one[0].endswith(b"\n") and not one[0].startswith(mail.WIDE)])
def test_what_mail_did_to_whole_lines_is_told_and_how_it_is_undone(data, line, words, folder, run):
    """And a tail behind them changes nothing."""
    tail = b"K\t0\t2"
    told = run("recover", folder / "o.sheet", put(folder, data + tail), "--limit", "none")
    assert told.exit == 1 and re.match(rf"  a\.log, line {line}, byte \d+: {words}", told.err.splitlines()[1])
    undone = mended(told.err.splitlines()[2], folder)
    assert undone.startswith(O_SHEET) and b"\n" not in undone[len(O_SHEET) :]
    assert run("recover", folder / "o.sheet", put(folder, undone), "--limit", "none", "--json").told["kept"] == 2


def test_a_log_of_16_bits_a_letter_is_told(folder, run):
    for mark, kind in zip(mail.WIDE, ("utf-16-le", "utf-16-be")):
        told = run("recover", folder / "o.sheet", put(folder, mark + (O_SHEET + b"K\t0").decode().encode(kind)), "--limit", "none")
        assert told.exit == 1 and "a.log, line 1, byte 0: the file has 16 bits a letter" in told.err
        assert mended(told.err.splitlines()[2], folder) == O_SHEET + b"K\t0"


def test_the_skins_own_refusals_come_first_with_their_places(folder, run):
    put(folder, b"LOG")
    told = run("recover", ROOT / "scans" / "hole.stl", folder / "a.log", "--unit", "m", "--limit", "none")
    assert told.exit == 1 and told.err.startswith("refused, 8: ") and "a hole of 6 edges" in told.err
    told = run("recover", *SCAN, folder / "a.log", "--limit", "2001 m")
    assert told.exit == 1 and told.err.startswith("refused, 1: ") and "the limit '2001 m'" in told.err
    told = run("recover", *SCAN, folder / "a.log", "--limit", "none", "--weld", "none")
    assert told.exit == 1 and told.err.startswith("refused, 2: ") and "480 rows and 1,440 corners" in told.err and "a.log" not in told.err
    # a sound skin, which the log is not of
    told = run("recover", *SCAN, folder / "o.log", "--limit", "none")
    assert told.exit == 1 and "o.log is the log of a skin of 6 corners and 8 rows, and spalled.stl has 242 corners and 480 rows" in told.err


USAGE = [
    (["recover", "o.sheet", "o.log"], 2, "Missing option '--limit'"),
    (["recover", "o.sheet", "--limit", "none"], 2, "Missing argument 'LOG'"),
    (["recover", "o.sheet", "o.log", "--limit", "0.8"], 2, "is no limit: a figure and its unit"),
    (["recover", "o.sheet", "o.log", "--limit", "none", "--log", "o.log"], 2, "o.log is named twice: what is read is never written over"),
    (["recover", "o.sheet", "o.log", "--limit", "none", "--report", "./o.log"], 2, "never written over"),
    (["recover", "o.sheet", "o.log", "--limit", "none", "--log", "none/out.log"], 2, "cannot be written: No such file"),
    (["recover", "o.sheet", "o.log", "--limit", "none", "--mean-at-least", "3 m"], 2, "needs --length"),
    (["recover", "o.sheet", "none.log", "--limit", "none"], 3, "none.log: it cannot be read: No such file"),
    (["recover", "o.sheet", ".", "--limit", "none"], 3, "it cannot be read"),
    (["recover", "o.log", "o.log", "--limit", "none"], 2, "named twice"),
    (["recover", "none.off", "o.log", "--limit", "none"], 3, "none.off: it cannot be read"),
]


@pytest.mark.parametrize("arguments,ended,message", USAGE, ids=[" ".join(arguments) for arguments, *_ in USAGE])
def test_wrong_usage_and_files_that_are_not_there(arguments, ended, message, run, folder, monkeypatch):
    monkeypatch.chdir(folder)
    before = {path: path.read_bytes() for path in folder.iterdir()}
    told = run(*arguments)
    assert told.exit == ended and told.out == "" and message in told.err and "Traceback" not in told.err
    assert {path: path.read_bytes() for path in folder.iterdir()} == before


def test_a_log_that_does_not_go_on_as_its_own_order_does_is_our_fault(folder, run, monkeypatch):
    recover = calls.recover

    def short(rows, corners, sheet, limit):
        _, log, kept = recover(rows, corners, sheet, limit)
        return calls.replay(rows, len(corners), log[:-1]), log[:-1], kept

    monkeypatch.setattr(calls, "recover", short)
    told = run("recover", *SCAN, put(folder, (folder / "s.log").read_bytes()[:2000]), "--limit", "1 m", "--log", folder / "out.log")
    assert told.exit == 5 and told.out == "" and "our fault: the log was begun as a run under this order, and does not go on" in told.err
    assert not (folder / "out.log").exists()


def test_a_refusal_whose_place_is_not_found_is_our_fault(folder, run, monkeypatch):
    for number, log in ((12, O_SHEET[:-5]), (12, O_SHEET), (8, O_SHEET)):
        monkeypatch.setattr(calls, "recover", lambda *_: lent._done(number))
        told = run("recover", folder / "o.sheet", put(folder, log), "--limit", "none")
        assert told.exit == 5 and told.out == "" and f"our fault: the library refuses by {number}, and no place of it is found" in told.err


def test_log_and_replay_name_recover_where_a_log_was_cut(folder, run):
    cut = put(folder, O_SHEET[:-9])
    for told in (run("log", cut), run("replay", folder / "o.sheet", cut)):
        assert told.exit == 1 and "`flaxglimmer recover` thins on from its whole records" in told.err
    assert "recover" not in run("log", put(folder, b"LOG\t6")).err


def test_hostile_names_do_nothing_to_a_terminal_or_a_page(folder, run):
    log = put(folder, OTHER, "\x1b[31m<img onerror=alert(1)>.log")
    told = run("recover", folder / "o.sheet", log, "--limit", "none", "--report", folder / "r.html")
    page = (folder / "r.html").read_text()
    assert told.exit == 0 and "\x1b" not in told.out + told.err + page and "<img" not in page and "&lt;img onerror=alert(1)&gt;" in page

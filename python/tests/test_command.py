"""The command: each refusal by its text and exit, each exit, --json, what is read and written."""
import json
import math
import time
from html import unescape

import numpy as np
import pytest
from scans import off, shaft, stl
from tables import O_CORNERS, O_ROWS, T_CORNERS, T_ROWS

import flaxglimmer as fg
from flaxglimmer import calls, cli, faults, files, refusals

POINTS, ROWS = shaft(12, 20)
FEET = {"ft": "(survey feet of 1200/3937 m)", "ift": "(international feet of 30.48 cm)"}


def sheet(rows=O_ROWS, corners=O_CORNERS):
    return files.sheet_text(fg.Skin(np.asarray(rows), np.asarray(corners)))


@pytest.fixture
def folder(tmp_path):
    """A shaft as OFF, the octahedron as a sheet, and its log as the desk's answer."""
    off(tmp_path / "shaft.off", POINTS, ROWS)
    (tmp_path / "o.sheet").write_text(sheet())
    (tmp_path / "o.log").write_bytes(calls.reply(sheet().encode()))
    return tmp_path


def scan(folder, rows, points=POINTS):
    off(folder / "a.off", points, np.asarray(rows))
    return ["thin", folder / "a.off", "--unit", "m", "--limit", "none"]


def on_sheet(folder, text):
    (folder / "a.sheet").write_text(text)
    return ["check", folder / "a.sheet"]


def on_log(folder, command, change, *more):
    (folder / "a.log").write_text(change((folder / "o.log").read_text()))
    return [command, folder / "o.sheet", folder / "a.log", *more]


def turned(rows):
    rows = rows.copy()
    rows[10] = rows[10][::-1]
    return rows


def flat(rows):
    rows = rows.copy()
    rows[10, 1] = rows[10, 0]
    return rows


def beyond(rows):
    rows = rows.copy()
    rows[10, 1] = 999
    return rows


TWO = np.concatenate([T_ROWS, [[0, 4, 5], [0, 5, 6], [0, 6, 4], [4, 6, 5]]])
REFUSALS = [
    (1, "limit unusable", lambda f: ["limit", "-1 m"], "the limit '-1 m'"),
    (1, "limit unusable", lambda f: ["thin", f / "shaft.off", "--unit", "m", "--limit", "2001 m"], "the limit '2001 m'"),
    (1, "limit unusable", lambda f: ["limit", "6561.7 ft"], "the limit '6561.7 ft' (survey feet of 1200/3937 m)"),
    (1, "limit unusable", lambda f: ["thin", f / "shaft.off", "--unit", "m", "--limit", "6561.8 ift"], "the limit '6561.8 ift' (international feet of 30.48 cm)"),
    (2, "counts outside limits: 4 to 1,024 rows, 4 to 514 corners", lambda f: scan(f, ROWS[:3]), f"3 rows and {len(np.unique(ROWS[:3]))} corners; so few enclose nothing"),
    (2, "counts outside limits", lambda f: scan(f, np.arange(3 * len(ROWS)).reshape(-1, 3), POINTS[ROWS].reshape(-1, 3)), "480 rows and 1,440 corners; no row shares a corner, and --weld equal"),
    (2, "counts outside limits", lambda f: scan(f, np.concatenate([ROWS] * 3)), "1,440 rows in a.off"),
    (2, "counts outside limits", lambda f: on_sheet(f, "SKIN\t3\t8\n"), "line 1: 8 rows and 3 corners"),
    (2, "counts outside limits", lambda f: on_log(f, "replay", lambda log: log.replace("OK\t4\t2", "OK\t4\t3") + log.splitlines()[-1] + "\n"), "8 rows, 6 corners, 3 records"),
    (4, "a coordinate out of range: -50,000 to 50,000 cm", lambda f: scan(f, ROWS, POINTS + [600, 0, 0]), "corner 0 at (601.", ),
    (5, "a corner number not below the count", lambda f: scan(f, beyond(ROWS)), "row 10 has corner 999, and there are 242 corners"),
    (5, "a corner number not below the count", lambda f: on_log(f, "shift", str, "6"), "corner 6 is asked about, and there are 6"),
    (6, "a number twice in a row", lambda f: scan(f, flat(ROWS)), "row 10 has corner "),
    (7, "a directed edge twice", lambda f: scan(f, turned(ROWS)), "rows 10, "),
    (8, "a reverse missing", lambda f: scan(f, ROWS[1:]), "a hole of 3 edges beside rows "),
    (9, "a corner unused", lambda f: on_sheet(f, sheet(corners=[*O_CORNERS, (7, 8, 9)])), "corner 6 at (7, 8, 9) cm is in no row"),
    (10, "more than one ring round a corner", lambda f: on_sheet(f, sheet(TWO, [*T_CORNERS, *-T_CORNERS[1:]])), "corner 0 at (0, 0, 0) cm has 2 rings"),
    (11, "not connected", lambda f: on_sheet(f, sheet(np.concatenate([T_ROWS, T_ROWS + 4]), [*T_CORNERS, *(T_CORNERS + 9)])), "a part of 4 rows, from row 4; corner 4 at (9, 9, 9) cm"),
    (12, "sheet not in its form, or over 65,536 bytes", lambda f: on_sheet(f, sheet().replace("C\t100\t0\t0", "C\t0100\t0\t0")), "line 3 is not C and three numbers, parted by tabs: 'C\\t0100\\t0\\t0'"),
    (12, "sheet not in its form", lambda f: on_sheet(f, "SKIN 6 8\n"), "line 1 is not SKIN and two counts"),
    (12, "sheet not in its form", lambda f: on_sheet(f, sheet()[:-1]), "line 16: after the last row"),
    (12, "sheet not in its form", lambda f: on_sheet(f, sheet() + "R\t0\t1\t2\n"), "line 16: after the last row"),
    (12, "sheet not in its form", lambda f: on_sheet(f, sheet() * 500), "over 65,536 bytes"),
    (12, "sheet not in its form", lambda f: on_sheet(f, sheet()[:40]), "line 5 is not C"),
    (13, "a record does not grow back or replay", lambda f: on_log(f, "replay", lambda log: log.replace("K\t0\t2", "K\t0\t3")), "record 1, counted from 0, keeps corner 0 and removes 3; 1 were done before it"),
    (13, "a record does not grow back or replay", lambda f: on_log(f, "grow-back", lambda log: log.replace("K\t0\t1", "K\t0\t3")), "record 0, counted from 0, keeps corner 0 and removes 3; 1 were done before it"),
    (8, "a reverse missing", lambda f: on_log(f, "change", lambda log: log.replace("R\t0\t3\t4", "R\t1\t3\t4")), "a hole of "),
    (6, "a number twice in a row", lambda f: on_log(f, "volume", lambda log: log.replace("R\t0\t3\t4", "R\t0\t3\t3")), "row 0 has corner 3 at (-100, 0, 0) cm twice"),
]  # fmt: skip


@pytest.mark.parametrize("number,meaning,arguments,place", REFUSALS, ids=[f"{number}-{at}" for at, (number, *_) in enumerate(REFUSALS)])
def test_each_refusal_by_its_text_and_exit(number, meaning, arguments, place, run, folder):
    told = run(*arguments(folder))
    lines = told.err.splitlines()
    assert told.exit == 1 and told.out == "" and lines[0].startswith(f"refused, {number}: {meaning}")
    assert any(line.startswith("  ") and place in line for line in lines[1:-1]) and lines[-1] == f"  hint: {faults.HINTS[number]}"
    told = run(*arguments(folder), "--json").told
    assert (told["exit"], told["status"]) == (1, number) and told["meaning"].startswith(meaning) and any(place in fault["text"] for fault in told["faults"])
    for fault in told["faults"]:
        assert set(fault) == {"text", "rows", "corners", "at"} and all(isinstance(v, int) for v in fault["rows"] + fault["corners"])
        assert fault["at"] is None or len(fault["at"]) == 3


def test_3_is_told_as_the_others_are(capsys):
    """No command lends too little room: the call does, and its refusal is told."""

    def act():
        fg.lent.thin(O_ROWS.reshape(-1).copy(), O_CORNERS, np.zeros(19, np.uint32), "none")

    told = cli.outcome(act)
    cli.tell(told, as_json=False, quiet=False)
    assert told.exit == 1 and capsys.readouterr().err.splitlines() == ["refused, 3: lent room short", f"  hint: {faults.HINTS[3]}"]


def test_every_number_is_among_the_refusals():
    others = {*range(20, 26), 30, 31, 32}  # those of test_jobs.py and test_flips.py
    assert {number for number, *_ in REFUSALS} | {3} == set(range(1, 14)) == set(faults.HINTS) - others and others < set(faults.HINTS)
    assert refusals.meaning(14) == "refusal 14, which has no words here"


def test_ten_lines_and_how_many_more(run, folder):
    told = run(*scan(folder, ROWS, POINTS + [600, 0, 0]))
    assert len(told.err.splitlines()) == 1 + 10 + 1 + 1 and f"  and {len(POINTS) - 10} more" in told.err
    assert len(run(*scan(folder, ROWS, POINTS + [600, 0, 0]), "--json").told["faults"]) == len(POINTS)


def test_thin_tells_writes_and_ends_with_0(run, folder):
    told = run("thin", folder / "shaft.off", "--unit", "m", "--limit", "1.5 m", "--sheet", folder / "s.sheet", "--log", folder / "s.log", "--answer", folder / "s.answer", "--report", folder / "r.html")
    skin = fg.read(folder / "shaft.off", "m")
    thinned = fg.thin(skin, "1.5 m")
    first, last = thinned.volumes()
    assert told.exit == 0 and told.out.splitlines()[0] == "shaft.off: limit 1.5 m = 150 cm"
    facts = [line.split() for line in told.out.splitlines()[2:7]]
    assert [fact[-1] for fact in facts] == [f"{n:,}" for n in (len(thinned.rows), len(np.unique(thinned.rows)), last, thinned.change(), len(thinned.log))]
    assert [fact[-2] for fact in facts[:3]] == [str(n) for n in (len(ROWS), len(POINTS), first)]
    assert "rounded once" in told.err and len(thinned.log) > 0
    again = files.read_sheet(folder / "s.sheet")
    assert np.array_equal(again.rows, skin.rows) and np.array_equal(again.corners, skin.corners)
    answer = files.read_answer(folder / "s.answer")
    assert np.array_equal(answer.rows, thinned.rows) and np.array_equal(answer.log, thinned.log)
    assert np.array_equal(calls.read_log_sheet((folder / "s.log").read_bytes()).log, thinned.log)
    assert "<svg" in (folder / "r.html").read_text()


@pytest.mark.parametrize("limit", ["none", "1.5 m"])
def test_the_plain_engine_tells_and_writes_the_same(run, folder, monkeypatch, limit):
    asked, thin_plain = [], fg.lent.thin_plain
    monkeypatch.setattr(fg.lent, "thin_plain", lambda *lent: asked.append(lent) or thin_plain(*lent))
    log, answer = folder / "s.log", folder / "s.answer"

    def told(*more):
        came = run("thin", folder / "shaft.off", "--unit", "m", "--limit", limit, "--log", log, "--answer", answer, *more)
        return came.exit, came.out, came.err, log.read_bytes(), answer.read_bytes()

    quick = told()
    assert quick[0] == 0 and not asked
    assert told("--plain") == quick and len(asked) == 1


def test_json_of_thin(run, folder):
    arguments = ["thin", folder / "shaft.off", "--unit", "m", "--limit", "1.5 m", "--length", "30 m", "--mean-at-least", "2 m", "--json"]
    told = run(*arguments).told
    kinds = {"exit": int, "status": int, "file": str, "under": str, "limit": int, "rows": list, "corners": list, "records": int, "volume": list, "change": int, "farthest": dict, "mean_diameter": dict, "notes": list}
    assert {name: type(value) for name, value in told.items()} == kinds
    assert set(told["farthest"]) == {"corner", "stand_in", "count", "squared"}
    assert told["mean_diameter"]["verdict"] == "met" and "narrowest place" in told["mean_diameter"]["line"] and len(told["mean_diameter"]["not_covered"]) == 4
    assert run("thin", folder / "shaft.off", "--unit", "m", "--limit", "none", "--json").told["limit"] is None


def test_the_commands_of_one_call_each(run, folder):
    rows, log = calls.thin(O_ROWS, O_CORNERS, "none")
    o, answer = folder / "o.sheet", folder / "o.log"
    assert run("volume", o).out == "1 cubic metres\n" and run("volume", o, answer).out == "0 cubic metres\n"
    assert run("change", o, answer).out == "-1 cubic metres\n"
    assert run("shift", o, answer, 1).out == "corner 1: corner 0 stands in after 1, squared distance 20,000 square cm\n"
    assert run("shift", o, answer, 1, "--json").told == {"exit": 0, "status": 0, "corner": 1, "stand_in": 0, "count": 1, "squared": 20000, "notes": []}
    assert run("limit", "0.3 m").out == "29 cm\n"
    grown = run("grow-back", o, answer)
    assert grown.out == sheet() and "those of o.sheet, number for number" in grown.err
    replayed = run("replay", o, answer)
    assert replayed.out == answer.read_text() and "those of o.log, number for number" in replayed.err
    assert run("sheet", o).out == sheet()
    assert run("check", o).out == "sound: 8 rows, 6 corners, volume 1 cubic metres\n"
    # a log whose own rows are not those that it leads to
    answer.write_text(answer.read_text().replace("R\t0\t3\t4", "R\t3\t4\t0"))
    assert "NOT those of o.log" in run("replay", o, answer).err and run("replay", o, answer).out.splitlines()[1] == "R\t0\t3\t4"
    assert "NOT those of o.log" in run("replay", o, answer, "--quiet").err and run("replay", o, answer, "--json").told["same"] is False


def test_to_files_and_not_to_standard_output(run, folder):
    for command, name, more, expected in (("sheet", "--sheet", [], sheet()), ("grow-back", "--sheet", [folder / "o.log"], sheet()), ("replay", "--log", [folder / "o.log"], (folder / "o.log").read_text())):
        told = run(command, folder / "o.sheet", *more, name, folder / "out")
        assert told.exit == 0 and told.out == "" and (folder / "out").read_text() == expected


def test_a_scan_is_asked_of_the_desk_by_its_sheet(run, folder):
    text = run("sheet", folder / "shaft.off", "--unit", "m").out
    run("thin", folder / "shaft.off", "--unit", "m", "--limit", "none", "--answer", folder / "s.answer", "--quiet")
    assert calls.reply(text.encode()) == (folder / "s.answer").read_bytes()


BAD_LOGS = [
    ("NO\t8\n", "the desk said no: 8"),
    ("", "line 1: a log begins with LOG and 2 counts, as log sheets do, or with OK and 4 numbers, as the desk's answer: ''"),
    ("K\t0\t1\n", "line 1: a log begins with LOG and 2 counts"),
    ("OK 4 2 1 0\n", "line 1: expected OK and 4 whole numbers"),
    ("OK\t4\t2\t1\t0\n", "it tells 4 rows and 2 records"),
    ("OK\t1\t0\t1\t0\nR\t0\t1\n", "line 2: expected R and 3 whole numbers"),
    ("OK\t0\t1\t1\t0\nK\t0\t1\t2\n", "line 2: expected K and 10 whole numbers"),
    ("OK\t1\t0\t1\t0\nR\t0\t1\t-2\n", "below 0 or past 32 bits"),
    ("OK\t1\t0\t1\t0\nR\t0\t1\t9999999999\n", "below 0 or past 32 bits"),
    ("OK\t1\t0\t1\t0\nR\t0\t1\t2", "each ended by a newline"),
    ("x" * 70_000, "over 65,536 bytes"),
]


@pytest.mark.parametrize("text,message", BAD_LOGS)
def test_what_is_no_log(text, message, run, folder):
    (folder / "bad.log").write_text(text)
    for command, more in (("replay", []), ("grow-back", []), ("change", []), ("shift", [0]), ("volume", [])):
        told = run(command, folder / "o.sheet", folder / "bad.log", *more)
        assert told.exit == 3 and told.out == "" and told.err.startswith("flaxglimmer: bad.log: ") and message in told.err and told.err.count("\n") == 1


USAGE = [
    (["thin", "shaft.off", "--limit", "none"], "does not tell its unit"),
    (["thin", "shaft.off", "--unit", "m"], "Missing option '--limit'"),
    (["thin", "shaft.off", "--unit", "m", "--limit", "0.8"], "is no limit: a figure and its unit"),
    (["thin", "shaft.off", "--unit", "m", "--limit", "800 mm"], "is no limit"),
    (["thin", "shaft.off", "--unit", "m", "--limit", "nan m"], "is no limit"),
    (["thin", "shaft.off", "--unit", "yd", "--limit", "none"], "'yd' is no unit: these are mm, cm, m, ft (survey feet of 1200/3937 m), ift (international feet of 30.48 cm)"),
    (["thin", "shaft.off", "--unit", "m", "--limit", "none", "--mend"], "No such option"),
    (["thin", "shaft.off", "--unit", "m", "--limit", "none", "--length", "30"], "is no length"),
    (["thin", "shaft.off", "--unit", "m", "--limit", "none", "--mean-at-least", "3 m"], "needs --length"),
    (["thin", "shaft.off", "--unit", "m", "--limit", "none", "--length", "30 m", "--mean-at-least", "3"], "is no length"),
    (["thin", "shaft.off", "--unit", "m", "--limit", "none", "--origin", "here"], "is no origin"),
    (["thin", "shaft.off", "--unit", "m", "--limit", "none", "--report", "shaft.off"], "never written over"),
    (["thin", "shaft.off", "--unit", "m", "--limit", "none", "--report", "x", "--log", "./x"], "named twice"),
    (["thin", "shaft.off", "--unit", "m", "--limit", "none", "--report", "none/r.html"], "cannot be written: No such file"),
    (["thin", "shaft.off", "--unit", "m", "--limit", "none", "--answer", "x", "--log", "./x"], "named twice"),
    (["replay", "o.sheet", "o.log", "--log", "o.log"], "never written over"),
    (["replay", "o.sheet", "o.log", "--answer", "o.log"], "never written over"),
    (["check", "o.sheet", "--unit", "m"], "a sheet is in whole centimetres"),
    (["check", "o.sheet", "--turn"], "a sheet is in whole centimetres"),
    (["shift", "o.sheet", "o.log", "-1"], "-1"),
    (["limit", "fast"], "is no limit"),
    (["limit", "4.75 feet"], "'4.75 ft' in survey feet or, with a blank, '4.75 ift' in international feet"),
    (["limit", "4.75 FT"], "is no limit"),
    (["limit", "3ift"], "with a blank, '4.75 ift'"),
    (["thin", "shaft.off", "--unit", "m", "--limit", "none", "--length", "3ift"], "with a blank, '98.5 ift'"),
    (["check", "none.off", "--unit", ""], "'' is no unit"),
    (["melt", "shaft.off"], "No such command"),
]


@pytest.mark.parametrize("arguments,message", USAGE, ids=[" ".join(arguments) for arguments, _ in USAGE])
def test_wrong_usage_ends_with_2_and_writes_nothing(arguments, message, run, folder, monkeypatch):
    monkeypatch.chdir(folder)
    before = {path: path.read_bytes() for path in folder.iterdir()}
    told = run(*arguments)
    assert told.exit == 2 and told.out == "" and message in told.err and "Traceback" not in told.err
    assert {path: path.read_bytes() for path in folder.iterdir()} == before


def test_without_a_unit_the_size_is_shown_in_each(run, folder):
    told = run("check", folder / "shaft.off")
    size = np.ptp(POINTS, axis=0)
    for unit, metres, which in (("mm ", 0.001, ""), ("cm ", 0.01, ""), ("m  ", 1, ""), ("ft ", 1200 / 3937, f" {FEET['ft']}"), ("ift", 0.3048, f" {FEET['ift']}")):
        assert f"--unit {unit}: " + " x ".join(f"{side * metres:,.4g}" for side in size) + f" m{which}\n" in told.err


@pytest.mark.parametrize("unit,other", [("ft", "ift"), ("ift", "ft")])
def test_where_feet_were_typed_it_is_told_which(unit, other, run, folder):
    report = folder / "r.html"
    asked = ["--unit", unit, "--limit", f"3.5 {unit}", "--length", f"98.5 {unit}", "--mean-at-least", f"3 {unit}"]
    told = run("thin", folder / "shaft.off", *asked, "--report", report)
    figures, page = " ".join(told.out.split()), " ".join(unescape(report.read_text()).split())
    for words in (f"limit 3.5 {unit} {FEET[unit]} = 106 cm", f"over 98.5 {unit} {FEET[unit]}: ", f"at least 3 {unit} {FEET[unit]} asked"):
        assert words in figures and words in page
    assert f"the file is read in {FEET[unit][1:-1]}" in told.err and f"the file is in {FEET[unit][1:-1]}" in page
    assert FEET[other][1:-1] not in told.out + told.err + page
    assert run("thin", folder / "shaft.off", *asked, "--json").told["under"] == f"limit 3.5 {unit} {FEET[unit]} = 106 cm"
    off(folder / "open.off", POINTS, ROWS[1:])
    told = run("check", folder / "open.off", "--unit", unit)
    assert told.exit == 1 and f"the file is read in {FEET[unit][1:-1]}\n" in told.err
    told = run("limit", f"4.75 {unit}")
    assert told.exit == 0 and told.out == "144 cm\n" and told.err == f"  4.75 {unit} {FEET[unit]}\n"
    assert run("limit", f" 4.75\n {unit} ").err == told.err


def test_no_foot_is_told_where_none_was_typed(run, folder):
    told = run("thin", folder / "shaft.off", "--unit", "m", "--limit", "1 m", "--length", "30 m", "--report", folder / "r.html")
    assert told.exit == 0 and "feet" not in told.out + told.err + (folder / "r.html").read_text() and run("limit", "1 m").err == ""


@pytest.mark.parametrize("off_it,ended,verdict", [(-10, 0, "met"), (0, 4, "undecided"), (10, 4, "not met")])
def test_the_mean_diameter_decides_the_exit(off_it, ended, verdict, run, folder):
    # half a cubic metre of some 220 over 30 m is 4 mm either way
    figure = fg.read(folder / "shaft.off", "m").volume()
    least = f"{math.sqrt(4 * figure / (math.pi * 30)) * 1000 + off_it:.1f} mm"
    told = run("thin", folder / "shaft.off", "--unit", "m", "--limit", "none", "--length", "30 m", "--mean-at-least", least)
    line = next(line for line in told.out.splitlines() if line.startswith("mean diameter of the skin over 30 m: "))
    assert told.exit == ended and f"at least {least} asked: {verdict} (this is the mean, and says nothing of the narrowest place)" in line
    for what in ("the narrowest place", "the scanner's error", "flat rows inside a round wall", "rounding to whole centimetres"):
        assert any(line.startswith(f"    {what}") for line in told.out.splitlines())


def test_a_mean_diameter_is_told_without_a_least_one(run, folder):
    told = run("thin", folder / "shaft.off", "--unit", "m", "--limit", "1 m", "--length", "30 m")
    assert told.exit == 0 and "mean diameter of the skin over 30 m" in told.out and "asked" not in told.out
    assert "diameter" not in run("thin", folder / "shaft.off", "--unit", "m", "--limit", "1 m").out


def test_inward_rows_are_told_and_meet_nothing(run, folder):
    off(folder / "in.off", POINTS, ROWS[:, ::-1])
    told = run("thin", folder / "in.off", "--unit", "m", "--limit", "1 m", "--length", "30 m", "--mean-at-least", "1 mm")
    assert told.exit == 4 and "undecided" in told.out and "turn inward; --turn" in told.err
    assert run("thin", folder / "in.off", "--unit", "m", "--limit", "1 m", "--length", "30 m", "--mean-at-least", "1 mm", "--turn").exit == 0


def test_a_refusal_tells_what_was_done_to_the_file_before(run, folder):
    stl(folder / "far.stl", POINTS + [0, 7123457, 0], ROWS)
    told = run("check", folder / "far.stl", "--unit", "m", "--json").told
    assert told["status"] == 4 and any("equal points were joined" in note for note in told["notes"]) and told["notes"][0].startswith("warning: ")
    assert "warning: the file's numbers have 32 bits" in run("check", folder / "far.stl", "--unit", "m").err


def test_that_there_is_work_is_said_after_a_while(run, folder, monkeypatch):
    check, volume = ["check", folder / "o.sheet"], calls.volume
    monkeypatch.setattr(cli, "PATIENCE", 0.05)
    monkeypatch.setattr(calls, "volume", lambda *lists: (time.sleep(0.4), volume(*lists))[1])
    assert run(*check).err == "working\n" and run(*check, "--quiet").err == ""
    monkeypatch.undo()
    assert run(*check).err == ""


def test_what_is_read_is_not_written_over_by_another_name(run, folder):
    (folder / "link.off").hardlink_to(folder / "shaft.off")
    before = (folder / "shaft.off").read_bytes()
    assert run("thin", folder / "shaft.off", "--unit", "m", "--limit", "none", "--sheet", folder / "link.off").exit == 2
    assert (folder / "shaft.off").read_bytes() == before


def test_an_origin_may_lie_below_zero(run, folder):
    off(folder / "grid.off", POINTS - [412345, 0, 0], ROWS)
    assert run("check", folder / "grid.off", "--unit", "m", "--origin", "-412345,0,0").exit == 0


def test_quiet_leaves_out_notes_and_hints(run, folder):
    told = run("check", folder / "shaft.off", "--unit", "m", "--quiet")
    assert told.err == "" and told.out.startswith("sound: ")
    told = run(*scan(folder, ROWS[1:]), "--quiet")
    assert len(told.err.splitlines()) == 2 and told.exit == 1


def test_millimetres_as_metres_and_mine_grids(run, folder):
    stl(folder / "mm.stl", POINTS * 1000, ROWS)
    told = run("check", folder / "mm.stl", "--unit", "m")
    assert told.exit == 1 and told.err.startswith("refused, 4") and "is the unit right?" in told.err
    off(folder / "grid.off", POINTS + [412345, 7123457, -300], ROWS)
    assert "--origin auto" in run("check", folder / "grid.off", "--unit", "m").err
    assert run("check", folder / "grid.off", "--unit", "m", "--origin", "auto").exit == 0


def test_a_million_rows_are_refused_in_a_second(run, tmp_path):
    count = 1_000_000
    (tmp_path / "huge.stl").write_bytes(b"scan".ljust(80) + count.to_bytes(4, "little"))
    with open(tmp_path / "huge.stl", "ab") as out:
        out.truncate(84 + 50 * count)
    (tmp_path / "huge.obj").write_bytes(b"v 0 0 0\n" * 500_000 + b"f 1 2 3\n" * count)
    (tmp_path / "solid.stl").write_bytes(b"solid x\n" + b"facet\nvertex 0 0 0\nvertex 0 0 0\nvertex 0 0 0\nendfacet\n" * count)
    for name in ("huge.stl", "huge.obj", "solid.stl"):
        start = time.process_time()
        told = run("check", tmp_path / name, "--unit", "m")
        assert time.process_time() - start < 1
        assert told.exit == 1 and told.err.startswith("refused, 2: ") and f"1,000,000 rows in {name}" in told.err and "Quadric Edge Collapse Decimation" in told.err


def test_what_must_not_happen_ends_with_5(run, folder, monkeypatch):
    monkeypatch.setattr(calls, "grow_back", lambda rows, count, log: rows)
    told = run("thin", folder / "shaft.off", "--unit", "m", "--limit", "1 m")
    assert told.exit == 5 and told.out == "" and "our fault: the log does not lead" in told.err
    monkeypatch.undo()
    monkeypatch.setattr(faults.Finder, "holes", lambda self: iter(()))
    told = run(*scan(folder, ROWS[1:]))
    assert told.exit == 5 and "refuses by 8, and no place of it is found" in told.err
    monkeypatch.setattr(calls, "volume", lambda *_: 1 // 0)
    told = run("volume", folder / "o.sheet", "--json")
    assert told.exit == 5 and json.loads(told.out) == {"exit": 5, "status": None, "error": "our fault: ZeroDivisionError: integer division or modulo by zero", "line": None, "notes": []}


def test_without_a_library_the_exit_is_5(script, folder):
    told = script("flaxglimmer", "limit", "1 m", FLAXGLIMMER_LIBRARY=str(folder / "none.so"))
    assert told.returncode == 5 and told.stdout == "" and "our fault: the library is not there" in told.stderr and "Traceback" not in told.stderr


def test_hostile_names_do_nothing_to_a_terminal(run, folder):
    name = "\x1b[31m<img onerror=alert(1)>\n.off"
    off(folder / name, POINTS, ROWS)
    told = run("thin", folder / name, "--unit", "m", "--limit", "1 m", "--report", folder / "r.html")
    assert told.exit == 0 and "\x1b" not in told.out + told.err
    page = (folder / "r.html").read_text()
    assert "<img" not in page and "&lt;img onerror=alert(1)&gt;" in page and "\x1b" not in page


def test_a_log_may_not_be_a_scan_nor_a_scan_a_log(run, folder):
    assert run("replay", folder / "o.sheet", folder / "shaft.off").exit == 3
    assert run("check", folder / "o.log").exit == 3

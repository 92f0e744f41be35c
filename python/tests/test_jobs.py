"""Jobs: the calls against change request 5 in Python's own words, what the command says of a job and of the line that makes it refused, and jobs made
from skins, whose sums are worked out here from their coordinates."""
import json
import random
import re
from fractions import Fraction

import numpy as np
import pytest
from conftest import ROOT
from hypothesis import given
from hypothesis import strategies as st
from scans import off, shaft, stl
from tables import O_CORNERS, O_ROWS, T_CORNERS, T_ROWS, damaged, exact_sum
from texts import damaged_by, mended

import flaxglimmer as fg
from flaxglimmer import calls, faults, files, header, jobs, lent

MOST = 768_000_000_000_000_000  # as the request has it
FIRST = re.compile(b"JOB\t(0|[1-9][0-9]{0,5})")
ENTRY = re.compile(b"J\t([A-Z])\t(-|0|[1-9][0-9]{0,5})\t(0|-?[1-9][0-9]{0,17})")
SHEETS = ROOT / "sheets"


# The request in Python: first line JOB and the count; then per entry J, a capital letter, an entry's number or -, and the sum


def job(*entries):
    """A job sheet of (letter, name, sum)."""
    return f"JOB\t{len(entries)}\n".encode() + b"".join(b"J\t%b\t%b\t%d\n" % (letter.encode(), str(name).encode(), total) for letter, name, total in entries)


def parsed(sheet):
    """The entries of a sheet in its form, or None."""
    *lines, tail = sheet.split(b"\n")
    found = [ENTRY.fullmatch(line) for line in lines[1:]]
    if len(sheet) > 65_536 or tail or not lines or not FIRST.fullmatch(lines[0]) or not all(found) or len(found) != int(lines[0][4:]):
        return None
    return [(one[1].decode(), None if one[2] == b"-" else int(one[2]), int(one[3])) for one in found]


def net_of(entries, at=0):
    """The exact net: its own sum less the nets of those directly in it."""
    return entries[at][2] - sum(net_of(entries, other) for other, (_, within, _) in enumerate(entries) if other and within == at)


def rounded(total):
    """To the nearest whole cubic metre, a half away from zero."""
    exact = Fraction(total, 6_000_000)
    whole = int(abs(exact) + Fraction(1, 2))
    return whole if exact >= 0 else -whole


def depth_of(entries, at):
    return 1 if at == 0 else 1 + depth_of(entries, entries[at][1])


def bad_entries(sheet):
    """The refusal of a sheet in its form, 0 where there is none, and the entries that have it."""
    entries = parsed(sheet)
    if not 1 <= len(entries) <= 32:
        return 20, []
    for number, has in (
        (21, lambda at, kind, within, total: kind not in "VS"),
        (22, lambda at, kind, within, total: (within is None) != (at == 0) or at > 0 and within >= at),
        (23, lambda at, kind, within, total: at > 0 and kind == entries[within][0]),
        (24, lambda at, kind, within, total: depth_of(entries, at) > 8),
        (25, lambda at, kind, within, total: not -MOST <= total <= MOST),
    ):
        found = [at for at, entry in enumerate(entries) if has(at, *entry)]
        if found:
            return number, found
    return 0, []


def expected(sheet):
    """Status and figure."""
    if parsed(sheet) is None:
        return 12, None
    number, _ = bad_entries(sheet)
    return number, None if number else rounded(net_of(parsed(sheet)))


def answer(call, *arguments):
    try:
        return 0, call(*arguments)
    except fg.Refused as refused:
        return refused.number, None


def chain(depth, total=0):
    """Entries each in the one before."""
    return [("VS"[at % 2], at - 1 if at else "-", total) for at in range(depth)]


STATION = job(("V", "-", 600_000_000), ("S", 0, 60_000_000), ("V", 1, 12_000_000), ("S", 0, 6_000_000))


# The calls


@pytest.mark.parametrize("sheet,figure", [
    (STATION, 100 - (10 - 2) - 1),
    (job(("V", "-", 2_999_999)), 0), (job(("V", "-", 3_000_000)), 1), (job(("S", "-", -2_999_999)), 0), (job(("S", "-", -3_000_000)), -1),
    (job(("V", "-", 10_000_000), ("S", 0, 1_000_000)), 2), (job(("V", "-", 10_000_000), ("S", 0, 1_000_001)), 1),
    (job(("V", "-", 1_000_000), ("S", 0, 10_000_000)), -2), (job(("V", "-", 1_000_001), ("S", 0, 10_000_000)), -1),
    (job(("V", "-", MOST), *[("S", 0, -MOST)] * 31), 32 * 128 * 10**9), (job(("V", "-", -MOST), *[("S", 0, MOST)] * 31), -32 * 128 * 10**9),
    (job(*chain(8, 6_000_000)), 0), (job(*chain(7, 6_000_000)), 1),
])  # fmt: skip
def test_a_net_is_rounded_once(sheet, figure):
    assert fg.job(sheet) == figure == expected(sheet)[1]


LETTERS = st.sampled_from("VVVVSSSSSP")
TOTALS = st.one_of(st.integers(-2 * 10**7, 2 * 10**7), st.sampled_from([0, 3_000_000, -3_000_000, MOST, -MOST, MOST + 1, -MOST - 1, 10**18 - 1]), st.integers(-MOST, MOST))


@st.composite
def job_sheets(draw):
    """Jobs, most of which stand, and some with a fault or two."""
    entries, count = [], draw(st.sampled_from([0, 1, 1, 2, 3, 5, 8, 12, 31, 32, 33]))
    for at in range(count):
        within = draw(st.integers(max(0, at - draw(st.sampled_from([1, 1, 3, 40]))), at - 1)) if at else "-"
        kind = "SV"["VS".index(entries[within][0])] if at and entries[within][0] in "VS" else draw(LETTERS)
        entries.append((kind, within, draw(TOTALS)))
    for _ in range(draw(st.sampled_from([0, 0, 1, 2])) if entries else 0):
        at, field = draw(st.integers(0, count - 1)), draw(st.integers(0, 2))
        put = draw((LETTERS, st.sampled_from(["-", 0, 1, at, at + 1, 31, 999_999]), TOTALS)[field])
        entries[at] = (*entries[at][:field], put, *entries[at][field + 1 :])
    return job(*entries)


DAMAGE = st.tuples(st.integers(0, 4), st.integers(0, 2**20), st.sampled_from([b"\t", b"\n", b"\r", b" ", b"0", b"7", b"-", b"J", b"v", b"VS", b"\0", b"\xff", b"JOB\t", b"J\tV\t0\t1\n"]))


@given(job_sheets(), st.lists(DAMAGE, max_size=2))
def test_every_sheet_is_answered_as_the_request_has_it(sheet, damage):
    for data in (sheet, damaged_by(sheet, damage)):
        assert answer(calls.job, data) == expected(data)


def test_the_drawn_sheets_are_of_every_kind():
    met = set()

    @given(job_sheets())
    def draw(sheet):
        met.add(expected(sheet)[0])

    draw()
    assert met >= {0, 20, 21, 22, 23, 24, 25}


@pytest.mark.parametrize("seed", range(60))
def test_exact_sums_are_those_of_the_coordinates_or_refused_as_volumes_are(seed):
    rows, corners = damaged(seed)
    status, figure = answer(calls.volume, rows, corners)
    assert answer(calls.exact_sum, rows, corners) == (status, None if status else exact_sum(rows, corners))
    if status == 0:
        assert figure == rounded(exact_sum(rows, corners)) == fg.job(job(("V", "-", exact_sum(rows, corners))))


def test_exact_sums_are_01s_and_reach_as_far_as_coordinates_do():
    assert fg.exact_sum(O_ROWS, O_CORNERS) == 8_000_000 and fg.exact_sum(T_ROWS, T_CORNERS) == -27_000_000
    rows, corners = box((-50_000,) * 3, (50_000,) * 3)
    assert fg.exact_sum(rows, corners) == 6 * 100_000**3 and fg.exact_sum(rows[:, ::-1], corners) == -6 * 100_000**3
    assert header.MOST_SUM == MOST  # 1,024 rows of six products at the coordinate limit


def test_what_is_lent_is_looked_at_first():
    sheet = np.frombuffer(STATION, np.uint8)
    assert lent.job(sheet) == 91 and lent.exact_sum(O_ROWS, O_CORNERS) == 8_000_000
    for call, error in (
        (lambda: lent.job(STATION), TypeError),
        (lambda: lent.job(sheet.astype(np.int8)), TypeError),
        (lambda: lent.job(sheet[::2]), TypeError),
        (lambda: lent.exact_sum(O_ROWS.astype(np.int64), O_CORNERS), TypeError),
        (lambda: lent.exact_sum(O_ROWS, O_CORNERS.tolist()), TypeError),
        (lambda: calls.exact_sum(O_ROWS, O_CORNERS * 1.5), TypeError),
        (lambda: calls.exact_sum([[-1, 1, 2]], O_CORNERS), OverflowError),
        (lambda: calls.job("JOB"), TypeError),
    ):
        with pytest.raises(error):
            call()


# The command on a job sheet


def put(folder, data, name="a.job"):
    (folder / name).write_bytes(data)
    return folder / name


def figures(told):
    """The figures of each entry in the tree: number, volume and net; with the blanks before it."""
    lines = [line for line in told.out.splitlines() if re.match(" *entry ", line)]
    found = [re.fullmatch(r"( *)entry (\d+), (void|solid)(?: in (\d+))? +(-?[\d,]+) +(-?[\d,]+)(?:  .*)?", line) for line in lines]
    return [(len(one[1]), int(one[2]), one[3], one[4] and int(one[4]), *(int(one[at].replace(",", "")) for at in (5, 6))) for one in found]


def drawn(entries, at=0):
    """What the tree has to show: each entry followed by those in it, all rounded once from exact nets."""
    kind, within, total = entries[at]
    yield 2 * (depth_of(entries, at) - 1), at, {"V": "void", "S": "solid"}[kind], within, rounded(total), rounded(net_of(entries, at))
    for other in range(1, len(entries)):
        if entries[other][1] == at:
            yield from drawn(entries, other)


def test_job_tells_the_net_and_draws_the_tree(run, tmp_path):
    told = run("job", put(tmp_path, STATION))
    assert told.exit == 0 and told.err == ""
    assert told.out.splitlines()[0] == "a.job: net 91 cubic metres, rounded once" and "they need not add up" in told.out.splitlines()[-1]
    assert figures(told) == [(0, 0, "void", None, 100, 91), (2, 1, "solid", 0, 10, 8), (4, 2, "void", 1, 2, 2), (2, 3, "solid", 0, 1, 1)]


def bush(seed):
    """A job that stands, of many entries at many depths."""
    chance = random.Random(seed)
    entries, depths = [("V", "-", chance.randrange(-MOST, MOST))], [1]
    for at in range(1, 32):
        within = chance.choice([other for other, depth in enumerate(depths) if depth < 8])
        entries.append(("SV"["VS".index(entries[within][0])], within, chance.choice([chance.randrange(-MOST, MOST), chance.randrange(10**8), 3_000_000, 0])))
        depths.append(depths[within] + 1)
    return job(*entries)


DEEP = job(*chain(8, 3_000_000))
WIDE = job(("S", "-", -MOST), *[("V", 0, MOST)] * 31)


@pytest.mark.parametrize("sheet", [DEEP, WIDE, *map(bush, range(8))])
def test_deep_and_wide_trees(sheet, run, tmp_path):
    path, entries = put(tmp_path, sheet), parsed(sheet)
    told = run("job", path)
    assert told.exit == 0 and figures(told) == list(drawn(entries))
    assert told.out.startswith(f"a.job: net {rounded(net_of(entries)):,} cubic metres")
    lines = told.out.splitlines()[1:-1]
    assert len(lines) == 1 + len(entries) and len({len(line) for line in lines}) == 1  # the columns stand under each other
    below = [at for at, (_, _, total) in enumerate(entries) if total < 0]
    assert [int(at) for at in re.findall(r"^  entry (\d+): its sum is below zero and taken as it stands", told.err, re.M)] == below
    assert run("job", path, "--quiet").err == "" and run("job", path, "--quiet").out == told.out
    names = {"V": "void", "S": "solid"}
    assert run("job", path, "--json").told == {
        "exit": 0, "status": 0, "file": "a.job", "net": rounded(net_of(entries)), "notes": [line[2:] for line in told.err.splitlines()],
        "entries": [{"entry": at, "kind": names[kind], "in": within, "depth": depth_of(entries, at), "sum": str(total), "volume": rounded(total), "net": rounded(net_of(entries, at)), "file": None}
                    for at, (kind, within, total) in enumerate(entries)],
    }  # fmt: skip


def test_depth_8_stands_and_9_does_not(run, tmp_path):
    told = run("job", put(tmp_path, DEEP))
    assert [depth for depth, *_ in figures(told)] == list(range(0, 16, 2)) and [net for *_, net in figures(told)] == [0, 1, 0, 1, 0, 1, 0, 1]
    assert run("job", put(tmp_path, job(*chain(9)))).err.startswith("refused, 24: ")


LINES = STATION.splitlines(keepends=True)
REFUSALS = [  # the lines of STATION begin at bytes 0, 6, 22, 37 and 52, and it ends at 66
    (job(), 20, 1, 0, "no entry", "'JOB\\t0'"),
    (job(("V", "-", 1), *[("S", 0, 1)] * 32), 20, 1, 0, "33 entries", "'JOB\\t33'"),
    (STATION.replace(b"J\tV\t1", b"J\tP\t1"), 21, 4, 37, "entry 2: P is neither V nor S", "'J\\tP\\t1\\t12000000'"),
    (STATION.replace(b"J\tV\t-", b"J\tS\t-").replace(b"J\tV\t1", b"J\tA\t9"), 21, 4, 37, "entry 2: A is neither V nor S", "'J\\tA\\t9\\t12000000'"),
    (STATION.replace(b"J\tV\t-", b"J\tV\t0"), 22, 2, 6, "entry 0: the first entry stands in none, and names 0", "'J\\tV\\t0\\t600000000'"),
    (STATION.replace(b"J\tS\t0\t6\x30", b"J\tS\t-\t6\x30", 1), 22, 3, 22, "entry 1: it names none, which only the first does", "'J\\tS\\t-\\t60000000'"),
    (STATION.replace(b"J\tS\t0\t60000000", b"J\tS\t1\t60000000"), 22, 3, 22, "entry 1: it names 1, and only entry 0 is before it", "'J\\tS\\t1\\t60000000'"),
    (STATION.replace(b"J\tV\t1", b"J\tV\t3"), 22, 4, 37, "entry 2: it names 3, and the entries before it are 0 to 1", "'J\\tV\\t3\\t12000000'"),
    (STATION.replace(b"J\tV\t1", b"J\tV\t0"), 23, 4, 37, "entry 2: a void in entry 0, which is a void too", "'J\\tV\\t0\\t12000000'"),
    (STATION.replace(b"J\tV\t1", b"J\tS\t1"), 23, 4, 37, "entry 2: a solid in entry 1, which is a solid too", "'J\\tS\\t1\\t12000000'"),
    (job(*chain(9)), 24, 10, 6 + 8 * 8, "entry 8: it stands 9 deep: in 7, in 6, in 5, in 4, in 3, in 2, in 1, in 0", "'J\\tV\\t7\\t0'"),
    (STATION.replace(b"12000000", b"768000000000000001"), 25, 4, 37, "entry 2: the sum 768,000,000,000,000,001", "'J\\tV\\t1\\t768000000000000001'"),
    (STATION.replace(b"\t6000000\n", b"\t-999999999999999999\n"), 25, 5, 52, "entry 3: the sum -999,999,999,999,999,999", "'J\\tS\\t0\\t-999999999999999999'"),
    (b"", 12, 1, 0, "the file is empty", ""),
    (b"\n" + STATION, 12, 1, 0, "an empty line", ""),
    (b"JOB\t4", 12, 1, 0, "the last line has no newline", "'JOB\\t4'"),
    (STATION.replace(b"JOB\t4", b"JOB\t04"), 12, 1, 0, "not JOB and the count of entries, one to six digits", "'JOB\\t04'"),
    (STATION.replace(b"JOB\t4", b"JOB\t1000000"), 12, 1, 0, "not JOB and the count of entries", "'JOB\\t1000000'"),
    (STATION.replace(b"JOB\t4", b"JOB\t4\t4"), 12, 1, 0, "not JOB and the count of entries", "'JOB\\t4\\t4'"),
    (STATION.replace(b"JOB\t4", b"JOB\t5"), 12, 1, 0, "it tells 5 entries, and 4 follow", "'JOB\\t5'"),
    (STATION + LINES[2], 12, 1, 0, "it tells 4 entries, and 5 follow", "'JOB\\t4'"),
    (STATION.replace(b"J\tV\t1", b"J\tv\t1"), 12, 4, 37, "the kind is 'v', and not one capital letter", "'J\\tv\\t1\\t12000000'"),
    (STATION.replace(b"J\tV\t1", b"J\tVS\t1"), 12, 4, 37, "the kind is 'VS', and not one capital letter", "'J\\tVS\\t1\\t12000000'"),
    (STATION.replace(b"J\tV\t1", b"J\t\xc4\t1"), 12, 4, 37, "the kind is", "12000000'"),
    (STATION.replace(b"J\tV\t1", b"J\tV\t01"), 12, 4, 37, "the entry that it stands in is '01', and not - or a number", "'J\\tV\\t01\\t12000000'"),
    (STATION.replace(b"J\tV\t1", b"J\tV\t-1"), 12, 4, 37, "the entry that it stands in is '-1'", "'J\\tV\\t-1\\t12000000'"),
    (STATION.replace(b"J\tV\t1", b"J\tV\t1000000"), 12, 4, 37, "the entry that it stands in is '1000000'", "'J\\tV\\t1000000\\t12000000'"),
    (STATION.replace(b"12000000", b"-0"), 12, 4, 37, "the sum is '-0', and not one to 18 digits", "'J\\tV\\t1\\t-0'"),
    (STATION.replace(b"12000000", b"1" * 19), 12, 4, 37, "the sum is '1111111111111111111'", "'J\\tV\\t1\\t1111111111111111111'"),
    (STATION.replace(b"12000000", b"12.5"), 12, 4, 37, "the sum is '12.5'", "'J\\tV\\t1\\t12.5'"),
    (STATION.replace(b"12000000", b""), 12, 4, 37, "the sum is ''", "'J\\tV\\t1\\t'"),
    (STATION.replace(b"J\tV\t1\t12000000", b"J\tV\t1"), 12, 4, 37, "2 fields behind J and not 3", "'J\\tV\\t1'"),
    (STATION.replace(b"J\tV\t1\t12000000", b"J\tV\t1\t1\t1"), 12, 4, 37, "4 fields behind J and not 3", "'J\\tV\\t1\\t1\\t1'"),
    (STATION.replace(b"J\tV\t1\t12000000", b"J"), 12, 4, 37, "0 fields behind J and not 3", "'J'"),
    (STATION.replace(b"J\tV\t1\t12000000", b"K\tV\t1\t1"), 12, 4, 37, "not J, a kind, the entry that it stands in and a sum", "'K\\tV\\t1\\t1'"),
    (STATION + b"\x1b[31m\n", 12, 6, 66, "not J, a kind", "'\\x1b[31m'"),
    (STATION[:60], 12, 5, 52, "the last line has no newline", "'J\\tS\\t0\\t60'"),
    (STATION[:57], 12, 5, 52, "2 fields behind J and not 3, and the file ends in it", "'J\\tS\\t0'"),
    (STATION + STATION, 12, 6, 66, "not J, a kind", "'JOB\\t4'"),
    ((SHEETS / "octahedron.sheet").read_bytes(), 12, 1, 0, "it is no job sheet but a sheet, which has a skin and no sums", ""),
    (b"LOG\t6\t8\n", 12, 1, 0, "it is no job sheet but a log sheet", ""),
    (STATION.replace(b"JOB\t4", b"JOB\t0"), 12, 1, 0, "it tells 0 entries, and 4 follow", "'JOB\\t0'"),
]  # fmt: skip


@pytest.mark.parametrize("sheet,number,line,byte,what,there", REFUSALS, ids=[f"{number}-{at}" for at, (_, number, *_) in enumerate(REFUSALS)])
def test_each_refusal_names_its_line_and_what_stands_there(sheet, number, line, byte, what, there, run, tmp_path):
    assert expected(sheet)[0] == number
    path = put(tmp_path, sheet)
    told = run("job", path)
    lines = told.err.splitlines()
    assert told.exit == 1 and told.out == "" and len(lines) == 3 and lines[0].startswith(f"refused, {number}: ")
    assert lines[1].startswith(f"  a.job, line {line}, byte {byte}: {what}") and lines[1].endswith(there) and lines[2].startswith("  hint: ")
    assert number == 12 or lines[2] == f"  hint: {faults.HINTS[number]}"
    assert "\x1b" not in told.err and run("job", path, "--quiet").err.splitlines() == lines[:2]
    told = run("job", path, "--json").told
    (fault,) = told["faults"]
    assert (told["exit"], told["status"], fault["line"], fault["byte"], f"  {fault['text']}") == (1, number, line, byte, lines[1])


def test_every_refusal_of_a_job_is_among_them():
    assert {number for _, number, *_ in REFUSALS} == {12, *range(20, 26)} <= set(faults.HINTS)


@pytest.mark.parametrize("sheet", [job(("S", "-", -MOST)), DEEP, WIDE, bush(0)])
def test_no_finder_finds_anything_in_a_job_that_stands(sheet):
    assert expected(sheet)[0] == 0
    for number in (12, *range(20, 26)):
        with pytest.raises(fg.OurFault):
            jobs.wrong(number, jobs.entries_of(sheet))


def test_every_entry_that_makes_it_refused_is_told(run, tmp_path):
    """With what is asked later as well, which is not told."""
    sheet = job(("V", "-", MOST + 1), ("V", 0, 0), ("S", 0, MOST + 2), ("S", 2, 0), ("V", 2, 0), ("V", 4, 0))
    told = run("job", put(tmp_path, sheet), "--json").told
    assert told["status"] == 23 and [fault["line"] for fault in told["faults"]] == [3, 5, 7]
    told = run("job", put(tmp_path, job(*[("V", "-", 0)] * 32)))
    assert told.err.count("it names none") == 10 and "  and 21 more\n" in told.err


def first_bad(sheet):
    """The first line that is not in its form or has no newline, else the first, whose count is another."""
    *lines, tail = sheet.split(b"\n")
    bad = [at for at, line in enumerate(lines, 1) if not (ENTRY if at > 1 else FIRST).fullmatch(line)]
    return (bad + [len(lines) + 1 if tail or not lines else 1])[0]


@given(job_sheets(), st.lists(DAMAGE, max_size=2))
def test_the_lines_told_are_those_that_have_the_refusal(sheet, damage):
    for data in (sheet, damaged_by(sheet, damage)):
        number, _ = expected(data)
        if not number:
            continue
        with pytest.raises(fg.Refused) as raised:
            jobs.read(data, "a.job")
        found, lines = raised.value.faults, data.split(b"\n")
        assert raised.value.number == number and "\n" not in "".join(fault.text for fault in found)
        for fault in found:
            assert fault.byte == sum(len(line) + 1 for line in lines[: fault.line - 1]) and fault.text.startswith(f"a.job, line {fault.line}, byte {fault.byte}: ")
        if number == 12:
            (fault,) = found
            assert fault.line == first_bad(data)
        elif number == 20:
            assert [fault.line for fault in found] == [1]
        else:
            assert [fault.line - 2 for fault in found] == bad_entries(data)[1]


@pytest.mark.parametrize("data,line,words", [
    (STATION.replace(b"\n", b"\r\n"), 1, "the line ends in a carriage return"),
    (LINES[0] + LINES[1].replace(b"\n", b" \n") + b"".join(LINES[2:]), 2, "the line ends in blanks"),
    (STATION.replace(b"\t", b"    "), 1, "the line has blanks where tabs should be"),
    (b"".join(b"> " + line for line in LINES), 1, "the line has > or blanks in front"),
    (b"\xef\xbb\xbf" + STATION, 1, "the line has a byte order mark in front"),
    (STATION.decode().encode("utf-16"), 1, "the file has 16 bits a letter"),
    (STATION + b"\n", 6, "an empty line"),
    (STATION[:-1], 5, "the last line has no newline"),
])  # fmt: skip
def test_what_mail_and_editors_do_is_told_and_how_it_is_undone(data, line, words, run, tmp_path):
    put(tmp_path, data, "job of shaft 3.job")
    told = run("job", tmp_path / "job of shaft 3.job")
    lines = told.err.splitlines()
    assert told.exit == 1 and re.match(rf"  job of shaft 3\.job, line {line}, byte \d+: {re.escape(words)}", lines[1])
    assert mended(lines[2], tmp_path) == STATION


@given(st.binary(max_size=300))
def test_any_bytes_end_in_a_line_and_no_traceback(data):
    with pytest.raises(fg.Refused) as raised:
        jobs.read(data, "x")
    assert raised.value.number == 12 and len(raised.value.faults) == 1 and raised.value.faults[0].text.isprintable() and raised.value.hint.isprintable()


def test_hostile_files(run, tmp_path, monkeypatch):
    long = b"JOB\t99999\n" + b"J\tV\t0\t0\n" * 99_999
    told = run("job", put(tmp_path, long))
    assert told.exit == 1 and told.err.startswith("refused, 12: ") and "  a.job has over 65,536 bytes\n" in told.err
    full = job(*[("P", 99, 0)] * 7280)
    assert len(full) == 65_529 and expected(full)[0] == 20
    told = run("job", put(tmp_path, full))
    assert told.exit == 1 and told.err.startswith("refused, 20: ") and "a.job, line 1, byte 0: 7,280 entries: 'JOB\\t7280'" in told.err
    for data in (bytes(range(256)) * 200, b"\0" * 65_536, b"J" * 65_536, b"\t" * 65_536, b"JOB\t1\nJ\tV\t-\t" + b"9" * 60_000 + b"\n", b"JOB\t1\nJ" + b"\t" * 60_000):
        told = run("job", put(tmp_path, data))
        assert told.exit == 1 and told.err.startswith("refused, 12: ") and len(told.err.splitlines()) == 3 and len(told.err) < 1000
    for path, words in ((tmp_path / "none.job", "No such file"), (tmp_path, "Is a directory"), ("/dev/null", "no plain file")):
        told = run("job", path)
        assert told.exit == 3 and told.out == "" and told.err.count("\n") == 1 and words in told.err
    name = "\x1b[31mred\n.job"
    told = run("job", put(tmp_path, STATION, name))
    assert told.exit == 0 and "\x1b" not in told.out and told.out.startswith("?[31mred?.job: net 91 ")
    assert "\x1b" not in run("job", put(tmp_path, b"\x1b[2J", name)).err


def test_what_must_not_happen_ends_with_5(run, tmp_path, monkeypatch):
    path = put(tmp_path, STATION.replace(b"J\tV\t1", b"J\tP\t1"))
    monkeypatch.setattr(jobs, "_kinds", lambda entries: iter(()))
    told = run("job", path)
    assert told.exit == 5 and told.err == "flaxglimmer: our fault: the library refuses by 21, and no place of it is found\n"
    monkeypatch.setattr(calls, "job", lambda sheet: len(sheet))
    assert run("job", put(tmp_path, STATION.replace(b"J\tV\t1\t12000000", b"J V 1"))).exit == 5


# Jobs made from skins


def box(low, high):
    """Rows and corners of a box, turned outward."""
    corners = [(x, y, z) for z in (low[2], high[2]) for y in (low[1], high[1]) for x in (low[0], high[0])]
    rows = [(0, 2, 3), (0, 3, 1), (4, 5, 7), (4, 7, 6), (0, 1, 5), (0, 5, 4), (2, 6, 7), (2, 7, 3), (0, 4, 6), (0, 6, 2), (1, 3, 7), (1, 7, 5)]
    return np.array(rows, np.uint32), np.array(corners, np.int32)


def skin_sheet(folder, name, rows, corners):
    (folder / name).write_text(files.sheet_text(fg.Skin(np.asarray(rows), np.asarray(corners))))
    return folder / name


@pytest.fixture
def folder(tmp_path):
    """A station, a pillar in it and a room in that, as boxes; a shaft as OFF and as STL, in metres."""
    for name, low, high in (("station", (0, 0, 0), (1201, 803, 407)), ("pillar", (300, 200, 0), (613, 491, 407)), ("room", (350, 250, 50), (513, 391, 275))):
        skin_sheet(tmp_path, f"{name}.sheet", *box(low, high))
    points, rows = shaft(8, 6)
    off(tmp_path / "shaft.off", points, rows)
    stl(tmp_path / "shaft.stl", points, rows)
    return tmp_path


def sum_of(path, **options):
    skin = fg.read(path, options.pop("unit", None), **options)
    return exact_sum(skin.rows, skin.corners.astype(np.int64))


def test_a_job_is_made_from_skins_and_answered(run, folder):
    out = folder / "made.job"
    told = run("job", "--make", out, f"V:-:{folder}/station.sheet", f"S:0:{folder}/pillar.sheet", f"V:1:{folder}/room.sheet", f"S:0:{folder}/pillar.sheet")
    # the sides of the boxes, times six
    sums = [6 * 1201 * 803 * 407, 6 * 313 * 291 * 407, 6 * 163 * 141 * 225]
    assert [sum_of(folder / f"{name}.sheet") for name in ("station", "pillar", "room")] == sums
    assert told.exit == 0 and told.err == "" and out.read_bytes() == job(("V", "-", sums[0]), ("S", 0, sums[1]), ("V", 1, sums[2]), ("S", 0, sums[1]))
    net = rounded(sums[0] - (sums[1] - sums[2]) - sums[1])
    assert told.out.splitlines()[0] == f"made.job: net {net} cubic metres, rounded once"
    assert figures(told) == list(drawn(parsed(out.read_bytes())))
    assert [line.split()[-1] for line in told.out.splitlines()[2:-1]] == ["station.sheet", "pillar.sheet", "room.sheet", "pillar.sheet"]
    again = run("job", out)
    assert again.exit == 0 and figures(again) == figures(told) and again.out.splitlines()[0] == told.out.splitlines()[0]
    told = run("job", "--make", out, f"S:-:{folder}/station.sheet", "--json").told
    assert (told["net"], told["entries"]) == (rounded(sums[0]), [{"entry": 0, "kind": "solid", "in": None, "depth": 1, "sum": str(sums[0]), "volume": rounded(sums[0]), "net": rounded(sums[0]), "file": "station.sheet"}])


@pytest.mark.parametrize("seed", range(12))
def test_made_jobs_are_exact(seed, run, tmp_path):
    """Shafts nested at random; by ints from the coordinates that the library was given."""
    chance, arguments, entries = random.Random(seed), [], []
    for at in range(chance.randrange(2, 9)):
        points, rows = shaft(3 + at % 4, 2 + at % 3, seed=100 * seed + at)
        off(tmp_path / f"{at}.off", points, rows[:, ::-1] if chance.random() < 0.3 else rows)
        within = chance.choice([other for other in range(at) if depth_of(entries, other) < 8]) if at else None
        kind = "SV"["VS".index(entries[within][0])] if at else chance.choice("VS")
        entries.append((kind, within, sum_of(tmp_path / f"{at}.off", unit="m")))
        arguments.append(f"{kind}:{'-' if within is None else within}:{tmp_path / f'{at}.off'}")
    told = run("job", "--make", tmp_path / "made.job", *arguments, "--unit", "m")
    assert told.exit == 0 and parsed((tmp_path / "made.job").read_bytes()) == entries and figures(told) == list(drawn(entries))
    for at, (_, _, total) in enumerate(entries):
        assert (f"  entry {at}, {at}.off: its sum is below zero and taken as it stands" in told.err) == (total < 0)


def test_scans_are_read_with_their_options_and_sheets_as_they_stand(run, folder):
    out, scan, sheet = folder / "made.job", folder / "shaft.off", folder / "room.sheet"
    for options, read in (
        (["--unit", "m"], {"unit": "m"}),
        (["--unit", "ft"], {"unit": "ft"}),
        (["--unit", "m", "--turn"], {"unit": "m", "turn": True}),
        (["--unit", "m", "--origin", "1,2,-3"], {"unit": "m", "origin": "1,2,-3"}),
        (["--unit", "m", "--weld", "equal", "--drop-flat"], {"unit": "m", "weld": "equal", "drop_flat": True}),
    ):
        told = run("job", "--make", out, f"V:-:{scan}", f"S:0:{sheet}", *options)
        assert told.exit == 0 and parsed(out.read_bytes()) == [("V", None, sum_of(scan, **read)), ("S", 0, sum_of(sheet))]
        assert "  shaft.off: coordinates were rounded once" in told.err and "room.sheet" not in told.err
        assert ("shaft.off: the file is read in survey feet" in told.err) == ("ft" in options)
        assert ("shaft.off: its sum is below zero" in told.err) == ("--turn" in options)
    assert "shaft.stl: 288 points of the file are 50 corners" in run("job", "--make", out, f"V:-:{folder}/shaft.stl", "--unit", "m").err


def test_a_skin_turned_inside_out_is_noted_and_taken_as_it_stands(run, folder):
    rows, corners = box((0, 0, 0), (100, 100, 50))  # half a cubic metre
    inward = skin_sheet(folder, "in.sheet", rows[:, ::-1], corners)
    told = run("job", "--make", folder / "made.job", f"V:-:{inward}", f"S:0:{inward}")
    assert told.exit == 0 and parsed((folder / "made.job").read_bytes()) == [("V", None, -3_000_000), ("S", 0, -3_000_000)]
    assert figures(told) == [(0, 0, "void", None, -1, 0), (2, 1, "solid", 0, -1, -1)]
    assert [line.split(":")[0] for line in told.err.splitlines()] == ["  entry 0, in.sheet", "  entry 1, in.sheet"] and "--turn" in told.err


def test_a_refused_skin_names_its_file_and_nothing_is_written(run, folder):
    rows, corners = box((0, 0, 0), (10, 10, 10))
    out = folder / "made.job"
    for name, bad, number, place in (
        ("hole.sheet", skin_sheet(folder, "hole.sheet", rows[1:], corners), 8, "hole.sheet: a hole of 3 edges"),
        ("form.sheet", put(folder, b"SKIN 8 12\n", "form.sheet"), 12, "form.sheet: line 1 is not SKIN"),
        ("far.sheet", skin_sheet(folder, "far.sheet", rows, corners + 50_000), 4, "far.sheet: corner 1 at (50010, 50000, 50000) cm"),
    ):
        told = run("job", "--make", out, f"V:-:{folder}/station.sheet", f"S:0:{bad}")
        assert told.exit == 1 and told.out == "" and told.err.startswith(f"refused, {number}: ") and f"  {place}" in told.err and not out.exists()
    points, rows = shaft(8, 6)
    off(folder / "open.off", points, rows[1:])
    told = run("job", "--make", out, f"V:-:{folder}/shaft.off", f"S:0:{folder}/open.off", "--unit", "ft")
    assert told.exit == 1 and "  open.off: a hole of 3 edges" in told.err and "  the file is read in survey feet" in told.err and not out.exists()
    for bad, words in (("none.off", "none.off: it cannot be read"), ("station.txt", "station.txt: '.txt' is no format")):
        told = run("job", "--make", out, f"V:-:{folder}/{bad}", "--unit", "m")
        assert told.exit == 3 and told.err.startswith(f"flaxglimmer: {words}") and told.err.count("\n") == 1 and not out.exists()


@pytest.mark.parametrize("entries,number,place", [
    (["V:-:station.sheet"] + ["S:0:pillar.sheet"] * 32, 20, "33 entries"),
    (["V:-:station.sheet", "P:0:pillar.sheet"], 21, "'P:0:pillar.sheet', entry 1: P is neither V nor S"),
    (["V:0:station.sheet"], 22, "'V:0:station.sheet', entry 0: the first entry stands in none, and names 0"),
    (["V:-:station.sheet", "S:-:pillar.sheet"], 22, "'S:-:pillar.sheet', entry 1: it names none, which only the first does"),
    (["V:-:station.sheet", "S:7:pillar.sheet"], 22, "'S:7:pillar.sheet', entry 1: it names 7, and only entry 0 is before it"),
    (["V:-:station.sheet", "V:0:pillar.sheet"], 23, "'V:0:pillar.sheet', entry 1: a void in entry 0, which is a void too"),
    (["V:-:station.sheet"] + [f"{'SV'[at % 2]}:{at}:room.sheet" for at in range(8)], 24, "'V:7:room.sheet', entry 8: it stands 9 deep"),
])  # fmt: skip
def test_what_does_not_stand_is_refused_by_what_was_typed(entries, number, place, run, folder, monkeypatch):
    monkeypatch.chdir(folder)
    told = run("job", "--make", "made.job", *entries)
    lines = told.err.splitlines()
    assert told.exit == 1 and told.out == "" and lines[0].startswith(f"refused, {number}: ") and lines[1].startswith(f"  {place}") and lines[-1] == f"  hint: {faults.HINTS[number]}"
    assert not (folder / "made.job").exists()
    assert run("job", "--make", "made.job", *entries, "--json").told["status"] == number


@pytest.mark.parametrize("arguments,message", [
    ([], "Missing argument"),
    (["a.job", "b.job"], "one job sheet is answered at a time"),
    (["a.job", "--unit", "m"], "a job sheet has sums and no skins"),
    (["a.job", "--turn"], "go with --make alone"),
    (["--make", "made.job"], "Missing argument"),
    (["--make", "made.job", "station.sheet"], "'station.sheet' is no entry: KIND:IN:FILE, as V:-:station.stl"),
    (["--make", "made.job", "v:-:station.sheet"], "is no entry"),
    (["--make", "made.job", "VS:-:station.sheet"], "is no entry"),
    (["--make", "made.job", "V::station.sheet"], "is no entry"),
    (["--make", "made.job", "V:-:"], "is no entry"),
    (["--make", "made.job", "V:-:station.sheet", "S:00:pillar.sheet"], "'S:00:pillar.sheet' is no entry"),
    (["--make", "made.job", "V:-:station.sheet", "S:٠:pillar.sheet"], "is no entry"),
    (["--make", "made.job", "V:-:station.sheet\x1b", "\x1b[31m"], "'\\x1b[31m' is no entry"),
    (["--make", "made.job", "V:-:station.sheet", "--unit", "m"], "a sheet is in whole centimetres"),
    (["--make", "made.job", "V:-:shaft.off"], "shaft.off: the file does not tell its unit"),
    (["--make", "station.sheet", "V:-:station.sheet"], "never written over"),
    (["--make", "link.sheet", "V:-:station.sheet", "S:0:pillar.sheet"], "never written over"),
    (["--make", "none/made.job", "V:-:station.sheet"], "cannot be written"),
])  # fmt: skip
def test_wrong_usage_ends_with_2_and_writes_nothing(arguments, message, run, folder, monkeypatch):
    monkeypatch.chdir(folder)
    put(folder, STATION), (folder / "link.sheet").hardlink_to(folder / "pillar.sheet")
    before = {path: path.read_bytes() for path in folder.iterdir()}
    told = run("job", *arguments)
    assert told.exit == 2 and told.out == "" and message in told.err and "Traceback" not in told.err and "\x1b" not in told.err
    assert {path: path.read_bytes() for path in folder.iterdir()} == before


def test_a_file_may_have_colons_in_its_name(run, folder):
    skin_sheet(folder, "level 3: west.sheet", *box((0, 0, 0), (1000, 100, 100)))
    told = run("job", "--make", folder / "made.job", f"V:-:{folder}/level 3: west.sheet")
    assert told.exit == 0 and figures(told) == [(0, 0, "void", None, 10, 10)] and "  level 3: west.sheet\n" in told.out


def test_nothing_is_written_that_the_library_did_not_take(run, folder, monkeypatch):
    def refuse(sheet):
        raise fg.Refused(25)

    monkeypatch.setattr(calls, "job", refuse)
    told = run("job", "--make", folder / "made.job", f"V:-:{folder}/station.sheet")
    assert told.exit == 5 and "refuses by 25, and no place of it is found" in told.err and not (folder / "made.job").exists()


# The job that ships


def test_the_job_that_ships_is_that_of_its_skins_and_rounds_once(run, tmp_path):
    names = ("station", "pillar", "chamber")
    sums = [sum_of(SHEETS / f"{name}.sheet") for name in names]
    sheet = (SHEETS / "station.job").read_bytes()
    assert min(sums) > 0 and parsed(sheet) == [("V", None, sums[0]), ("S", 0, sums[1]), ("V", 1, sums[2])]
    # one by one it would be another net
    one_by_one = rounded(sums[0]) - (rounded(sums[1]) - rounded(sums[2]))
    assert abs(calls.job(sheet) - one_by_one) == 1 and calls.job(sheet) == rounded(sums[0] - (sums[1] - sums[2]))
    # each skin lies within the one that it stands in
    corners = [fg.read(SHEETS / f"{name}.sheet", None).corners for name in names]
    for outer, inner in zip(corners, corners[1:]):
        assert (outer.min(0) <= inner.min(0)).all() and (inner.max(0) <= outer.max(0)).all()
    told = run("job", "--make", tmp_path / "made.job", *(f"{kind}:{name}:{SHEETS / file}.sheet" for kind, name, file in (("V", "-", "station"), ("S", 0, "pillar"), ("V", 1, "chamber"))))
    assert told.exit == 0 and (tmp_path / "made.job").read_bytes() == sheet


def test_log_says_that_a_job_is_none(run):
    told = run("log", SHEETS / "station.job")
    assert told.exit == 1 and "it is no log sheet but a job sheet, which has sums and no log" in told.err


def test_json_of_a_refused_job_is_one_object(run, tmp_path):
    told = run("job", put(tmp_path, b"JOB\t1\nJ\tX\t-\t0\n"), "--json")
    assert told.exit == 1 and told.err == "" and len(told.out.splitlines()) == 1
    assert set(json.loads(told.out)) == {"exit", "status", "meaning", "faults", "hint", "notes"}

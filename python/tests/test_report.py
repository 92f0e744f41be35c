"""The report: one file that needs nothing, the same bytes for the same input, with the library's figures; and the scans that ship."""
import re
import shutil
from html.parser import HTMLParser

import numpy as np
import pytest
from conftest import ROOT
from scans import shaft, ship
from tables import O_CORNERS, O_ROWS

import flaxglimmer as fg
from flaxglimmer import calls, files, painter, report
from flaxglimmer.header import LIMITS

SCANS = ROOT / "scans"


class Reading(HTMLParser):
    """The tags, attributes and texts of a page; tags must be closed in order."""

    VOID = {"meta", "br", "polygon", "rect", "path"}

    def __init__(self, page):
        super().__init__()
        self.tags, self.attributes, self.texts, self.stack = [], [], [], []
        self.feed(page)
        assert self.stack == []

    def handle_starttag(self, tag, attributes):
        self.tags.append(tag)
        self.attributes += attributes
        if tag not in self.VOID:
            self.stack.append(tag)

    def handle_startendtag(self, tag, attributes):
        self.tags.append(tag)
        self.attributes += attributes

    def handle_endtag(self, tag):
        implied = {"li", "p", "td", "tr", "th"}
        assert self.stack.pop() == tag or tag in implied, tag

    def handle_data(self, data):
        self.texts.append(data)


@pytest.fixture(scope="module")
def thinned():
    return fg.thin(fg.read(SCANS / "spalled.stl", "m"), "1 m")


@pytest.fixture(scope="module")
def page(thinned):
    return report.page(thinned, "30 m", "3000 mm")


def test_it_needs_nothing_and_runs_nothing(page):
    reading = Reading(page)
    assert not {"script", "link", "img", "iframe", "object", "embed"} & set(reading.tags)
    names = {name for name, _ in reading.attributes}
    assert not {"src", "href", "xlink:href", "srcset", "data", "action"} & names and not any(name.startswith("on") for name in names)
    assert not re.search(r"url\(|@import|https?:|javascript:", page)


def test_the_same_input_gives_the_same_bytes(page, run, tmp_path):
    again = tmp_path / "elsewhere" / "spalled.stl"
    again.parent.mkdir()
    shutil.copy(SCANS / "spalled.stl", again)
    for place in ("a.html", "b.html"):
        assert run("thin", again, "--unit", "m", "--limit", "1 m", "--length", "30 m", "--mean-at-least", "3000 mm", "--report", tmp_path / place).exit == 0
        assert (tmp_path / place).read_bytes() == page.encode()


def test_it_tells_the_librarys_figures(page, thinned):
    text = " ".join(" ".join(Reading(page).texts).split())
    first, last = thinned.volumes()
    for what in (
        f"rows {len(thinned.skin.rows)} {len(thinned.rows)}",
        f"corners used {len(thinned.skin.corners)} {len(np.unique(thinned.rows))}",
        f"each within half a cubic metre {first} {last}",
        f"rounded once by itself {thinned.change()}",
        f"records of the log {len(thinned.log)}",
        "limit 1 m = 100 cm",
        "the file is in metres",
        "origin (0, 0, 0) m",
        f"SHA-256 of the file {thinned.skin.digest}",
        "Mean diameter of the skin over 30 m",
        "says nothing of the narrowest place",
        "the scanner's error",
        "flat rows inside a round wall",
        f"the largest move of a coordinate is {thinned.skin.move} cm",
        "Farthest moved: corner {0}, for which corner {1.stand_in} stands in after {1.count} record".format(*thinned.farthest()),
        f"the squared distance is {thinned.farthest()[1].squared:,} cm²",
    ):
        assert what in text, what


def test_the_log_and_the_sheet_ask_the_desk_again(page, thinned, tmp_path):
    (tmp_path / "a.sheet").write_text(re.search(r"<pre>(SKIN\t.*?)</pre>", page, re.S)[1])
    (tmp_path / "a.log").write_text(re.search(r"<pre>(OK\t.*?)</pre>", page, re.S)[1])
    skin, answer = files.read_sheet(tmp_path / "a.sheet"), files.read_answer(tmp_path / "a.log")
    assert np.array_equal(calls.replay(skin.rows, len(skin.corners), answer.log), answer.rows) and np.array_equal(answer.log, thinned.log)


def test_the_plot_asks_each_stage_and_no_more_than_257(thinned):
    found = report.stages(thinned)
    assert [records for records, _ in found] == list(range(len(thinned.log) + 1))
    for records in (0, 50, len(thinned.log)):
        rows = calls.replay(thinned.skin.rows, len(thinned.skin.corners), thinned.log[:records])
        assert found[records] == (records, calls.volume(rows, thinned.skin.corners))
    points, rows = shaft(16, 31)
    whole = report.stages(fg.thin(fg.from_points(points, rows, "m"), "none"))
    assert len(whole) == 257 and whole[0][0] == 0 and whole[-1][0] == len(points) - 4


def test_the_band_is_half_a_cubic_metre_either_way():
    drawn = report.plot([(0, 10), (5, 8), (9, 8)])
    step = float(re.search(r'height="([\d.]+)"/></g>', drawn)[1])
    ys = {int(figure): float(y) for y, figure in re.findall(r'y="([\d.]+)" text-anchor="end">(\d+)<', drawn)}
    assert ys[8] - ys[9] == pytest.approx(step, abs=0.2)  # a whole cubic metre from top to foot
    top, line = float(re.search(r'<rect x="[\d.]+" y="([\d.]+)"', drawn)[1]), float(re.search(r'd="M[\d.]+ ([\d.]+)H', drawn[drawn.index("<rect") :])[1])
    assert line - top == pytest.approx(step / 2, abs=0.2)
    assert len(re.findall("<rect", drawn)) == 2


@pytest.mark.parametrize("low,high", [(0, 0), (0, 1), (-5, 3), (0, 510), (-10**9, 10**9), (219, 223)])
def test_ticks_are_whole_and_few(low, high):
    found = list(report.ticks(low, high, 8))
    assert found and all(low <= tick <= high for tick in found) and len(found) <= 9
    assert len({b - a for a, b in zip(found, found[1:])}) <= 1


def test_a_slender_shaft_is_drawn_wider_and_that_is_told():
    points, rows = shaft(8, 30, radius=2.5, length=480)
    page = report.page(fg.thin(fg.from_points(points, rows, "m"), "2 m"))
    assert re.search(r"Drawn \d\d times as wide as it is", page)


def test_a_skin_that_does_not_change_has_a_report(thinned):
    page = report.page(fg.thin(thinned.skin, "0 cm"))
    assert "No corner moved." in page and "diameter" not in page
    inward = fg.Skin(thinned.skin.rows[:, ::-1].copy(), thinned.skin.corners, name="inward")
    page = report.page(fg.thin(inward, "1 m"), "30 m", "1 mm")
    assert "the rows turn inward" in page and "undecided" in page
    # it looks as the skin does from outside
    assert report.Frame(inward).picture(inward.rows, "") == report.Frame(thinned.skin).picture(thinned.skin.rows, "")


def test_the_rows_that_turn_to_the_eye_are_painted():
    points = [painter.seen(corner) for corner in O_CORNERS.tolist()]
    drawn = painter.polygons(O_ROWS.tolist(), points, lambda x, y: (x, y))
    # round the origin a row turns to the eye where the sum of its corners lies before it
    seen = {frozenset("%.1f,%.1f" % points[v][:2] for v in row) for row in O_ROWS.tolist() if sum(points[v][2] for v in row) < 0}
    assert {frozenset(found.split()) for found in re.findall('points="([^"]*)"', drawn)} == seen and len(seen) == 4


def test_warnings_stand_before_the_figures(tmp_path):
    skin = fg.read(SCANS / "spalled.stl", "m")
    skin.warnings.append("stand-in <b>")
    page = report.page(fg.thin(skin, "1 m"))
    assert page.index("stand-in &lt;b&gt;") < page.index("<h2>Figures")


# The scans that ship


def test_the_scans_that_ship_are_those_that_are_made(tmp_path):
    ship(tmp_path)
    assert sorted(path.name for path in SCANS.iterdir()) == sorted(path.name for path in tmp_path.iterdir())
    for path in tmp_path.iterdir():
        assert path.read_bytes() == (SCANS / path.name).read_bytes()


def test_the_spalled_shaft_is_sound_and_its_corners_are_apart(thinned):
    corners = thinned.skin.corners
    assert len(np.unique(corners, axis=0)) == len(corners) and LIMITS.LEAST_ROWS < len(thinned.rows) < len(thinned.skin.rows)
    assert thinned.skin.volume() > 0


def test_the_hole_is_found_where_it_was_made(run):
    told = run("check", SCANS / "hole.stl", "--unit", "m", "--json").told
    points, rows = shaft(12, 20, seed=8, spalled=0)
    assert told["status"] == 8 and len(told["faults"]) == 1
    away = ~(rows == 125).any(1)
    rim = {tuple(np.float32(points[v]).tolist()) for row in rows[~away] for v in row if v != 125}
    hole = told["faults"][0]
    assert len(hole["corners"]) == len(rim) and tuple(hole["at"]) in rim
    assert all(sum(tuple(np.float32(points[v]).tolist()) in rim for v in rows[away][row]) >= 2 for row in hole["rows"])
    whole = fg.from_points(points, rows, "m")
    whole.check()

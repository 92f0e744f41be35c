"""The report: one HTML file, no script, nothing fetched, no clock. Every figure of a skin is one that the library gave, but for the ends of the
mean diameter."""
from __future__ import annotations

from pathlib import Path

import numpy as np
from jinja2 import Environment, FileSystemLoader, StrictUndefined
from markupsafe import Markup

from . import calls, painter
from .diameter import of_skin
from .files import answer_text, sheet_text
from .lengths import FEET
from .skins import Recovered, Skin, Thinned

STAGES = 257  # most stages that the plot asks about
ACROSS, TALL, EDGE = 300, 560, 12  # of a picture
IN_WORDS = {"mm": "millimetres", "cm": "centimetres", "m": "metres", **FEET}


def stages(thinned: Thinned) -> list[tuple[int, int]]:
    """Records done and the figure then, at some stages: each by replaying the records since the last."""
    rows, done, found = thinned.skin.rows, 0, []
    for records in sorted({round(place) for place in np.linspace(0, len(thinned.log), STAGES)}):
        rows = calls.replay(rows, len(thinned.skin.corners), thinned.log[done:records])
        done = records
        found.append((records, calls.volume(rows, thinned.skin.corners)))
    return found


class Frame:
    """Where a skin stands on paper. A slender one is drawn wider than it is, by a whole factor."""

    def __init__(self, skin: Skin):
        corners = skin.corners.tolist()
        wide = max(1, *(int(side) for side in np.ptp(skin.corners.astype(np.int64), axis=0)[:2]))
        self.wider = max(1, int(np.ptp(skin.corners[:, 2].astype(np.int64))) // (2 * wide))
        self.points = [painter.seen(corner, self.wider) for corner in corners]
        xs, ys = [p[0] for p in self.points], [p[1] for p in self.points]
        self.left, self.top = min(xs), min(ys)
        self.scale = min((ACROSS - 2 * EDGE) / max(max(xs) - self.left, 1), (TALL - 2 * EDGE) / max(max(ys) - self.top, 1))
        self.high = round((max(ys) - self.top) * self.scale + 2 * EDGE)
        self.outward = skin.volume() >= 0

    def place(self, x: float, y: float) -> tuple[float, float]:
        return EDGE + (x - self.left) * self.scale, EDGE + (y - self.top) * self.scale

    def picture(self, rows, what: str) -> Markup:
        drawn = painter.polygons(rows.tolist(), self.points, self.place, self.outward)
        return Markup(f'<svg viewBox="0 0 {ACROSS} {self.high}" width="{ACROSS}" height="{self.high}" role="img" aria-label="{what}">{drawn}</svg>')


def ticks(low: int, high: int, most: int) -> range:
    """Whole numbers in steps of 1, 2 or 5 times a power of ten, so many at most."""
    step = next(step for power in range(19) for step in (10**power, 2 * 10**power, 5 * 10**power) if (high - low) // step < most)
    return range(-(-low // step) * step, high + 1, step)


def plot(found: list[tuple[int, int]]) -> Markup:
    """The figure after each record, and the band of half a cubic metre either way in which the exact volume lies."""
    across, tall, left, right, top, foot = 760, 300, 70, 12, 12, 44
    figures = [figure for _, figure in found]
    last, low, high = found[-1][0], min(figures) - 1, max(figures) + 1
    x = lambda records: left + (across - left - right) * records / max(last, 1)
    y = lambda figure: top + (tall - top - foot) * (high - figure) / (high - low)
    steps = [one for place, one in enumerate(found) if place == 0 or one[1] != found[place - 1][1]]
    ends = [records for records, _ in steps[1:]] + [last]
    band = "".join(
        f'<rect x="{x(start):.1f}" y="{y(figure + 0.5):.1f}" width="{max(x(end) - x(start), 1):.1f}" height="{y(figure - 0.5) - y(figure + 0.5):.1f}"/>'
        for (start, figure), end in zip(steps, ends)
    )
    line = "".join(f"{'L' if place else 'M'}{x(start):.1f} {y(figure):.1f}H{x(end):.1f}" for place, ((start, figure), end) in enumerate(zip(steps, ends)))
    grid = "".join(
        f'<path d="M{left} {y(figure):.1f}H{across - right}" stroke="#dfe9ec"/><text x="{left - 8}" y="{y(figure) + 4:.1f}" text-anchor="end">{figure:,}</text>'
        for figure in ticks(low, high, 8)
    )
    grid += "".join(
        f'<path d="M{x(records):.1f} {tall - foot}v5" stroke="#24424d"/><text x="{x(records):.1f}" y="{tall - foot + 19}" text-anchor="middle">{records:,}</text>'
        for records in ticks(0, last, 10)
    )
    return Markup(
        f'<svg viewBox="0 0 {across} {tall}" width="{across}" height="{tall}" role="img" aria-label="volume by record" font-size="12" fill="#3d545c">'
        f'{grid}<g fill="#9fc3cd">{band}</g><path d="{line}" fill="none" stroke="{painter.INK}" stroke-width="1.3"/>'
        f'<text x="{(left + across) // 2}" y="{tall - 6}" text-anchor="middle">records done</text>'
        f'<text transform="translate(14 {(tall - foot) // 2}) rotate(-90)" text-anchor="middle">cubic metres</text></svg>'
    )


def page(thinned: Thinned, length: str | None = None, mean_at_least: str | None = None) -> str:
    """The whole report as text."""
    skin = thinned.skin
    thinned.hold()
    first, last = thinned.volumes()
    frame = Frame(skin)
    environment = Environment(loader=FileSystemLoader(Path(__file__).parent), autoescape=True, undefined=StrictUndefined, trim_blocks=True, lstrip_blocks=True)
    return environment.get_template("report.html").render(
        skin=skin,
        thinned=thinned,
        recovered=thinned if isinstance(thinned, Recovered) else None,
        unit=IN_WORDS[skin.unit],
        origin=", ".join(f"{metres:,}" for metres in skin.origin),
        diameter=of_skin(first, skin.move, length, mean_at_least) if length else None,
        first=first,
        last=last,
        change=thinned.change(),
        used=[len(np.unique(rows)) for rows in (skin.rows, thinned.rows)],
        farthest=thinned.farthest(),
        before=frame.picture(skin.rows, "the scanned skin"),
        after=frame.picture(thinned.rows, "the thinned skin"),
        wider=frame.wider,
        plot=plot(stages(thinned)),
        log=answer_text(thinned.rows, thinned.log, first, last),
        sheet=sheet_text(skin),
    )

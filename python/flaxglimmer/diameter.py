"""The mean diameter of the skin as an interval: D = √(4V / πL), V within half a cubic metre of the library's figure, L taken exactly, both ends
rounded outward to whole millimetres. It speaks of the mean, and says nothing of the narrowest place."""
from __future__ import annotations

from dataclasses import dataclass
from fractions import Fraction
from math import isqrt

from .lengths import millimetres, told

PI = Fraction(314159265358979323846, 10**20), Fraction(314159265358979323847, 10**20)  # below and above
SAYS = "this is the mean, and says nothing of the narrowest place"


def interval(figure: int, length: Fraction) -> tuple[int, int]:
    """Both ends in whole millimetres, for a figure of at least 1 cubic metre and a length in millimetres."""
    half, cubic = Fraction(1, 2), 10**9
    low = 4 * (figure - half) * cubic / (PI[1] * length)
    high = 4 * (figure + half) * cubic / (PI[0] * length)
    return isqrt(low.numerator // low.denominator), _root_up(-(-high.numerator // high.denominator))


def _root_up(whole: int) -> int:
    root = isqrt(whole)
    return root if root * root == whole else root + 1


def verdict(low: int, high: int, least: Fraction) -> str:
    """Never met while the lower end is below."""
    return "met" if low >= least else "not met" if high < least else "undecided"


@dataclass
class Diameter:
    """What is told: the ends in millimetres, None where the figure gives none, and the verdict, None where no least one was asked."""

    figure: int
    length: str
    least: str | None
    ends: tuple[int, int] | None
    verdict: str | None
    move: str

    def line(self) -> str:
        ends = f"{self.ends[0]:,} to {self.ends[1]:,} mm" if self.ends else f"none, a figure of {self.figure} m³ is below 1 m³"
        asked = f"; at least {told(self.least)} asked: {self.verdict}" if self.verdict else ""
        return f"mean diameter of the skin over {told(self.length)}: {ends}{asked} ({SAYS})"

    def not_covered(self) -> list[str]:
        return [
            "the narrowest place: a shaft can be narrower anywhere and have this mean",
            "the scanner's error",
            "flat rows inside a round wall: they enclose less than it does, so this errs to the safe side",
            f"rounding to whole centimetres: the largest move of a coordinate is {self.move} cm",
        ]


def of_skin(figure: int, move: str, length: str, least: str | None) -> Diameter:
    """From the scanned skin's figure, a typed length and a typed least diameter."""
    exact, bound = millimetres(length), millimetres(least) if least else None
    ends = interval(figure, exact) if figure >= 1 else None
    found = None if bound is None else verdict(*ends, bound) if ends else "undecided"
    return Diameter(figure, length.strip(), least and least.strip(), ends, found, move)

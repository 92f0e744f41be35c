"""The mean diameter of the skin: its ends hold the exact one, and a least one is never met while the lower end is below."""
from decimal import Decimal, localcontext
from fractions import Fraction

import pytest
from hypothesis import given
from hypothesis import strategies as st

import flaxglimmer as fg
from flaxglimmer import diameter
from flaxglimmer.lengths import millimetres

PI = Decimal("3.14159265358979323846264338327950288419716939937510582097494")


@given(st.integers(1, 10**9), st.decimals("0.01", 5000, places=3))
def test_the_ends_hold_the_exact_diameters_and_no_whole_millimetre_more(figure, length):
    with localcontext() as context:
        context.prec = 60
        least, most = ((4 * (figure + half) / (PI * length)).sqrt() * 1000 for half in (Decimal("-0.5"), Decimal("0.5")))
        low, high = diameter.interval(figure, Fraction(length) * 1000)
        assert low <= least < low + 1 and high - 1 < most <= high


@pytest.mark.parametrize("figure,whole", [(1, 100), (221, 3063), (10**6, 10**5)])
def test_ends_next_to_a_whole_millimetre_go_outward(figure, whole):
    # with p for π these lengths give just that diameter; the first p is below π and the second above it, both by less than 10⁻²⁰
    for half, p, end, expected in ((-0.5, "3.141592653589793238461", 0, whole - 1), (0.5, "3.1415926535897932384627", 1, whole + 1)):
        length = 4 * (figure + Fraction(half)) * 10**9 / (Fraction(p) * whole**2)
        assert diameter.interval(figure, length)[end] == expected


@given(st.integers(0, 10**6), st.integers(0, 50), st.fractions(0, 10**6))
def test_met_needs_the_lower_end(low, wide, least):
    verdict = diameter.verdict(low, low + wide, least)
    assert (verdict == "met") == (low >= least) and (verdict == "not met") == (low + wide < least)
    assert verdict in ("met", "not met", "undecided")


def test_a_known_shaft():
    # 4 x 707.5 / 30 pi = 30.0275…, 4 x 706.5 / 30 pi = 29.985…: 5,479.7 and 5,475.8 mm
    told = diameter.of_skin(707, "0.500", "30 m", "5475 mm")
    assert (told.ends, told.verdict) == ((5475, 5480), "met")
    assert [diameter.of_skin(707, "0", "30000 mm", least).verdict for least in ("5475.1 mm", "5480 mm", "5480.1 mm", "5.481 m")] == ["undecided", "undecided", "not met", "not met"]
    assert "says nothing of the narrowest place" in told.line() and "mean diameter of the skin over 30 m" in told.line()
    for what in ("narrowest place", "scanner", "flat rows", "0.500 cm"):
        assert any(what in line for line in told.not_covered())


@pytest.mark.parametrize("figure", [0, -1, -400])
def test_a_figure_below_one_gives_none_and_meets_nothing(figure):
    told = diameter.of_skin(figure, "0", "30 m", "1 mm")
    assert told.ends is None and told.verdict == "undecided" and f"a figure of {figure} " in told.line()
    assert diameter.of_skin(figure, "0", "30 m", None).verdict is None


@pytest.mark.parametrize("typed,exact", [("30 m", 30_000), ("3000mm", 3000), (" 12.5 cm ", 125), ("3937 ft", 1_200_000), ("10 ift", 3048), ("0.1 m", 100)])
def test_lengths_are_taken_exactly(typed, exact):
    assert millimetres(typed) == exact


@pytest.mark.parametrize("typed", ["30", "m", "30 yd", "-30 m", "0 m", "0.0 mm", "nan m", "1e3 m", "٣ m", "30 m m", "", "1/3 m", "9" * 30 + " m"])
def test_what_is_no_length(typed):
    with pytest.raises(fg.UsageFault):
        millimetres(typed)

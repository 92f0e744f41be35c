"""The one rounding to whole centimetres, against exact fractions; origins."""
import math
from fractions import Fraction

import numpy as np
import pytest
from hypothesis import given
from hypothesis import strategies as st
from scans import shaft

import flaxglimmer as fg
from flaxglimmer import files
from flaxglimmer.lengths import CENTIMETRES

# 01: 100 to a metre; 02: 1200/3937 of a metre to a foot, 30.48 to an international foot
EXACT = {"mm": Fraction(1, 10), "cm": 1, "m": 100, "ft": 100 * Fraction(1200, 3937), "ift": Fraction("30.48")}


def exact(value, unit, metres=0):
    """Centimetres of a coordinate, and the nearest whole, a half away from zero."""
    y = Fraction(value) * EXACT[unit] - 100 * metres
    whole = math.floor(abs(y) + Fraction(1, 2))
    return y, -whole if y < 0 else whole


def clipped(whole):
    return max(-(2**31 - 1), min(2**31 - 1, whole))


def test_units_are_01s_and_02s():
    assert CENTIMETRES == EXACT


def test_the_two_feet_part():
    for unit, centimetres in (("ft", 12_000_000), ("ift", 11_999_976)):
        assert files.to_centimetres(np.array([[0.0, 0.0, 393_700.0]]), unit).corners.tolist() == [[0, 0, centimetres]]


@pytest.mark.parametrize("unit", EXACT)
def test_next_to_halves(unit):
    chance = np.random.default_rng(5)
    points = (chance.integers(-50000, 50000, (3000, 3)) + 0.5) / float(EXACT[unit])
    points = np.nextafter(points, points + chance.choice([-1, 0, 1], points.shape))
    rounded = files.to_centimetres(points, unit, (0, 3, -412345))
    for point, corner in zip(points.tolist(), rounded.corners.tolist()):
        assert corner == [clipped(exact(value, unit, metres)[1]) for value, metres in zip(point, (0, 3, -412345))]


coordinates = st.floats(allow_nan=False, allow_infinity=False) | st.floats(-600, 600) | st.integers(-100_000, 100_000).map(lambda n: n / 200)


@given(st.lists(st.tuples(coordinates, coordinates, coordinates), min_size=1, max_size=6), st.sampled_from(sorted(EXACT)), st.tuples(*3 * [st.integers(-(10**6), 10**6)]))
def test_any_coordinates(points, unit, origin):
    rounded = files.to_centimetres(np.array(points), unit, origin)
    found = [[exact(value, unit, metres) for value, metres in zip(point, origin)] for point in points]
    assert rounded.corners.tolist() == [[clipped(whole) for _, whole in point] for point in found]
    moves = [max(abs(y - whole) for y, whole in point) for point in found]
    assert rounded.move == max(moves) <= Fraction(1, 2) and moves[rounded.corner] == rounded.move


@given(st.fractions(0, Fraction(1, 2)))
def test_the_move_is_told_rounded_up(move):
    told = Fraction(files._told_move(files.Rounded(None, move, 0)))
    assert move <= told < move + Fraction(1, 1000)


def test_an_origin_moves_the_corners_and_not_the_volume():
    points, rows = shaft(8, 8)
    points = (np.round(points * 100) + 0.25) / 100  # no halves of a centimetre, which may round otherwise
    far = points + np.array([412345.0, 7123457.0, -300.0])
    near = fg.from_points(points, rows, "m")
    with pytest.raises(fg.Refused) as refused:
        fg.thin(fg.from_points(far, rows, "m"), "1 m")
    assert refused.value.number == 4 and len(refused.value.faults) == len(points)
    there = fg.from_points(far, rows, "m", origin="412345,7123457,-300")
    assert np.array_equal(there.corners, near.corners) and "origin (412,345, 7,123,457, -300) m" in " ".join(there.notes)
    middle = fg.from_points(far, rows, "m", origin="auto")
    assert middle.origin == (412345, 7123457, -315) and np.array_equal(middle.corners, near.corners + np.array([0, 0, 1500]))
    assert middle.volume() == near.volume()


@pytest.mark.parametrize("typed", ["1,2", "1.5,0,0", "1,2,3,4", "x", "", "1e3,0,0", "٣,0,0", "9999999999,0,0"])
def test_what_is_no_origin(typed):
    points, rows = shaft(4, 3)
    with pytest.raises(fg.UsageFault, match="no origin"):
        fg.from_points(points, rows, "m", origin=typed)


def test_corners_on_one_point_stay_apart_and_are_told():
    points, rows = shaft(4, 3)
    points[0] = np.round(points[0], 2)
    points[1] = points[0] + 0.001
    skin = fg.from_points(points, rows, "m")
    assert len(skin.corners) == len(points) and "corners 0, 1 lie on one point after rounding; they stay apart" in skin.notes

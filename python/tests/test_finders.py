"""Where a refusal lies: each finder's number is the library's, and what it tells is true of the table."""
import numpy as np
import pytest
from hypothesis import given, settings
from hypothesis import strategies as st
from scans import shaft
from tables import O_CORNERS, O_ROWS, T_CORNERS, T_ROWS, centimetres, damaged

from flaxglimmer import calls, faults
from flaxglimmer.refusals import OurFault

ORDER = (2, 4, 5, 6, 7, 8, 9, 10, 11)


def found(finder, number):
    try:
        return finder.find(number)
    except OurFault:
        return ()


def first_fault(rows, corners):
    """The number of the first finder that finds something, 0 where none does. A finder past 5 reads numbers as corners, so the order is kept."""
    finder = faults.Finder(rows, corners)
    return next((number for number in ORDER if found(finder, number)), 0)


met = set()


@pytest.mark.parametrize("part", range(30))
def test_the_first_finder_that_finds_is_the_librarys_number(part):
    for seed in range(100 * part, 100 * part + 100):
        rows, corners = damaged(seed)
        number = calls.check(rows, corners)
        met.add(number)
        assert number == first_fault(rows, corners), seed


def test_every_number_was_met():
    assert met == {0, *ORDER}


numbers = st.integers(0, 7)
tables = st.lists(st.tuples(numbers, numbers, numbers), min_size=1, max_size=14)
places = st.lists(st.tuples(*3 * [st.integers(-50_001, 50_001)]), min_size=1, max_size=8)


@settings(max_examples=300)
@given(tables, places)
def test_any_table_at_all(rows, corners):
    assert calls.check(rows, corners) == first_fault(rows, corners)


@settings(max_examples=150)
@given(st.integers(0, 10**6), st.permutations(range(6)), st.lists(st.tuples(st.integers(0, 7), st.integers(0, 2), st.integers(0, 6)), max_size=2))
def test_the_octahedron_renumbered_and_damaged(seed, order, changes):
    rows = np.array(order)[O_ROWS][np.random.default_rng(seed).permutation(8)]
    for row, place, number in changes:
        rows[row, place] = number
    corners = np.concatenate([O_CORNERS, [[7, 7, 7]]]) if seed % 3 == 0 else O_CORNERS
    assert calls.check(rows, corners) == first_fault(rows, corners)


def test_holes_are_told_by_their_rims():
    points, rows = shaft(6, 6)
    corners = centimetres(points)
    rim = {v for row in rows[(rows == 15).any(1)].tolist() for v in row} - {15}
    away = ~((rows == 15).any(1) | (np.arange(len(rows)) == 0))
    # corner 15 is in no row then: 8 comes before 9
    one, two = faults.Finder(rows[away], corners).find(8)
    assert calls.check(rows[away], corners) == 8
    assert {frozenset(one.corners), frozenset(two.corners)} == {frozenset(rim), frozenset(rows[0].tolist())}
    for fault in (one, two):
        beside = rows[away][list(fault.rows)]
        assert all(len(set(row.tolist()) & set(fault.corners)) >= 2 for row in beside)
        assert fault.at == tuple(corners[fault.corners[0]].tolist()) and f"hole of {len(fault.corners)} edges" in fault.text


def test_two_rings_and_two_parts_are_told():
    shared = np.concatenate([T_ROWS, np.array([[0, 4, 5], [0, 5, 6], [0, 6, 4], [4, 6, 5]])])
    corners = np.concatenate([T_CORNERS, T_CORNERS[1:] * -1])
    assert calls.check(shared, corners) == 10
    (ring,) = faults.Finder(shared, corners).find(10)
    assert ring.corners == (0,) and "2 rings" in ring.text and set(ring.rows) == {0, 1, 2, 4, 5, 6}
    parted, corners = np.concatenate([T_ROWS, T_ROWS + 4]), np.concatenate([T_CORNERS, T_CORNERS + 1000])
    assert calls.check(parted, corners) == 11
    assert [(part.rows, part.corners) for part in faults.Finder(parted, corners).find(11)] == [((0, 1, 2, 3), (0,)), ((4, 5, 6, 7), (4,))]


def test_a_turned_row_is_told_with_its_neighbours():
    rows = T_ROWS.copy()
    rows[0] = rows[0][::-1]
    assert calls.check(rows, T_CORNERS) == 7
    told = faults.Finder(rows, T_CORNERS).find(7)
    # the turned row goes along each of its three edges as a neighbour does
    assert {fault.rows for fault in told} == {(0, 1), (0, 2), (0, 3)}
    for fault in told:
        a, b = fault.corners
        for row in fault.rows:
            assert (a, b) in [tuple(rows[row][[i, (i + 1) % 3]].tolist()) for i in range(3)]


def test_a_fault_that_is_not_there_is_our_fault():
    for number in (2, 4, 5, 6, 7, 8, 9, 10, 11, 14):
        with pytest.raises(OurFault):
            faults.Finder(O_ROWS, O_CORNERS).find(number)

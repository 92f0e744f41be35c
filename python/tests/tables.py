"""Tables for tests: document 01's trial skins, and small shafts with damage."""
import random

import numpy as np

from scans import shaft

# 01's octahedron O and tetrahedron T, with its corners
O_ROWS = np.array([(0, 1, 2), (0, 2, 3), (0, 3, 4), (0, 4, 1), (5, 2, 1), (5, 3, 2), (5, 4, 3), (5, 1, 4)], np.uint32)
O_CORNERS = np.array([(0, 0, 100), (100, 0, 0), (0, 100, 0), (-100, 0, 0), (0, -100, 0), (0, 0, -100)], np.int32)
T_ROWS = np.array([(0, 1, 2), (0, 2, 3), (0, 3, 1), (1, 3, 2)], np.uint32)
T_CORNERS = np.array([(0, 0, 0), (300, 0, 0), (0, 300, 0), (0, 0, 300)], np.int32)


def centimetres(points):
    return np.round(points * 100).astype(np.int64)


def damaged(seed):
    """A small shaft, sometimes two that may share a corner, with up to two pieces of damage."""
    chance = random.Random(seed)
    points, rows = shaft(*chance.choice([(3, 2), (4, 2), (3, 3), (5, 3)]), seed=seed)
    corners = centimetres(points)
    if chance.random() < 0.4:
        points, more = shaft(3, 2, seed=seed + 1)
        rows, apart = np.concatenate([rows, more + len(corners)]), len(corners)
        corners = np.concatenate([corners, centimetres(points)])
        if chance.random() < 0.6:
            rows = np.where(rows == len(corners) - 1, chance.randrange(apart), rows)
        if chance.random() < 0.7:
            used, rows = np.unique(rows, return_inverse=True)
            corners, rows = corners[used], rows.reshape(-1, 3)
    for _ in range(chance.choice([0, 0, 1, 1, 2])):
        rows, corners = damage(chance, rows, corners)
    return rows, corners


def damage(chance, rows, corners):
    at, kind = chance.randrange(len(rows)), chance.randrange(8)
    if kind == 0:
        rows[at] = rows[at][::-1].copy()
    elif kind == 1:
        rows = np.delete(rows, at, 0)
    elif kind == 2:
        rows[at][chance.randrange(3)] = chance.randrange(len(corners) + 2)
    elif kind == 3:
        corners[chance.randrange(len(corners))][chance.randrange(3)] = chance.choice([50000, 50001, -50001, 2**31 - 1])
    elif kind == 4:
        corners = np.concatenate([corners, [[1, 2, 3]]])
    elif kind == 5:
        rows = np.concatenate([rows, rows[at : at + 1]])
    elif kind == 6:
        rows = np.where(rows == chance.randrange(len(corners)), chance.randrange(len(corners)), rows)
    else:
        rows = rows[: chance.randrange(1, 6)]
    return rows, corners


def exact_sum(rows, corners):
    """01's sixfold volume, in Python's own integers."""
    total = 0
    for a, b, c in rows.tolist():
        (ax, ay, az), (bx, by, bz), (cx, cy, cz) = (corners[v].tolist() for v in (a, b, c))
        total += ax * (by * cz - bz * cy) + ay * (bz * cx - bx * cz) + az * (bx * cy - by * cx)
    return total


def figure(total):
    """To the nearest whole cubic metre, a half away from zero."""
    return (2 * abs(total) + 6_000_000) // 12_000_000 * (1 if total >= 0 else -1)

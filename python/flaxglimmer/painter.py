"""Paints skins as SVG. It needs Python's own library alone: tools/pictures takes it without the rest of the package."""
import math

INK = "#24424d"
TURN, TILT = math.radians(25), math.radians(18)


def seen(corner, shorter=1):
    """From a little above, turned a little; y grows downward on paper, the third number away from the eye. Heights are so many times shorter."""
    x, y, z = corner
    across, deep = x * math.cos(TURN) - y * math.sin(TURN), x * math.sin(TURN) + y * math.cos(TURN)
    return across, -(z / shorter * math.cos(TILT) + deep * math.sin(TILT)), deep * math.cos(TILT) - z / shorter * math.sin(TILT)


def polygons(rows, points, place, outward=True):
    """The rows that turn to the eye, painted from the back. `points` are seen corners, `place` puts one on paper."""
    faces = []
    for row in rows:
        a, b, c = (points[number] for number in (row if outward else row[::-1]))
        turned = (b[0] - a[0]) * (c[1] - a[1]) - (b[1] - a[1]) * (c[0] - a[0])
        if turned < 0:
            area = abs(turned)
            across = abs((b[0] - a[0]) * (c[2] - a[2]) - (b[2] - a[2]) * (c[0] - a[0]))
            faces.append((max(p[2] for p in (a, b, c)), area / math.hypot(area, across), (a, b, c)))
    drawn = []
    for _, light, face in sorted(faces, key=lambda face: -face[0]):
        grey = int(150 + 95 * light)
        path = " ".join("%.1f,%.1f" % place(x, y) for x, y, _ in face)
        drawn.append(f'<polygon points="{path}" fill="rgb({grey - 30},{grey - 8},{grey})"/>')
    return f'<g stroke="{INK}" stroke-width="0.7" stroke-linejoin="round">\n' + "\n".join(drawn) + "\n</g>"

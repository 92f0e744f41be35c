"""The header's limits, and its units of a limit, by their names, and the one table of each in this package. A loaded library must carry the same
numbers."""
from types import SimpleNamespace

LIMITS = SimpleNamespace(
    LEAST_ROWS=4,
    MOST_ROWS=1024,
    LEAST_CORNERS=4,
    MOST_CORNERS=514,
    MOST_COORDINATE=50_000,
    WIDTH=10,
    FLIP_WIDTH=8,
    MOST_SHEET_BYTES=65_536,
    MOST_SHEET_ROWS=1024,
    MOST_SHEET_CORNERS=514,
    MOST_LOG_BYTES=65_536,
    MOST_JOB_BYTES=65_536,
    MOST_ENTRIES=32,
    MOST_DEPTH=8,
    MOST_TEXT=65_536,
)

MOST_SUM = 6 * LIMITS.MOST_ROWS * LIMITS.MOST_COORDINATE**3  # of an entry of a job: so many rows of six products at the coordinate limit

UNITS = SimpleNamespace(NO_LIMIT=0, METRES=1, FEET=2, CENTIMETRES=3, INTERNATIONAL_FEET=4)

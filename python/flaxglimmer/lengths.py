"""Typed lengths: a limit as the library takes it, and lengths taken exactly. A unit is always typed, and none is guessed."""
import re
from fractions import Fraction

from .header import UNITS as NUMBERS
from .refusals import UsageFault

# in each unit of a file
CENTIMETRES = {"mm": Fraction(1, 10), "cm": Fraction(1), "m": Fraction(100), "ft": Fraction(120_000, 3937), "ift": Fraction(3048, 100)}
UNITS = {"m": NUMBERS.METRES, "ft": NUMBERS.FEET, "cm": NUMBERS.CENTIMETRES, "ift": NUMBERS.INTERNATIONAL_FEET}  # of a limit
FEET = {"ft": "survey feet of 1200/3937 m", "ift": "international feet of 30.48 cm"}

UNIT = r"\s*((?<=\s)ift|(?!ift)[a-z]+)\s*"  # a blank stands before ift: 3ift and 31ft look alike
FIGURE = re.compile(r"\s*([+-]?(?:\d{1,40}(?:\.\d{0,40})?|\.\d{1,40})(?:[eE][+-]?\d{1,4})?)" + UNIT, re.ASCII)
DECIMAL = re.compile(r"\s*(\d{1,20}(?:\.\d{1,20})?)" + UNIT, re.ASCII)


def order(limit) -> tuple[int, float]:
    """Unit and figure of an order: None or 'none', a text as '0.3 m', or ('m', 0.3). The figure is the binary64 nearest to the text; the library
    alone reads it."""
    if limit is None or limit == "none":
        return NUMBERS.NO_LIMIT, 0.0
    if isinstance(limit, str):
        typed = FIGURE.fullmatch(limit)
        figure, unit = typed.groups() if typed else (0, None)
    else:
        unit, figure = limit if isinstance(limit, tuple) and len(limit) == 2 else (None, 0)
    if unit not in UNITS:
        raise UsageFault(f"{limit!r} is no limit: a figure and its unit, as '0.3 m', '30 cm', '4.75 ft' in survey feet or, with a blank, '4.75 ift' in international feet, or none")
    return UNITS[unit], float(figure)


def which(typed) -> str:
    """Behind a unit, a length or a limit, where it is in feet: which feet they are."""
    unit = typed[0] if isinstance(typed, tuple) else re.search("[a-z]*$", str(typed).strip())[0]
    return f" ({FEET[unit]})" if unit in FEET else ""


def told(typed: str) -> str:
    """A length or a limit as it was typed, and which feet they are."""
    return " ".join(typed.split()) + which(typed)


def known(unit: str) -> str:
    """A unit of a file, or UsageFault."""
    if unit not in CENTIMETRES:
        raise UsageFault(f"{unit!r} is no unit: these are {', '.join(one + which(one) for one in CENTIMETRES)}")
    return unit


def millimetres(text: str) -> Fraction:
    """A typed decimal and its unit, as '30 m', taken exactly."""
    typed = DECIMAL.fullmatch(text)
    if not typed or typed[2] not in CENTIMETRES:
        raise UsageFault(f"{text!r} is no length: a decimal and its unit, as '30 m', '3000 mm', '98.5 ft' in survey feet or, with a blank, '98.5 ift' in international feet")
    if Fraction(typed[1]) == 0:
        raise UsageFault(f"{text!r}: a length above zero is needed")
    return Fraction(typed[1]) * CENTIMETRES[typed[2]] * 10

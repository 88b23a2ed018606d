"""Patterns of dates: what each directive prints of a moment, and which are refused (docs/language/filters.md)."""
import re
from dataclasses import dataclass
from typing import Optional

from .faults import Fault
from .moments import MONTHS
from .values import whole

DAYS = ("Monday", "Tuesday", "Wednesday", "Thursday", "Friday", "Saturday", "Sunday")
# a flag, a width, colons, the dot of %.f with its width, and the letter; any of them may be missing, and what has no letter is refused
DIRECTIVE = re.compile(r"%([-_0^#]?)([0-9]*)(:{0,3})((?:\.[0-9]*(?=f))?)(.?)", re.S)
MOST_WIDTH = 255
# so many digits a number is filled up to at most
MOST_FILLED = 20
# so many places a fraction has at most
MOST_PLACES = 9

NUMBERS = {
    "Y": lambda moment: moment.year,
    "y": lambda moment: moment.year % 100,
    "C": lambda moment: moment.year // 100,
    "G": lambda moment: moment.week_year,
    "g": lambda moment: moment.week_year % 100,
    "q": lambda moment: moment.quarter,
    "m": lambda moment: moment.clock.month,
    "d": lambda moment: moment.clock.day,
    "e": lambda moment: moment.clock.day,
    "j": lambda moment: moment.day_of_year,
    "U": lambda moment: moment.week_from_sunday,
    "W": lambda moment: moment.week_from_monday,
    "V": lambda moment: moment.clock.isocalendar().week,
    "u": lambda moment: moment.clock.isoweekday(),
    "w": lambda moment: moment.clock.isoweekday() % 7,
    "H": lambda moment: moment.clock.hour,
    "k": lambda moment: moment.clock.hour,
    "I": lambda moment: moment.hour_of_twelve,
    "l": lambda moment: moment.hour_of_twelve,
    "M": lambda moment: moment.clock.minute,
    "S": lambda moment: moment.clock.second,
    "s": lambda moment: moment.seconds,
}
# to how many characters a number is filled up by itself, where not to two, and which numbers are filled up by spaces
WIDTHS = {"Y": 4, "G": 4, "j": 3, "C": 0, "q": 0, "u": 0, "w": 0, "s": 0}
SPACED = "Ceklsuw"

NAMES = {
    "A": lambda moment: DAYS[moment.clock.weekday()],
    "a": lambda moment: DAYS[moment.clock.weekday()][:3],
    "B": lambda moment: MONTHS[moment.clock.month - 1],
    "b": lambda moment: MONTHS[moment.clock.month - 1][:3],
    "h": lambda moment: MONTHS[moment.clock.month - 1][:3],
    "p": lambda moment: "AM" if moment.clock.hour < 12 else "PM",
    "P": lambda moment: "am" if moment.clock.hour < 12 else "pm",
    "Z": lambda moment: offset_text(moment, 3) if moment.offset else "UTC",
}
COMPOSED = {
    "F": "%Y-%m-%d",
    "D": "%m/%d/%y",
    "T": "%H:%M:%S",
    "X": "%H:%M:%S",
    "R": "%H:%M",
    "r": "%-I:%M:%S %p",
    "c": "%Y M%m %-d, %a %H:%M:%S",
    "x": "%Y M%m %-d",
}
# which of the names, and of the composed, the flag ^ writes in upper case, and # in lower case
UPPER = "AaBbhpPc"
LOWER = "pZ"
FIXED = {"n": "\n", "t": "\t", "%": "%"}


@dataclass
class Directive:
    """What stands between a % and its letter. For %.f the letter is ".f", and the width is the one after the dot."""

    flag: str
    width: Optional[int]
    colons: int
    letter: str


def printed(moment, pattern):
    return DIRECTIVE.sub(lambda found: directive_text(moment, read_directive(*found.groups())), pattern)


def read_directive(flag, digits, colons, dot, letter):
    # before a dot a width changes nothing, and yet it may be too great
    width = read_width(digits)
    if dot:
        return Directive(flag, read_width(dot[1:]), len(colons), ".f")
    return Directive(flag, width, len(colons), letter)


def read_width(digits):
    """The width that the digits write, None where there are none."""
    width = whole(digits)
    if digits and (width is None or width > MOST_WIDTH):
        raise Fault("DateFormat")
    return width


def directive_text(moment, directive):
    if directive.letter not in PRINTERS:
        raise Fault("DateFormat")
    return PRINTERS[directive.letter](moment, directive)


def number_text(moment, directive):
    letter, flag = directive.letter, directive.flag
    number = NUMBERS[letter](moment)
    if flag == "-":
        return str(number)
    width = WIDTHS.get(letter, 2) if directive.width is None else directive.width
    sign, digits = "-" if number < 0 else "", str(abs(number))
    if flag == "_" or flag != "0" and letter in SPACED:
        # before a sign any width is filled up
        return (sign + digits).rjust(width if sign else min(width, MOST_FILLED))
    return sign + digits.rjust(min(width - len(sign), MOST_FILLED), "0")


def name_text(moment, directive):
    return in_case(NAMES[directive.letter](moment), directive)


def composed_text(moment, directive):
    """The text of the pattern that the letter stands for. Only the day's name in %c has small letters, so a flag reaches nothing else."""
    return in_case(printed(moment, COMPOSED[directive.letter]), directive)


def in_case(text, directive):
    if directive.flag == "^" and directive.letter in UPPER:
        return text.upper()
    return text.lower() if directive.flag == "#" and directive.letter in LOWER else text


def fixed_text(_moment, directive):
    return FIXED[directive.letter]


def fraction_text(_moment, directive):
    """Zeros, as every date has whole seconds."""
    places = {"f": 1, "N": MOST_PLACES}[directive.letter] if directive.width is None else directive.width
    if places == 0:
        raise Fault("DateFormat")
    return "0" * min(places, MOST_PLACES)


def dotted_fraction_text(_moment, directive):
    return "." + "0" * min(directive.width, MOST_PLACES) if directive.width else ""


def zone_text(moment, directive):
    return offset_text(moment, directive.colons)


def zone_name_text(moment, directive):
    """A name, which offset 0 alone has, or the offset."""
    if directive.colons > 1:
        raise Fault("DateFormat")
    return offset_text(moment, directive.colons) if moment.offset else "UTC"


def offset_text(moment, colons):
    """The offset in the form of so many colons. That of three leaves out the minutes where there are none."""
    sign = "-" if moment.offset < 0 else "+"
    hours, minutes = (f"{part:02}" for part in divmod(abs(moment.offset), 60))
    shortest = hours if minutes == "00" else f"{hours}:{minutes}"
    return sign + (f"{hours}{minutes}", f"{hours}:{minutes}", f"{hours}:{minutes}:00", shortest)[colons]


PRINTERS = {
    **dict.fromkeys(NUMBERS, number_text),
    **dict.fromkeys(NAMES, name_text),
    **dict.fromkeys(COMPOSED, composed_text),
    **dict.fromkeys(FIXED, fixed_text),
    "f": fraction_text,
    "N": fraction_text,
    ".f": dotted_fraction_text,
    "z": zone_text,
    "Q": zone_name_text,
}

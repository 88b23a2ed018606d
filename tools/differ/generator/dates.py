"""Dates by a seed, and patterns by which they are printed: text and directives."""
from . import samples

MONTHS = ("Jan", "Feb", "Mar", "Apr", "May", "Jun", "Jul", "Aug", "Sep", "Oct", "Nov", "Dec")
DAYS = (1, 1, 2, 3, 4, 5, 6, 7, 9, 10, 15, 20, 27, 28, 29, 30, 31)
TIMES = ("00:00:00", "23:59:59", "12:00:00", "00:59:00", "11:30:07", "13:05:10", "09:08:07", "20:45:01")
OFFSETS = ("+0000", "+0000", "-0000", "+0030", "-0030", "+0100", "-0100", "+0545", "-0930", "+1200", "-2300", "+2359", "-2359", "+0001")

# those that have more forms than others stand more than once
LETTERS = "YyCGgqmBbhdejUWVAauwHkIlpPMSsssffffNNzzZZZQQFDTXRrccxnt%"
# what these print depends on a flag, and on a width beside it, in a way of their own
FLAGGED = "scpPZ"
FLAGS = "-_0^#"
WIDTHS = ("0", "1", "2", "3", "4", "5", "6", "9", "10", "12", "15", "19", "20", "20", "21", "30", "100", "255", "007")
COLONS = (":", "::", ":::")
# a fraction's dot and the width after it
DOTS = (".", ".", ".0", ".1", ".3", ".9", ".10", ".30", ".255", ".003")
TEXTS = (" ", " ", "-", "/", ", ", ":", ".", "5", "0", "f", "Y", "T", "week ", "é", "日", "\u00a0", "<b>", "_", "^", "#", "\n")
# for these a pattern is refused, but for a few where what stands after them makes a directive of them
REFUSED = (
    "%", "%-", "%5", "%:", "%0:", "%E", "%i", "%J", "%K", "%L", "%O", "%o", "%v", "%+", "%é", "%日", "% ", "%.", "%.3", "%5.", "%.N", "%.3N", "%.-f", "%.:f", "%..f",
    "%--d", "%_^A", "%^#p", "%-_5d", "%0-d", "%3-d", "%:5z", "%:-z", "%::::", "%::::z", "%::Q", "%:::Q", "%0f", "%00f", "%-0N", "%0N", "%256", "%256d", "%0256Y", "%1000n",
    "%.256f", "%256.f", "%99999999999999999999", "%18446744073709551616S", "%%%",
)


def date_of(rng):
    """A text that writes a date, but where the month has no such day."""
    year = rng.choice((1, 9998, rng.randrange(1, 1000), rng.randrange(1, 9999), rng.randrange(1900, 2100), rng.randrange(1900, 2100)))
    month, day = rng.randrange(12), rng.choice(DAYS)
    spellings = (f"{day} {MONTHS[month]} {year:04}", f"{day:02} {MONTHS[month]} {year:04}", f"{year:04}-{month + 1:02}-{day:02}")
    return f"{rng.choice(spellings)} {rng.choice(TIMES)} {rng.choice(OFFSETS)}"


def pattern_of(rng, is_refused):
    """A pattern; where it should be refused, with a part for which it mostly is."""
    if rng.random() < 0.15:
        return rng.choice(samples.PATTERNS)
    parts = [rng.choice(TEXTS) if rng.random() < 0.3 else directive_of(rng) for _ in range(rng.choice((1, 1, 2, 3, 4, 6)))]
    if is_refused:
        parts.insert(rng.randrange(len(parts) + 1), rng.choice(REFUSED))
    return "".join(parts)


def directive_of(rng):
    letter = rng.choice(LETTERS)
    rate = 0.7 if letter in FLAGGED else 0.35
    flag = rng.choice(FLAGS) if rng.random() < rate else ""
    width = rng.choice(WIDTHS) if rng.random() < rate else ""
    colons = rng.choice(COLONS) if rng.random() < 0.1 else ""
    if letter in "zQ" and rng.random() < 0.6:
        colons = rng.choice(COLONS if letter == "z" else COLONS[:1])
    if letter == "f" and rng.random() < 0.5:
        letter = rng.choice(DOTS) + letter
    # hardly ever one that is too great
    width = "256" if rng.random() < 0.002 else width
    return f"%{flag}{width}{colons}{letter}"

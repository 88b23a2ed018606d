"""Moments, and which texts are dates that write one (docs/language/filters.md)."""
import re
from dataclasses import dataclass
from datetime import datetime, timedelta, timezone

MONTHS = ("January", "February", "March", "April", "May", "June", "July", "August", "September", "October", "November", "December")
SHORT_MONTHS = tuple(month[:3] for month in MONTHS)
CLOCK = r"([0-9]{2}):([0-9]{2}):([0-9]{2}) ([+-])([0-9]{2})([0-9]{2})"
SPOKEN = re.compile(rf"([0-9]{{1,2}}) ({'|'.join(SHORT_MONTHS)}) ([0-9]{{4}}) {CLOCK}")
PLAIN = re.compile(rf"([0-9]{{4}})-([0-9]{{2}})-([0-9]{{2}}) {CLOCK}")
START = datetime(1970, 1, 1, tzinfo=timezone.utc)
# after so many years, which are so many seconds, the calendar begins anew, with the same days of the week
CYCLE = 400
CYCLE_SECONDS = 146_097 * 86_400


@dataclass
class Moment:
    """A day and a time at an offset.

    Python has no year 0, which a zone may lead to. So the clock stands in another cycle of the calendar, about the years 400 to 799.
    """

    clock: datetime
    # how many cycles the clock is behind
    cycles: int

    @property
    def year(self):
        return self.clock.year + self.cycles * CYCLE

    @property
    def week_year(self):
        """The year of the week by ISO 8601."""
        return self.clock.isocalendar().year + self.cycles * CYCLE

    @property
    def quarter(self):
        return (self.clock.month + 2) // 3

    @property
    def day_of_year(self):
        return self.clock.timetuple().tm_yday

    @property
    def week_from_sunday(self):
        """The week of the year, which is 0 before its first Sunday."""
        return (self.day_of_year + 6 - self.clock.isoweekday() % 7) // 7

    @property
    def week_from_monday(self):
        """The week of the year, which is 0 before its first Monday."""
        return (self.day_of_year + 6 - self.clock.weekday()) // 7

    @property
    def hour_of_twelve(self):
        return self.clock.hour % 12 or 12

    @property
    def seconds(self):
        """The seconds since 1970 began at offset 0."""
        return (self.clock - START) // timedelta(seconds=1) + self.cycles * CYCLE_SECONDS

    @property
    def offset(self):
        """The minutes of the offset."""
        return self.clock.utcoffset() // timedelta(minutes=1)

    def at_offset(self, hours):
        return Moment(self.clock.astimezone(timezone(timedelta(hours=hours))), self.cycles)


def read_date(value):
    """The moment that a text writes, None where it is no date."""
    if not isinstance(value, str):
        return None
    spoken, plain = SPOKEN.fullmatch(value), PLAIN.fullmatch(value)
    if spoken:
        day, month, year, *clock = spoken.groups()
        return dated(year, SHORT_MONTHS.index(month) + 1, day, *clock)
    return dated(*plain.groups()) if plain else None


def dated(year, month, day, hour, minute, second, sign, hours, minutes):
    if int(hours) > 23 or int(minutes) > 59 or not 1 <= int(year) <= 9998:
        return None
    offset = timedelta(hours=int(hours), minutes=int(minutes))
    zone = timezone(-offset if sign == "-" else offset)
    cycles, year_in_cycle = divmod(int(year), CYCLE)
    try:
        clock = datetime(CYCLE + year_in_cycle, int(month), int(day), int(hour), int(minute), int(second), tzinfo=zone)
    except ValueError:
        return None
    return Moment(clock, cycles - 1)

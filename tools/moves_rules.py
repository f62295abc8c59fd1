"""Carries and measures by the rules of docs/RULES.md, written apart from the library's code, for tools/board_rules.py.

Each answer is searched for as the rules put it: days are tried one by one, and so are years and months. Hebrew years are computed
from their moladot, with the four postponements one by one. Zone files are judged by tools/zone_tables.py.
"""
import bisect
import functools
import re
import struct

from zone_tables import first_wrong

FIRST, LAST = -62135510400000000, 253402214399999999
DAY_LAST = 3652059
DAY_MICROS = 86400 * 1000000


class Refused(Exception):
    pass


class Gregorian:
    first, last = 1, 9999

    def lengths(self, year):
        leap = year % 4 == 0 and (year % 100 != 0 or year % 400 == 0)
        return [31, 29 if leap else 28, 31, 30, 31, 30, 31, 31, 30, 31, 30, 31]

    def start(self, year):
        before = year - 1
        return before * 365 + before // 4 - before // 100 + before // 400 + 1

    def twin(self, year, month, other):
        return month


class Hebrew:
    first, last = 3761, 13760
    COMMON = "Tishri Heshvan Kislev Tevet Shevat Adar Nisan Iyar Sivan Tammuz Av Elul".split()
    LEAP = COMMON[:5] + ["Adar I", "Adar II"] + COMMON[6:]

    def leap(self, year):
        return (year - 1) % 19 + 1 in (3, 6, 8, 11, 14, 17, 19)

    @functools.cache
    def start(self, year):
        cycles, rest = divmod(year - 1, 19)
        months = cycles * 235 + sum(13 if self.leap(y) else 12 for y in range(1, rest + 1))
        # hours from 6 in the evening before, 1080 parts each; the first molad is on a Monday (day 1, where Sunday is 0), at 5 h 204 p
        parts = 1080 * (24 + 5) + 204 + months * (1080 * (29 * 24 + 12) + 793)
        day, part = divmod(parts, 1080 * 24)
        week = day % 7
        if part >= 1080 * 18:
            day += 1
        elif week == 2 and part >= 1080 * 9 + 204 and not self.leap(year):
            day += 1
        elif week == 1 and part >= 1080 * 15 + 589 and self.leap(year - 1) and not self.leap(year):
            day += 1
        if day % 7 in (0, 3, 5):
            day += 1
        return day - 1 - 1373427

    def lengths(self, year):
        days = self.start(year + 1) - self.start(year)
        second, third = 30 if days % 10 == 5 else 29, 29 if days % 10 == 3 else 30
        adar = [30, 29] if self.leap(year) else [29]
        return [30, second, third, 29, 30] + adar + [30, 29, 30, 29, 30, 29]

    def twin(self, year, month, other):
        name = (self.LEAP if self.leap(year) else self.COMMON)[month - 1]
        names = self.LEAP if self.leap(other) else self.COMMON
        if name in names:
            return names.index(name) + 1
        return names.index("Adar II" if name == "Adar" else "Adar") + 1


def date_of(calendar, day):
    low, high = calendar.first, calendar.last
    while low < high:
        middle = (low + high + 1) // 2
        low, high = (middle, high) if calendar.start(middle) <= day else (low, middle - 1)
    rest = day - calendar.start(low)
    for month, length in enumerate(calendar.lengths(low), 1):
        if rest < length:
            return low, month, rest + 1
        rest -= length


def day_of(calendar, year, month, day):
    number = calendar.start(year) + sum(calendar.lengths(year)[: month - 1]) + day - 1
    if not 1 <= number <= DAY_LAST:
        raise Refused("no 9 0 0 0")
    return number


def is_past(way, date, goal):
    """Whether a date, its day uncut, is past another in a direction."""
    return date > goal if way > 0 else date < goal


class Zone:
    """A zone by its first offset and its changes; of a bad file it has neither, and is blank."""

    def __init__(self, first, changes):
        self.first, self.seconds, self.offsets = first, [s for s, _ in changes], [o for _, o in changes]

    def offset(self, second):
        if self.first is None:
            raise Refused("no 11 0 1 2")
        at = bisect.bisect_right(self.seconds, second)
        return self.offsets[at - 1] if at else self.first

    def meet(self, local):
        """The instant, in seconds, of a local time's count: the first that shows it, or by the offset from before the gap."""
        shown = [i for o in {self.offset(local), self.first, *self.offsets} for i in [local - o] if i + self.offset(i) == local]
        if shown:
            return min(shown)
        passed = next(s for s in self.seconds if s > local - 86400 and s + self.offset(s) > local)
        return local - self.offset(passed - 1)


def zone_of_bytes(data):
    """The zone of a file's bytes."""
    if first_wrong(data) is not None:
        return Zone(None, [])
    isut, isstd, leap, times, types, chars = struct.unpack(">6I", data[20:44])
    at = 44 + times * 5 + types * 6 + chars + leap * 8 + isstd + isut
    times, types = struct.unpack(">2I", data[at + 32 : at + 40])
    at += 44
    seconds = struct.unpack(f">{times}q", data[at : at + 8 * times])
    indexes = data[at + 8 * times : at + 9 * times]
    offsets = [struct.unpack(">i", data[k : k + 4])[0] for k in range(at + 9 * times, at + 9 * times + 6 * types, 6)]
    return Zone(offsets[0], [(s, offsets[i]) for s, i in zip(seconds, indexes)])


STEP_ZONES = {"UTC": Zone(0, []), "Test/H": Zone(3600, [(1000000, 7200), (2000000, 3600)])}


CALENDARS = {"iso8601": Gregorian(), "hebrew": Hebrew()}
SPAN = re.compile(r"(-?)P(?:(\d+)Y)?(?:(\d+)M)?(?:(\d+)W)?(?:(\d+)D)?(?:T(?:(\d+)H)?(?:(\d+)M)?(?:(\d+)(?:\.(\d+))?S)?)?")


def read_span(text):
    sign, *numbers, fraction = SPAN.fullmatch(text).groups()
    years, months, weeks, days, hours, minutes, seconds = (int(n or 0) for n in numbers)
    time = (hours * 3600 + minutes * 60 + seconds) * 1000000 + int((fraction or "").ljust(6, "0"))
    return [(-n if sign else n) for n in (years, months, weeks, days, time)]


def write_span(years, months, weeks, days, time):
    parts = [years, months, weeks, days, time]
    text = "".join(f"{abs(n)}{letter}" for n, letter in zip(parts, "YMWD") if n)
    seconds, micros = divmod(abs(time), 1000000)
    hours, minutes, seconds = seconds // 3600, seconds // 60 % 60, seconds % 60
    clock = f"{hours}H" * (hours > 0) + f"{minutes}M" * (minutes > 0)
    if micros:
        clock += f"{seconds}.{micros:06}".rstrip("0") + "S"
    elif seconds:
        clock += f"{seconds}S"
    if not text and not clock:
        return "PT0S"
    return ("-" if min(parts) < 0 else "") + "P" + text + ("T" + clock if clock else "")


class Setting:
    def __init__(self, zone, calendar):
        self.zone, self.calendar = zone, calendar

    def arrive(self, instant):
        if not FIRST <= instant <= LAST:
            raise Refused("no 10 0 0 0")
        self.zone.offset(instant // 1000000)
        return instant

    def local(self, instant):
        """The day number and the microseconds of the day."""
        second, micros = divmod(self.arrive(instant), 1000000)
        days, clock = divmod(second + self.zone.offset(second), 86400)
        return days + 719163, clock * 1000000 + micros

    def meet(self, day, clock):
        if not 1 <= day <= DAY_LAST:
            raise Refused("no 9 0 0 0")
        second, micros = divmod(clock, 1000000)
        return self.zone.meet((day - 719163) * 86400 + second) * 1000000 + micros

    def year_on(self, year, month, years):
        if not self.calendar.first <= year + years <= self.calendar.last:
            raise Refused("no 9 0 0 0")
        return year + years, self.calendar.twin(year, month, year + years)

    def months_on(self, year, month, months):
        step = 1 if months > 0 else -1
        for _ in range(abs(months)):
            month += step
            if month == 0:
                year -= 1
            elif month > len(self.calendar.lengths(year)):
                year, month = year + 1, 1
            if not self.calendar.first <= year <= self.calendar.last:
                raise Refused("no 9 0 0 0")
            if month == 0:
                month = len(self.calendar.lengths(year))
        return year, month

    def cut_day(self, year, month, day):
        return day_of(self.calendar, year, month, min(day, self.calendar.lengths(year)[month - 1]))

    def carry(self, instant, span):
        years, months, weeks, days, time = span
        day, clock = self.local(instant)
        if not (years or months or weeks or days):
            return self.arrive(instant + time)
        year, month, day = date_of(self.calendar, day)
        arrived = self.cut_day(*self.months_on(*self.year_on(year, month, years), months), day)
        return self.arrive(self.meet(arrived + 7 * weeks + days, clock) + time)

    def farthest(self, a, b, way):
        """The days to the farthest day whose reach does not pass b, and the reach; a zone blank in some places is not provided for."""
        day, clock = self.local(a)
        days = abs(self.local(b)[0] - day) + 2
        while days > 0:
            try:
                reach = self.meet(day + way * days, clock)
                if way * reach <= way * b:
                    return days, reach
            except Refused:
                pass
            days -= 1
        return 0, a

    def dates(self, start, end, way, unit):
        """Years, months, weeks and days from one day to another."""
        if unit == "day":
            return 0, 0, 0, end - start
        if unit == "week":
            return 0, 0, way * (abs(end - start) // 7), way * (abs(end - start) % 7)
        year, month, day = date_of(self.calendar, start)
        goal = date_of(self.calendar, end)
        years = 0
        if unit == "year":
            years = abs(goal[0] - year)
            while is_past(way, (*self.year_on(year, month, way * years), day), goal):
                years -= 1
        at = self.year_on(year, month, way * years)
        months = 0
        while True:
            try:
                further = self.months_on(*at, way)
            except Refused:
                break
            if is_past(way, (*further, day), goal):
                break
            at, months = further, months + 1
        return way * years, way * months, 0, end - self.cut_day(*at, day)

    def measure(self, a, unit, b):
        self.arrive(a), self.arrive(b)
        if a == b:
            return 0, 0, 0, 0, 0
        if unit == "hour":
            return 0, 0, 0, 0, b - a
        way = 1 if b > a else -1
        days, reach = self.farthest(a, b, way)
        start = self.local(a)[0]
        return *self.dates(start, start + way * days, way, unit), b - reach

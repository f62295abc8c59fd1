"""Reads and writes mark texts by the rules of docs/RULES.md, written apart from the library's code, for tools/board_rules.py.

The form is one regular expression; whether a beginning is viable is tried, by ending it in each way that a text can end. Dates are
those of Python's datetime.
"""
import datetime
import re

from moves_rules import FIRST, LAST, Refused

LIMIT = 128
ZONES = {"UTC", "Test/H", "Site/One", "Site/Two"}
CALENDARS = {"iso8601", "hebrew"}
DAY_OF_1970 = datetime.date(1970, 1, 1).toordinal()

NAME = r"[A-Za-z_.][-A-Za-z0-9._+/]*"
TAG = r"\[(!?)([a-z_][-a-z0-9_]*)=([A-Za-z0-9]+(?:-[A-Za-z0-9]+)*)\]"
FORM = re.compile(
    r"(\d{4})-(\d\d)-(\d\d)T(\d\d):(\d\d):(\d\d)(?:\.(\d{1,6}))?(?:Z|([-+])(\d\d):(\d\d)(?::(\d\d))?)"
    + rf"\[!?({NAME})\]((?:{TAG})*)",
    re.ASCII,
)
# every viable beginning is whole with one of these after it
ENDINGS = [whole[at:] for whole in ("0000-00-00T00:00:00Z[a]", "00:00[a]", "a=a]") for at in range(len(whole) + 1)]


def refuse(number, place):
    raise Refused(f"no {number} {place} 0 0")


def longest_viable(form, endings, text):
    """The length of the longest beginning that a text of the form has, where each one is whole with one of the endings after it."""
    return max(k for k in range(len(text) + 1) if any(form.fullmatch(text[:k] + ending) for ending in endings))


def judge_date(year, month, day):
    if year == 0:
        refuse(4, 0)
    if not 1 <= month <= 12:
        refuse(4, 5)
    try:
        return datetime.date(year, month, day).toordinal()
    except ValueError:
        refuse(4, 8)


def judge_clock(fields, place):
    """Seconds of three fields; an hour, a minute and a second stand three places apart."""
    for at, (field, high) in enumerate(zip(fields, (23, 59, 59))):
        if field > high:
            refuse(4, place + 3 * at)
    hour, minute, second = fields
    return hour * 3600 + minute * 60 + second


def said_offset(match):
    """The offset in seconds, or none where the text leaves it open."""
    sign, hours, minutes, seconds = match.group(8, 9, 10, 11)
    if sign is None or (sign, hours, minutes, seconds) == ("-", "00", "00", None):
        return None
    size = judge_clock((int(hours), int(minutes), int(seconds or 0)), match.start(8) + 1)
    return -size if sign == "-" else size


def named_calendar(match):
    """The calendar's name and its place, of the first `u-ca`; tags are judged on the way."""
    first = None
    for tag in re.compile(TAG).finditer(match.string, match.start(13)):
        critical, key, _ = tag.groups()
        if key == "u-ca" and first is None:
            first = tag
        elif critical or (key == "u-ca" and first.group(1)):
            refuse(5, tag.start())
    return (first.group(3), first.start(3)) if first else ("iso8601", len(match.string))


def signed_clock(offset):
    minutes, seconds = divmod(abs(offset), 60)
    return ("-" if offset < 0 else "+") + f"{minutes // 60:02}:{minutes % 60:02}" + (f":{seconds:02}" if seconds else "")


def canonical(zone_named, mark):
    """The canonical text of a mark, which is an instant and the names of its zone and its calendar."""
    instant, zone, calendar = mark
    second, micros = divmod(instant, 1000000)
    offset = zone_named(zone).offset(second)
    days, clock = divmod(second + offset, 86400)
    date = datetime.date.fromordinal(days + DAY_OF_1970)
    text = f"{date.year:04}-{date.month:02}-{date.day:02}T{clock // 3600:02}:{clock // 60 % 60:02}:{clock % 60:02}"
    text += f".{micros:06}".rstrip("0") if micros else ""
    return text + signed_clock(offset) + f"[{zone}]" + (f"[u-ca={calendar}]" if calendar != "iso8601" else "")


def read(zone_named, text):
    """The mark that a text says, where zone_named gives the zone of a name."""
    match = FORM.fullmatch(text)
    if not match or len(text) > LIMIT:
        refuse(3, min(longest_viable(FORM, ENDINGS, text), LIMIT))
    day = judge_date(*map(int, match.group(1, 2, 3)))
    clock = judge_clock(tuple(map(int, match.group(4, 5, 6))), 11)
    said = said_offset(match)
    calendar, calendar_place = named_calendar(match)
    zone = match.group(12)
    if zone not in ZONES:
        refuse(6, match.start(12))
    if calendar not in CALENDARS:
        refuse(7, calendar_place)
    second = (day - DAY_OF_1970) * 86400 + clock - (said or 0)
    instant = second * 1000000 + int((match.group(7) or "").ljust(6, "0"))
    if not FIRST <= instant <= LAST:
        refuse(10, 0)
    offset = zone_named(zone).offset(second)
    if said is not None and said != offset:
        refuse(12, match.start(8))
    return instant, zone, calendar

"""The times of messages, by a stamp at their beginning or by a member, as milliseconds since 1970. A time without a zone is one of this
machine's."""
import re
import time
from datetime import datetime, timedelta, timezone

# the latest time, in the year 2109: 42 bits
LATEST = (1 << 42) - 1
MONTHS = {name: place for place, name in enumerate("Jan Feb Mar Apr May Jun Jul Aug Sep Oct Nov Dec".split(), 1)}
# characters of a line within which a stamp is looked for
REACH = 72
ISO = re.compile(r"\b(\d{4}-\d\d-\d\d)[T ](\d\d:\d\d)(:\d\d)?(?:[.,](\d{1,9}))?(?: ?(Z|UTC|GMT|[+-]\d\d:?\d\d)\b)?")
SYSLOG = re.compile(r"(?:<\d{1,3}>)?(%s) {1,2}(\d{1,2}) (\d\d):(\d\d):(\d\d)(?:\.(\d{1,9}))?\b" % "|".join(MONTHS))
DAY_FIRST = re.compile(r"\b(\d\d)[ /](%s)[ /](\d{4})[: ](\d\d):(\d\d):(\d\d)(?:\.(\d{1,9}))?(?: ([+-]\d{4}))?" % "|".join(MONTHS))
EPOCH = re.compile(r"\[?(\d{10})(?:\.(\d{1,9})|(\d{3})|(\d{6}))?\b")
TWO_DAYS = 2 * 86_400_000
# what was computed before: the seconds of dates, and of the hours of stamps; emptied when it is full
CACHE, MOST_KEPT = {}, 20000


def within(milliseconds):
    """A time as a whole number from 1 to the latest one."""
    return min(max(int(milliseconds), 1), LATEST)


def thousandths(digits):
    """The milliseconds of the digits behind a point."""
    return int((digits + "00")[:3]) if digits else 0


def seconds_of(*parts, zone=None):
    """The second of a date and time, of a zone as `Z` or `+0200`, or of this machine's."""
    known = CACHE.get((parts, zone))
    if known is not None:
        return known
    try:
        moment = datetime(*parts)
        if zone:
            away = timedelta() if zone[0] in "ZUG" else (1 if zone[0] == "+" else -1) * timedelta(hours=int(zone[1:3]), minutes=int(zone[-2:]))
            found = int(moment.replace(tzinfo=timezone(away)).timestamp())
        else:
            found = int(time.mktime((*parts, 0, 0, -1)))
    except (ValueError, OverflowError):
        return None
    return kept((parts, zone), found)


def kept(key, value):
    """Keeps what was computed, and gives it."""
    if len(CACHE) >= MOST_KEPT:
        CACHE.clear()
    CACHE[key] = value
    return value


def of_iso(found):
    """The time of what ISO matched, or None. What is kept is the second in which an hour begins."""
    day, clock, second, part, zone = found.groups()
    hour, minute, second = clock[:2], int(clock[3:]), int(second[1:]) if second else 0
    begins = CACHE.get((day, hour, zone))
    if begins is None:
        begins = seconds_of(*map(int, day.split("-")), int(hour), 0, 0, zone=zone)
        if begins is None:
            return None
        kept((day, hour, zone), begins)
    if minute > 59 or second > 60:
        return None
    return (begins + minute * 60 + second) * 1000 + (thousandths(part) if part else 0)


def stamp(line, now):
    """The time that a line begins with, and the number of its first characters that are nothing but that; (None, 0) where it has none. `now` is
    the present, for a stamp without a year."""
    head = line[:REACH]
    found = ISO.search(head)
    if found:
        when = of_iso(found)
    else:
        found = SYSLOG.match(head)
        if found:
            month, day, *clock, part = found.groups()
            when = year_less(MONTHS[month], int(day), tuple(map(int, clock)), now)
        else:
            found = DAY_FIRST.search(head)
            if found:
                day, month, year, *clock, part, zone = found.groups()
                when = seconds_of(int(year), MONTHS[month], int(day), *map(int, clock), zone=zone)
            else:
                found = EPOCH.match(head)
                if not found:
                    return None, 0
                whole, part, more, most = found.groups()
                when, part = int(whole), part or more or most
        when = None if when is None else when * 1000 + thousandths(part)
    if when is None:
        return None, 0
    end, before = found.end(), head[:found.start()]
    if before.strip("[(<1234567890> "):
        return within(when), 0
    while end < len(line) and line[end] in " ])\t:" + (">" if before.endswith("<") else ""):
        end += 1
    return within(when), end


def year_less(month, day, clock, now):
    """The second of a date without a year: of the last year in which it isn't two days ahead."""
    year = time.localtime(now / 1000).tm_year
    for each in (year + 1, year, year - 1):
        when = seconds_of(each, month, day, *clock)
        if when is not None and when * 1000 < now + TWO_DAYS:
            return when
    return None


def of_number(value):
    """The time of a number: seconds, milliseconds, microseconds or nanoseconds by its size."""
    if not 1e8 <= value < 1e20:
        return None
    while value >= 1e14:
        value = value / 1000 if isinstance(value, float) else value // 1000
    return within(value if value >= 1e11 else value * 1000)


def of_member(value):
    """The time of a member, or None."""
    if isinstance(value, bool):
        return None
    if isinstance(value, (int, float)):
        return of_number(value) if value == value else None
    if not isinstance(value, str) or len(value) > 64:
        return None
    if value.replace(".", "", 1).isdigit() and value.isascii():
        return of_number(float(value) if "." in value else int(value))
    found = ISO.match(value.strip()) or None
    when = of_iso(found) if found else stamp(value.strip(), time.time() * 1000)[0]
    return None if when is None else within(when)


def told(milliseconds):
    """A time as ISO 8601, in UTC."""
    return datetime.fromtimestamp(milliseconds / 1000, timezone.utc).strftime("%Y-%m-%dT%H:%M:%S.") + "%03dZ" % (milliseconds % 1000)

"""Times as people write them, in queries and ranges: `15m`, `12:00`, `2026-11-30T12:00`. Without a zone they are this machine's."""
import re
import time

from earlybird_logs.times import ISO, of_iso, of_number, within

AGO = re.compile(r"(\d{1,6})(s|m|h|d|w)", re.ASCII)
UNITS = {"s": 1000, "m": 60_000, "h": 3_600_000, "d": 86_400_000, "w": 7 * 86_400_000}
CLOCK = re.compile(r"\d\d:\d\d(:\d\d)?", re.ASCII)
DAY = re.compile(r"\d{4}-\d\d-\d\d", re.ASCII)
LONGEST = 64


def of_word(word, now):
    """The time that a word names, in milliseconds since 1970: so long ago (15m, 2h, 3d), a time of today (12:00), a date, a date with a
    time, `now`, or a number of seconds to nanoseconds since 1970; None where it names none. `now` is the present."""
    if len(word) > LONGEST:
        return None
    ago = AGO.fullmatch(word)
    if ago:
        return within(now - int(ago.group(1)) * UNITS[ago.group(2)])
    if word == "now":
        return within(now)
    if CLOCK.fullmatch(word):
        word = time.strftime("%Y-%m-%dT", time.localtime(now / 1000)) + word
    elif DAY.fullmatch(word):
        word += "T00:00"
    found = ISO.fullmatch(word)
    if found:
        when = of_iso(found)
        return None if when is None else within(when)
    return of_number(int(word)) if word.isascii() and word.isdigit() and len(word) < 20 else None

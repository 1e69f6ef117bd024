"""Why a call did nothing: an exception for each refusal of include/earlybird.h."""
from typing import Any, Dict, Tuple, Type


class Refused(Exception):
    """A call did nothing, and all is as before. `str()` of it is the refusal's name, as the program prints it; `detail` names the value that
    is refused, where this package looks at it, and is a note of the traceback then."""

    number = 0
    name = "refused"

    def __init__(self, detail: str = "") -> None:
        super().__init__(self.name)
        self.detail = detail
        if detail and hasattr(self, "add_note"):
            self.add_note(detail)

    def __reduce__(self) -> Tuple[Any, ...]:
        return type(self), (self.detail,)


class BadLine(Refused):
    """The line is no document line (it begins with `{`), or no query line (`?`, UTF-8), as the call wants one."""

    number, name = 1, "bad line"


class LongLine(Refused):
    """The line has more than 65,536 bytes."""

    number, name = 2, "long line"


class BadJson(Refused):
    """The line isn't one JSON value."""

    number, name = 3, "bad json"


class BadDocument(Refused):
    """There is no whole number from 0 to 2**64 - 1 as the id, or no string as the text."""

    number, name = 4, "bad document"


class TooLong(Refused):
    """The text has more than 1,024 words, or more than 16,384 bytes of them."""

    number, name = 5, "too long"


class Full(Refused):
    """There is no room for the message: the last segment has none, and all segments are begun."""

    number, name = 6, "full"


class BadNumber(Refused):
    """The number of matches that are wanted isn't one of 1 to 1,000."""

    number, name = 7, "bad number"


class BadQuery(Refused):
    """The query goes wrong at `column`, or ends too early there. Columns count bytes of UTF-8, from 1."""

    number, name = 8, "bad query"

    def __init__(self, column: int) -> None:
        super().__init__()
        self.column = column
        self.args = (column,)

    def __reduce__(self) -> Tuple[Any, ...]:
        return type(self), (self.column,)

    def __str__(self) -> str:
        return "bad query at %d" % self.column


class QueryTooDeep(Refused):
    """More than 16 parentheses and minuses are open."""

    number, name = 9, "query too deep"


class QueryTooLarge(Refused):
    """The query has more than 64 parts."""

    number, name = 10, "query too large"


class BadText(Refused):
    """The text has no UTF-8: a half of a surrogate pair stands in it."""

    number, name = 11, "bad text"


class NoMemory(Refused, MemoryError):
    """Memory ran out while a line, a text or a query was read."""

    number, name = 12, "no memory"


class BadSetting(Refused, ValueError):
    """The numbers are no setting that an index or a feed can have."""

    number, name = 13, "bad setting"


class BadHandle(Refused, ValueError):
    """The object is closed."""

    number, name = 16, "bad handle"


class BadReading(Refused, ValueError):
    """Lines can't be read so: a name of a field isn't one to 32 of `a` to `z`, `0` to `9` and `_`, or is `since`; there are more than 8 of
    them, or one stands twice; the name of a member is empty, or isn't UTF-8; or `words` is neither None nor `pieces`."""

    number, name = 17, "bad reading"


class WatchTaken(Refused):
    """A watch has the number of the one that is to be set."""

    number, name = 18, "watch taken"


class WatchesFull(Refused):
    """No watch has the number, and 10,000 are set."""

    number, name = 19, "watches full"


class NoWatch(Refused):
    """No watch has the number of the one that is to be removed."""

    number, name = 20, "no watch"


class BadImage(Refused, ValueError):
    """The file isn't a whole image, as `earlybird save` and an index with an `image` write it; `detail` says why."""

    number, name = 21, "bad image"


BY_NUMBER: Dict[int, Type[Refused]] = {
    it.number: it
    for it in (
        BadLine, LongLine, BadJson, BadDocument, TooLong, Full, BadNumber, QueryTooDeep, QueryTooLarge, BadText, NoMemory, BadSetting, BadHandle,
        BadReading, WatchTaken, WatchesFull, NoWatch, BadImage,
    )
}


def shown(value: Any) -> str:
    """A value in a few words, whatever it is."""
    if not isinstance(value, int):
        return "a %s" % type(value).__name__
    return str(value) if value.bit_length() <= 128 else "a number of %d bits" % value.bit_length()


def whole(value: Any, least: int, most: int, what: str, why: Type[Refused]) -> int:
    """A whole number from `least` to `most`; else the refusal, with what it is of."""
    if not (isinstance(value, int) and least <= value <= most):
        raise why("%s is %s, and not a whole number from %d to %d" % (what, shown(value), least, most))
    return value


def refusal(number: int, column: int) -> Refused:
    """The exception of a number that a call answered, which isn't 0."""
    if number == BadQuery.number:
        return BadQuery(column)
    return BY_NUMBER[number]()

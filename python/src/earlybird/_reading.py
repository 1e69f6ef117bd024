"""How lines and texts are read."""
import ctypes
import itertools
from typing import Any, Iterable, Optional

from earlybird import _library
from earlybird._refusals import BadReading, refusal

# More names than this are refused, however many.
MOST_FIELDS = 8


class Reading:
    """How lines and texts are read, as the library takes it, with the memory that it points to.

    Raises `BadReading` where it can't be read so.
    """

    def __init__(self, calls: ctypes.CDLL, fields: Iterable[str], words: Optional[str], id: Optional[str], text: Optional[str]) -> None:
        self._kept = (named(fields), member(id), member(text))
        self._how = _library.How()
        for name, data in zip(("fields", "id", "text"), self._kept):
            setattr(self._how, name, data)
            setattr(self._how, name + "_len", len(data))
        self._how.words = cut(words)
        self.at = ctypes.addressof(self._how)
        done = calls.eb_check_reading(self.at)
        if done:
            raise refusal(done, 0)


def text_of(name: Any, what: str) -> bytes:
    if not isinstance(name, str):
        raise TypeError("%s is a str, not a %s" % (what, type(name).__name__))
    try:
        return name.encode()
    except UnicodeEncodeError:
        raise BadReading() from None


def named(fields: Iterable[str]) -> bytes:
    """The names with commas between, none of them empty or with one in it."""
    if isinstance(fields, (str, bytes)):
        raise TypeError("fields are a list of names, not a %s" % type(fields).__name__)
    names = [text_of(name, "the name of a field") for name in itertools.islice(fields, MOST_FIELDS + 1)]
    if not all(name and b"," not in name for name in names):
        raise BadReading()
    return b",".join(names)


def member(name: Optional[str]) -> bytes:
    """The name of a member, which isn't empty; nothing where none is given."""
    if name is None:
        return b""
    data = text_of(name, "the name of a member")
    if not data:
        raise BadReading()
    return data


def cut(words: Optional[str]) -> int:
    """How texts are cut: by words, or by `pieces` of them."""
    if words not in (None, "pieces"):
        raise BadReading()
    return int(words == "pieces")

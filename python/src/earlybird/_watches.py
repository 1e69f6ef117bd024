"""Watches: standing queries."""
import ctypes
from typing import Iterable, List, Optional

from earlybird import _library
from earlybird._handles import Side
from earlybird._index import MOST_ID, bytes_of
from earlybird._reading import Reading
from earlybird._refusals import BadDocument, BadNumber, whole

MOST_WATCHES = 10_000
MOST_NUMBER = 2**32 - 1


class Watches(Side):
    """Watches: standing queries, each with a number from 0 to 2**32 - 1; `tell` answers which of them a message matches. They are apart
    from every index. Queries and messages are read as by an `Index` of the same `fields`, `words`, `id` and `text`. Any thread may call it.

    Raises `BadReading` where these are no way to read them, and `NoMemory`.

        >>> watches = Watches()
        >>> watches.set(7, "train -late")
        >>> watches.set(3, "train OR bus")
        >>> watches.tell(101, "Night train to Vienna")
        [3, 7]
    """

    def __init__(
        self, *, fields: Iterable[str] = (), words: Optional[str] = None, id: Optional[str] = None, text: Optional[str] = None
    ) -> None:
        super().__init__()
        self._reading = Reading(self._calls, fields, words, id, text)
        self._numbers, self._told = (ctypes.c_uint32 * MOST_WATCHES)(), _library.ToldWatches()
        self._room = (ctypes.addressof(self._numbers), MOST_WATCHES, ctypes.addressof(self._told))
        self._done(self._calls.eb_watches(self._at))

    def set(self, number: int, query: str) -> None:
        """Sets the watch of a number to a query.

        Raises `BadNumber` for another number, `WatchTaken` where a watch has it, `WatchesFull` where 10,000 are set, `BadHandle`, and what
        `Index.search` raises for its query; then the watches are as before.
        """
        whole(number, 0, MOST_NUMBER, "number", BadNumber)
        data, column = bytes_of(query), ctypes.c_uint64()
        with self._alone:
            self._done(self._calls.eb_watch_set(self._at, self._reading.at, number, data, len(data), ctypes.addressof(column)), column.value)

    def remove(self, number: int) -> None:
        """Removes the watch of a number.

        Raises `BadNumber` for another number, `NoWatch` where none has it, or `BadHandle`.

            >>> Watches().remove(7)
            Traceback (most recent call last):
                ...
            earlybird._refusals.NoWatch: no watch
        """
        whole(number, 0, MOST_NUMBER, "number", BadNumber)
        with self._alone:
            self._done(self._calls.eb_watch_remove(self._at, number))

    def tell(self, id: int, text: str) -> List[int]:
        """The numbers of the watches that the message of an id and a text matches, rising.

        Raises what `Index.add` raises but `Full`, or `BadHandle`.
        """
        whole(id, 0, MOST_ID, "id", BadDocument)
        data = bytes_of(text)
        with self._alone:
            self._done(self._calls.eb_watches_tell_text(self._at, self._reading.at, id, data, len(data), *self._room))
            return self._numbers[: self._told.written]

    def tell_line(self, line: bytes) -> List[int]:
        """The same for the message of a line of `earlybird run`, without its end.

        Raises what `Index.add_line` raises but `Full`, or `BadHandle`.
        """
        with self._alone:
            self._done(self._calls.eb_watches_tell_line(self._at, self._reading.at, line, len(line), *self._room))
            return self._numbers[: self._told.written]

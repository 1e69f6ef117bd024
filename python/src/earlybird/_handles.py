"""What is common to the objects that threads share, each of which has a handle."""
import ctypes
import threading
from typing import Any, Iterable, List, Optional, Tuple

from earlybird import _library
from earlybird._blocks import add_all
from earlybird._index import MOST_ID, MOST_IDS, Answer, Count, Histogram, at_least_one, bytes_of, counted
from earlybird._reading import Reading
from earlybird._refusals import BadDocument, BadNumber, Refused, refusal, whole


class Side:
    """A handle, which one call at a time has for itself: so any thread may call any of them."""

    def __init__(self) -> None:
        self._calls, self._handle, self._alone = _library.load(), _library.Handle(), threading.Lock()
        self._at = ctypes.addressof(self._handle)

    def _done(self, number: int, column: int = 0) -> None:
        if number:
            raise refusal(number, column)

    def close(self) -> None:
        """Closes it; calls then raise `BadHandle`. The memory of an index is given back with the last of its objects."""
        with self._alone:
            self._calls.eb_close(self._at)

    def __enter__(self) -> Any:
        return self

    def __exit__(self, *_: Any) -> None:
        self.close()

    def __reduce__(self) -> Any:
        raise TypeError("a %s can't be pickled or copied: its memory belongs to this process" % type(self).__name__)

    def __del__(self) -> None:
        # (where the library can't be loaded, it has no handle)
        if hasattr(self, "_at"):
            self._calls.eb_close(self._at)


class Adding(Side):
    """A side that adds, by the calls whose names begin so."""

    _name: str

    def __init__(self, *reading: Any) -> None:
        super().__init__()
        words = ("_add_text_with", "_add_line_with", "_add_texts_with")
        self._by_text, self._by_line, self._by_texts = (getattr(self._calls, self._name + word) for word in words)
        self._reading = Reading(self._calls, *reading)

    def _add(self, id: int, text: str) -> None:
        whole(id, 0, MOST_ID, "id", BadDocument)
        data = bytes_of(text)
        with self._alone:
            self._done(self._by_text(self._at, self._reading.at, id, data, len(data)))

    def _add_line(self, line: bytes) -> None:
        with self._alone:
            self._done(self._by_line(self._at, self._reading.at, line, len(line)))

    def _add_texts(self, texts: int, number: int) -> Tuple[int, int]:
        added = ctypes.c_uint64()
        with self._alone:
            return self._by_texts(self._at, self._reading.at, texts, number, ctypes.addressof(added)), added.value

    def add_all(self, messages: Iterable[Tuple[int, str]]) -> List[Tuple[int, Refused]]:
        """Adds messages in order, each an id and a text, and goes on after a refusal, as `Index.add_all` does: many in a call, and so faster
        than `add` beside other threads. They are added in blocks of at most 512 messages: where the iterable waits for one, those of the
        block before it can't be found yet.

        Answers the refused ones: where each stands among the messages, from 0, and why it was refused.
        """
        return add_all(self._add_texts, messages)


class Asking(Side):
    """A side that is asked, by the calls whose names begin so, with room for ids."""

    _name: str

    def __init__(self, reading: Optional[Reading] = None) -> None:
        super().__init__()
        words = ("_ask_text_with", "_ask_line_with", "_count_text_with")
        self._by_text, self._by_line, self._by_count = (getattr(self._calls, self._name + word) for word in words)
        self._reading = reading or Reading(self._calls, (), None, None, None)
        self._ids, self._told = (ctypes.c_uint64 * MOST_IDS)(), _library.Told()
        self._room = (ctypes.addressof(self._ids), MOST_IDS, ctypes.addressof(self._told))

    def _answer(self, number: int) -> Answer:
        self._done(number, self._told.column)
        return Answer(self._ids[: self._told.written], self._told.seen)

    def _ask(self, query: str, k: int) -> Answer:
        whole(k, 1, MOST_IDS, "k", BadNumber)
        data = bytes_of(query)
        with self._alone:
            return self._answer(self._by_text(self._at, self._reading.at, k, data, len(data), *self._room))

    def search_line(self, line: bytes) -> Answer:
        """Answers a query line of `earlybird run`, without its end; a column counts from the `?`.

        Raises what `Index.search_line` raises, or `BadHandle`.
        """
        with self._alone:
            return self._answer(self._by_line(self._at, self._reading.at, line, len(line), *self._room))

    @property
    def seen(self) -> int:
        """How many messages of the one that adds it knows."""
        return self._number("_seen")

    def _counted(self, query: str, start: int, width: int, number: int) -> Tuple[List[int], int, int]:
        with self._alone:
            return counted(self._done, self._by_count, (self._at, self._reading.at), query, start, width, number)

    def count(self, query: str) -> Count:
        """Counts all messages that match a query, among those over which `search` would answer.

        Raises what `search` raises for its query.
        """
        return Count(*self._counted(query, 0, 0, 0)[1:])

    def histogram(self, query: str, start: int, width: int, number: int) -> Histogram:
        """Counts as `count` does, and how many of the matches have an id in each of `number` buckets, as `Index.histogram` does.

        Raises `BadNumber` where there is no bucket or the width is 0, and what `search` raises for its query.
        """
        return Histogram(*self._counted(query, start, width, at_least_one(number)))

    def _number(self, word: str) -> int:
        count, call = ctypes.c_uint64(), getattr(self._calls, self._name + word)
        with self._alone:
            self._done(call(self._at, ctypes.addressof(count)))
        return count.value

"""The index, over memory of this process."""
import ctypes
import threading
from typing import Any, Callable, Iterable, List, NamedTuple, Optional, Tuple, Union

from earlybird import _library
from earlybird._images import Image, Path, Saved
from earlybird._reading import Reading
from earlybird._refusals import BadDocument, BadHandle, BadNumber, BadSetting, BadText, Refused, refusal, shown, whole

MOST_IDS = 1000
MOST_ID = 2**64 - 1
MOST_BUCKETS = 1_000_000


class Segment(NamedTuple):
    """How much of a segment is used: its documents, its distinct words, the words that their letters take, and the slices that are
    taken of each of the four pools of postings."""

    documents: int
    terms: int
    text: int
    pool0: int
    pool1: int
    pool2: int
    pool3: int


class Answer(List[int]):
    """The ids of the newest messages that match, newest first; `seen` says how many messages were accepted before the query."""

    def __init__(self, ids: Iterable[int], seen: int) -> None:
        super().__init__(ids)
        self.seen = seen

    def __repr__(self) -> str:
        return "Answer(%s, seen=%d)" % (super().__repr__(), self.seen)


class Count(NamedTuple):
    """How many messages match, of those that were accepted before the count; `seen` says how many these are."""

    total: int
    seen: int


class Histogram(NamedTuple):
    """How many of the matches have an id in each bucket; `total` and `seen` are those of a `Count`."""

    buckets: List[int]
    total: int
    seen: int


class Index(Saved):
    """An index of `segments` segments, each with room for `docs` messages (1 to 16,777,216) and `terms` distinct words (a power
    of two from 1,024 to 1,048,576). It takes all its memory at once: 58 MiB by default, at most 1 GiB. Any thread may call
    it; calls on one index go one after another.

    Lines and texts are read as the options of `earlybird run` say: `fields` names the members of a line of JSON by whose values
    messages are found too, one to 8 names; with `words="pieces"` the parts of a word between its marks are words; `id` and `text`
    name the members that are a line's id and text.

    With `image`, each message that is accepted is also written to a file beside that path, whose name has `.adding` behind it. `close`, or
    the end of a `with`, has the path lead to the image of all of them; until then the file that was there stays, also where the process
    ends. Another index is made of it by `load`. An image keeps the ids and the words of messages, and no texts.

    Raises `BadSetting` where no index can have these numbers, `BadReading` where lines can't be read so, MemoryError where there is no
    room for it, and OSError where no file can be made beside the path.

        >>> Index(segments=1, docs=1000, terms=1024)
        Index(segments=1, docs=1000, terms=1024)
        >>> index = Index(fields=["user"], words="pieces")
        >>> index.add_line(b'{"id":7,"text":"com.acme.billing failed","user":"Ann"}')
        >>> index.search("user:ann billing")
        Answer([7], seen=1)
    """

    def __init__(
        self,
        segments: int = 12,
        docs: int = 4096,
        terms: int = 8192,
        *,
        fields: Iterable[str] = (),
        words: Optional[str] = None,
        id: Optional[str] = None,
        text: Optional[str] = None,
        image: Optional[Path] = None,
    ) -> None:
        self._setting = numbers_of(segments, docs, terms)
        self._calls = _library.load()
        self._reading = Reading(self._calls, fields, words, id, text)
        size = self._calls.eb_words(*self._setting)
        if size == 0:
            raise BadSetting(told_setting(*self._setting))
        self._words, self._numbers = (ctypes.c_uint64 * size)(), _library.Numbers()
        self._ids, self._told = (ctypes.c_uint64 * MOST_IDS)(), _library.Told()
        self._to = (ctypes.addressof(self._words), size, ctypes.addressof(self._numbers))
        self._room = (ctypes.addressof(self._ids), MOST_IDS, ctypes.addressof(self._told))
        self._alone, self._closed, self._by_part = threading.Lock(), False, self._calls.eb_add_part
        self._done(self._calls.eb_begin(*self._to, *self._setting))
        if image is not None:
            self._image = Image(self._calls, image, self._setting)

    def __repr__(self) -> str:
        return "Index(segments=%d, docs=%d, terms=%d)" % self._setting

    def _done(self, number: int) -> None:
        if number:
            raise BadHandle() if self._closed else refusal(number, self._told.column)

    def close(self) -> None:
        """Gives its memory back; it then has no message, and calls that add or ask raise `BadHandle`. Its `image`, if it has one, is whole
        then, and is what the path leads to.

        Raises OSError where the image can't be written; the file at the path is then as before.
        """
        with self._alone:
            self._closed, self._words, self._numbers = True, (ctypes.c_uint64 * 0)(), _library.Numbers()
            self._to = (ctypes.addressof(self._words), 0, ctypes.addressof(self._numbers))
            self._end_image()

    def __enter__(self) -> "Index":
        return self

    def __exit__(self, *_: Any) -> None:
        self.close()

    def __reduce__(self) -> Any:
        raise TypeError("an Index can't be pickled or copied: its memory belongs to this process")

    def _answer(self, number: int) -> Answer:
        self._done(number)
        return Answer(self._ids[: self._told.written], self._told.seen)

    def add(self, id: int, text: str) -> None:
        """Adds the message of an id (0 to 2**64 - 1) and a text; the next search finds it.

        Raises `BadDocument` for another id, `BadText`, `TooLong`, `Full` or `NoMemory`; then nothing is changed. Raises OSError where
        the message is added, and can't be written to the `image`: that is given up.

            >>> index = Index(segments=1, docs=1, terms=1024)
            >>> index.add(7, "hello world")
            >>> index.add(8, "hello again")
            Traceback (most recent call last):
                ...
            earlybird._refusals.Full: full
        """
        whole(id, 0, MOST_ID, "id", BadDocument)
        data = bytes_of(text)
        self._add_by(self._calls.eb_add_text_with, self._calls.eb_part_of_text, id, data, len(data))

    def add_all(self, messages: Iterable[Tuple[int, str]]) -> List[Tuple[int, Refused]]:
        """Adds messages in order, each an id and a text, and goes on after a refusal. Answers the refused ones: where each stands
        among the messages, from 0, and why it was refused.

            >>> index = Index()
            >>> index.add_all([(7, "hello world"), (-1, "no id")])
            [(1, BadDocument('bad document'))]
        """
        return added(self.add, messages)

    def search(self, query: str, k: int = 10) -> Answer:
        """Answers a query, as `train -late`, with the ids of the newest `k` matches, 1 to 1,000.

        Raises `BadNumber`, `BadQuery` (with the column), `QueryTooDeep`, `QueryTooLarge`, `BadText` or `NoMemory`.

            >>> index = Index()
            >>> index.add(7, "hello world")
            >>> index.search("hello")
            Answer([7], seen=1)
            >>> index.search("(hello")
            Traceback (most recent call last):
                ...
            earlybird._refusals.BadQuery: bad query at 7
        """
        whole(k, 1, MOST_IDS, "k", BadNumber)
        data = bytes_of(query)
        with self._alone:
            return self._answer(self._calls.eb_ask_text_with(*self._to, self._reading.at, k, data, len(data), *self._room))

    def search_all(self, queries: Iterable[str], k: int = 10) -> List[Union[Answer, Refused]]:
        """Answers queries in order; in the place of one that is refused stands why.

            >>> index = Index()
            >>> index.add(7, "hello world")
            >>> index.search_all(["hello", "(hello"])
            [Answer([7], seen=1), BadQuery(7)]
        """
        answers: List[Union[Answer, Refused]] = []
        for query in queries:
            try:
                answers.append(self.search(query, k))
            except Refused as why:
                answers.append(why)
        return answers

    def count(self, query: str) -> Count:
        """Counts all messages that match a query.

        Raises what `search` raises for its query.

            >>> index = Index()
            >>> index.add(7, "hello world")
            >>> index.count("hello OR again")
            Count(total=1, seen=1)
        """
        return Count(*self._counted(query, 0, 0, 0)[1:])

    def histogram(self, query: str, start: int, width: int, number: int) -> Histogram:
        """Counts all messages that match a query, and how many of them have an id in each of `number` buckets, 1 to 1,000,000: bucket
        `i` has the ids from `start + i * width` on, `width` of them. Where ids are times, it is a histogram over time.

        Raises `BadNumber` where there is no bucket or the width is 0, and what `search` raises for its query.

            >>> index = Index()
            >>> index.add_all([(100, "error"), (130, "error"), (160, "error")])
            []
            >>> index.histogram("error", start=100, width=60, number=2)
            Histogram(buckets=[2, 1], total=3, seen=3)
        """
        return Histogram(*self._counted(query, start, width, at_least_one(number)))

    def _counted(self, query: str, start: int, width: int, number: int) -> Tuple[List[int], int, int]:
        with self._alone:
            return counted(self._done_of, self._calls.eb_count_text_with, (*self._to, self._reading.at), query, start, width, number)

    def _done_of(self, number: int, column: int) -> None:
        if number:
            raise BadHandle() if self._closed else refusal(number, column)

    def add_line(self, line: bytes) -> None:
        """Adds the message of a line of `earlybird run`, as `{"id":7,"text":"hello world"}`, without its end.

        Raises `BadLine`, `LongLine`, `BadJson`, `BadDocument`, `TooLong`, `Full` or `NoMemory`; then nothing is changed. OSError as `add`.
        """
        self._add_by(self._calls.eb_add_line_with, self._calls.eb_part_of_line, line, len(line))

    def search_line(self, line: bytes) -> Answer:
        """Answers a query line of `earlybird run`, as `?10 train`, without its end. A column counts from the `?`.

        Raises `BadLine`, `LongLine`, and what `search` raises.
        """
        with self._alone:
            return self._answer(self._calls.eb_ask_line_with(*self._to, self._reading.at, line, len(line), *self._room))

    def __len__(self) -> int:
        """How many messages are accepted."""
        with self._alone:
            return self._calls.eb_documents(ctypes.addressof(self._numbers))

    @property
    def segments(self) -> int:
        """How many segments are begun."""
        with self._alone:
            return self._calls.eb_segments(ctypes.addressof(self._numbers))

    @property
    def last_segment(self) -> Segment:
        """How much of the last segment is used; all 0 where none is begun."""
        last = _library.Segment()
        with self._alone:
            self._calls.eb_last_segment(ctypes.addressof(self._numbers), ctypes.addressof(last))
        return Segment(*(getattr(last, name) for name in Segment._fields))


def added(add: Callable[[int, str], None], messages: Iterable[Tuple[int, str]]) -> List[Tuple[int, Refused]]:
    """Adds messages one by one, and answers the refused ones: where each stands, from 0, and why."""
    refused = []
    for at, (id, text) in enumerate(messages):
        try:
            add(id, text)
        except Refused as why:
            refused.append((at, why))
    return refused


def bytes_of(text: str) -> bytes:
    """The bytes of a text, or `BadText`."""
    if not isinstance(text, str):
        raise TypeError("a text is a str, not a %s" % type(text).__name__)
    try:
        return text.encode()
    except UnicodeEncodeError as why:
        raise BadText("a half of a surrogate pair stands at %d" % why.start) from None


def numbers_of(*numbers: int) -> Tuple[int, ...]:
    """The numbers of a setting, of 32 bits, or `BadSetting`."""
    if not all(isinstance(it, int) and 0 <= it < 2**32 for it in numbers):
        raise BadSetting(told_setting(*numbers))
    return numbers


def told_setting(*numbers: int) -> str:
    return ", ".join("%s is %s" % pair for pair in zip(("segments", "docs", "terms", "keep"), map(shown, numbers)))


def at_least_one(number: int) -> int:
    """A number of buckets, or `BadNumber`."""
    return whole(number, 1, MOST_BUCKETS, "the number of buckets", BadNumber)


def counted(
    done: Callable[[int, int], None], call: Any, at: Tuple[Any, ...], query: str, start: int, width: int, number: int
) -> Tuple[List[int], int, int]:
    """What a call counts of a query in N buckets: their numbers, the total, and how many messages there are."""
    for value, least, most, what in ((start, 0, MOST_ID, "start"), (width, min(number, 1), MOST_ID, "width"), (number, 0, MOST_BUCKETS, "number")):
        whole(value, least, most, what, BadNumber)
    data, buckets, told = bytes_of(query), (ctypes.c_uint64 * number)(), _library.Counted()
    done(call(*at, data, len(data), start, width, ctypes.addressof(buckets), number, ctypes.addressof(told)), told.column)
    return buckets[:], told.total, told.seen

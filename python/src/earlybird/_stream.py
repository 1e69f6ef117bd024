"""The feed that threads share, which never ends: one leader adds, and any number of followers search the newest generations."""
import ctypes
from typing import Iterable, Optional

from earlybird._handles import Adding, Asking, Side
from earlybird._index import Answer, numbers_of
from earlybird._shared import Converter


class Leader(Adding):
    """The one leader of a new feed, which keeps `keep` generations, 2 to 64, of an index with the numbers of `Index`; `follower()`
    makes its followers. It is never full: where the newest generation has no room for a message, another is begun, and the oldest
    is dropped. Other threads may search while it adds. Lines and texts are read as by an `Index` of the same `fields`, `words`, `id` and
    `text`, also by the followers.

    Raises `BadSetting` where no feed can have these numbers, `BadReading` where lines can't be read so, and `NoMemory` where there is no
    room for it.

        >>> leader = Leader(segments=1, docs=2, terms=1024, keep=2)
        >>> follower = leader.follower()
        >>> for id in range(1, 8):
        ...     leader.add(id, "hello world")
        >>> follower.search("hello")
        Answer([7, 6, 5], seen=7)
    """

    _name = "eb_leader"

    def __init__(
        self,
        segments: int = 12,
        docs: int = 4096,
        terms: int = 8192,
        keep: int = 4,
        *,
        fields: Iterable[str] = (),
        words: Optional[str] = None,
        id: Optional[str] = None,
        text: Optional[str] = None,
    ) -> None:
        super().__init__(fields, words, id, text)
        self._done(self._calls.eb_stream_open(self._at, *numbers_of(segments, docs, terms, keep)))

    def add(self, id: int, text: str) -> None:
        """Adds the message of an id (0 to 2**64 - 1) and a text, and tells the followers where a generation was begun for it.

        Raises what `Index.add` raises but `Full`, or `BadHandle`; then nothing is changed.
        """
        self._add(id, text)

    def add_line(self, line: bytes) -> None:
        """Adds the message of a line of `earlybird run`, without its end, as `add` does.

        Raises what `Index.add_line` raises but `Full`, or `BadHandle`; then nothing is changed.
        """
        self._add_line(line)

    def tell(self) -> bool:
        """Tells each follower of the generations that were begun, as `add` does too. False where one couldn't hear of them,
        since it was just taking in earlier news, or since there was no memory. So a program that waits after an `add` calls
        this first, until it answers True.

        Raises `BadHandle`.
        """
        told = ctypes.c_uint32()
        with self._alone:
            self._done(self._calls.eb_leader_tell(self._at, ctypes.addressof(told)))
        return told.value == 1

    def converter(self) -> Optional[Converter]:
        """The converter of the newest generation, or None where it was asked for since that was begun.

        Raises `BadHandle` or `NoMemory`.
        """
        made = Converter()
        with self._alone:
            self._done(self._calls.eb_leader_converter(self._at, made._at))
        return made if made._handle.kind else None

    def lend(self, spare: "Spare") -> bool:
        """Lends it a spare index of its feed's setting: the `add` that begins the next generation takes it, and opens none. True where
        it had none: the spare is closed then. False where it had been lent one before that it hasn't taken: the spare is that one
        then. So a program may lend before each `add`, and open another one where the answer is True.

        Raises `BadSetting`, or `BadHandle`; then nothing is changed.
        """
        with self._alone, spare._alone:
            self._done(self._calls.eb_leader_lend(self._at, spare._at))
            return spare._handle.kind == 0

    def released(self) -> "Optional[Released]":
        """The generation that was dropped where the newest one was begun, if that was begun in a spare index; None where it was asked for
        since. So that `add` gives no memory back: who closes the generation does, on any thread, unless a follower or its converter
        holds it on. One that isn't asked for is dropped by the `add` that begins another generation.

        Raises `BadHandle`; or `NoMemory`, and lets it go.
        """
        taken = Released()
        with self._alone:
            self._done(self._calls.eb_leader_released(self._at, taken._at))
        return taken if taken._handle.kind else None

    def follower(self) -> "Follower":
        """A follower that knows all that was added.

        Raises `BadHandle` or `NoMemory`.
        """
        made = Follower(self._reading)
        with self._alone:
            self._done(self._calls.eb_follower(self._at, made._at))
        return made


class Spare(Side):
    """A spare index, which is opened ahead, on any thread, for the next generation of a feed with these numbers.

    Raises `BadSetting` and `NoMemory` as `Leader` does.

        >>> leader = Leader(segments=1, docs=2, terms=1024, keep=2)
        >>> spare = Spare(segments=1, docs=2, terms=1024)
        >>> leader.lend(spare)
        True
    """

    def __init__(self, segments: int = 12, docs: int = 4096, terms: int = 8192) -> None:
        super().__init__()
        self._done(self._calls.eb_spare_open(self._at, *numbers_of(segments, docs, terms)))


class Released(Side):
    """A generation that a feed dropped, which `released()` of its leader gives. Its memory is given back by `close()`, on any thread, unless
    a follower or its converter holds it on.

        >>> leader = Leader(segments=1, docs=1, terms=1024, keep=2)
        >>> for id in range(3):
        ...     _ = leader.lend(Spare(segments=1, docs=1, terms=1024))
        ...     leader.add(id, "hello world")
        >>> leader.released().close()
        >>> leader.released()
    """


class Follower(Asking):
    """A follower of a feed, which `follower()` of its leader makes: one for each thread serves best. It keeps the generations alive
    that it holds, until it is asked again, or closed.

        >>> leader = Leader(segments=1, docs=2, terms=1024, keep=2)
        >>> leader.add(7, "hello world")
        >>> follower = leader.follower()
        >>> follower.search("hello"), follower.held
        (Answer([7], seen=1), 1)
    """

    _name = "eb_follower"

    def search(self, query: str, k: int = 10) -> Answer:
        """Answers a query with the ids of the newest `k` matches, 1 to 1,000, among the newest generations that the feed keeps, up
        to the end of the first `seen` messages of the leader: at least all that it had heard of before the call, and all that
        this follower saw before.

        Raises what `Index.search` raises, or `BadHandle`.
        """
        return self._ask(query, k)

    @property
    def held(self) -> int:
        """How many generations it holds."""
        return self._number("_held")

"""The index that threads share: one writer adds while any number of readers search, and a converter packs what is closed."""
import ctypes
from typing import Iterable, List, Optional, Tuple

from earlybird._handles import Adding, Asking, Side
from earlybird._images import Image, Path, Saved
from earlybird._index import MOST_ID, Answer, added, bytes_of, numbers_of
from earlybird._reading import Reading
from earlybird._refusals import BadDocument, Refused, whole


class _Known(Side):
    """A side that readers are made from, which read as it does."""

    _reading: Reading

    def reader(self) -> "Reader":
        """A reader that knows all that this writer added, or all that this reader knows.

        Raises `BadHandle` or `NoMemory`.
        """
        made = Reader(self._reading)
        with self._alone:
            self._done(self._calls.eb_reader(self._at, made._at))
        return made


class Writer(_Known, Adding, Saved):
    """The one writer of a new index, whose numbers are those of `Index`; `converter` is its one converter, and `reader()` makes its
    readers. Other threads may search and convert while it adds. Lines and texts are read as by an `Index` of the same `fields`, `words`, `id`
    and `text`, also by the readers; and an `image` is written as by that.

    Raises `BadSetting` where no index can have these numbers, `BadReading` where lines can't be read so, `NoMemory` where there is no
    room for it, and OSError where no file can be made beside the path of the image.

        >>> writer = Writer(segments=1, docs=1000, terms=1024)
        >>> reader = writer.reader()
        >>> writer.add(7, "hello world")
        >>> reader.search("hello")
        Answer([7], seen=1)
    """

    _name = "eb_writer"

    def __init__(
        self,
        segments: int = 12,
        docs: int = 4096,
        terms: int = 8192,
        *,
        fields: Iterable[str] = (),
        words: Optional[str] = None,
        id: Optional[str] = None,
        text: Optional[str] = None,
        image: Optional[Path] = None,
    ) -> None:
        super().__init__(fields, words, id, text)
        self.converter = Converter()
        self._to, self._by_part, setting = (self._at,), self._calls.eb_writer_add_part, numbers_of(segments, docs, terms)
        self._done(self._calls.eb_open(self._at, self.converter._at, *setting))
        if image is not None:
            self._image = Image(self._calls, image, setting)

    def add(self, id: int, text: str) -> None:
        """Adds the message of an id (0 to 2**64 - 1) and a text; each search that begins afterwards finds it.

        Raises what `Index.add` raises, or `BadHandle`; then nothing is changed, but for OSError.
        """
        whole(id, 0, MOST_ID, "id", BadDocument)
        data = bytes_of(text)
        self._add_by(self._by_text, self._calls.eb_part_of_text, id, data, len(data))

    def add_all(self, messages: Iterable[Tuple[int, str]]) -> List[Tuple[int, Refused]]:
        return added(self.add, messages) if self._image else super().add_all(messages)

    add_all.__doc__ = Adding.add_all.__doc__

    def add_line(self, line: bytes) -> None:
        """Adds the message of a line of `earlybird run`, without its end.

        Raises what `Index.add_line` raises, or `BadHandle`; then nothing is changed, but for OSError.
        """
        self._add_by(self._by_line, self._calls.eb_part_of_line, line, len(line))

    def close(self) -> None:
        """Closes it; calls then raise `BadHandle`. Its `image`, if it has one, is whole then, and is what the path leads to. The memory of the
        index is given back with the last of its objects.

        Raises OSError where the image can't be written; the file at the path is then as before.
        """
        super().close()
        with self._alone:
            self._end_image()


class Reader(_Known, Asking):
    """A reader, which `reader()` of a writer or of another reader makes: one for each thread serves best."""

    _name = "eb_reader"

    def search(self, query: str, k: int = 10) -> Answer:
        """Answers a query with the ids of the newest `k` matches, 1 to 1,000, among the first `seen` messages of the writer: at least
        all that were added before the call, and all that this reader saw before.

        Raises what `Index.search` raises, or `BadHandle`.
        """
        return self._ask(query, k)


class Converter(Side):
    """The one converter of an index, as `converter` of its writer, or of a generation, as `converter()` of its leader."""

    def convert(self) -> int:
        """Packs the next segment that is closed, if there is one, and answers how many are packed then. No answer changes by it.

        Raises `BadHandle`.
        """
        count = ctypes.c_uint32()
        with self._alone:
            self._done(self._calls.eb_converter_convert(self._at, ctypes.addressof(count)))
        return count.value

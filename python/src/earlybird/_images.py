"""Images: a setting and messages in a file, as `earlybird save` writes it and `earlybird load` reads it."""
import contextlib
import ctypes
import os
import shutil
import threading
from typing import IO, Any, BinaryIO, Callable, Iterable, Iterator, Optional, Tuple, Type, TypeVar, Union

from earlybird import _library
from earlybird._reading import Reading
from earlybird._refusals import BadImage, Full, refusal

Path = Union[str, "os.PathLike[str]"]
Part = Union[bytes, memoryview]

# The bytes of a head, and the most of a part.
HEAD, LONGEST_PART = 20, 18_443

# Files are read and copied in pieces of this many bytes.
PIECE = 1 << 20

# What a call answers where it wants more bytes, and at the byte that ends an image.
MORE_BYTES, IMAGE_END = 22, 24


@contextlib.contextmanager
def ending(file: IO[bytes], path: str) -> Iterator[IO[bytes]]:
    """Ends an image in a file beside the path after what the block writes to it, and renames it once it is on the disk. Where that fails, it
    is removed, and the path is as before."""
    try:
        with file:
            yield file
            file.write(b"\0")
            file.flush()
            os.fsync(file.fileno())
        os.replace(file.name, path)
    except BaseException:
        with contextlib.suppress(OSError):
            os.unlink(file.name)
        raise
    folder = os.open(os.path.dirname(path), os.O_RDONLY)
    try:
        os.fsync(folder)
    finally:
        os.close(folder)


class Image:
    """The image of an index: a head, and the parts of its messages so far, in a file beside the path that the image is to have. One call
    at a time. Where a write fails, it is given up, and the file at the path stays as it is."""

    def __init__(self, calls: ctypes.CDLL, path: Path, setting: Tuple[int, ...]) -> None:
        self._path = os.path.realpath(os.fspath(path))
        self._why: Optional[OSError] = None
        self._part, self._len, self._taken = (ctypes.c_ubyte * LONGEST_PART)(), ctypes.c_uint64(), ctypes.c_uint64()
        self.room = (ctypes.addressof(self._part), LONGEST_PART, ctypes.addressof(self._len))
        done = calls.eb_image_head(*setting, *self.room[:2])
        if done:
            raise refusal(done, 0)
        self._file = open(self._path + ".adding", "w+b")
        self.write(memoryview(self._part)[:HEAD])

    @property
    def part(self) -> Tuple[int, int, int]:
        """The part in the room, as an add takes it."""
        return self.room[0], self._len.value, ctypes.addressof(self._taken)

    def keep(self) -> None:
        """Writes the part in the room."""
        self.write(memoryview(self._part)[: self._len.value])

    def write(self, part: Part) -> None:
        if self._why is None:
            try:
                self._file.write(part)
            except OSError as why:
                self._why = why
                raise

    def save(self) -> None:
        """Has the path lead to the image of all messages so far, and goes on."""
        if self._why:
            raise self._why
        try:
            with ending(open(self._path + ".new", "wb"), self._path) as file:
                self._file.seek(0)
                shutil.copyfileobj(self._file, file, PIECE)
        finally:
            self._file.seek(0, os.SEEK_END)

    def close(self) -> None:
        """Has the path lead to the image of all messages, and ends."""
        with ending(self._file, self._path):
            if self._why:
                raise self._why

    def drop(self) -> None:
        """Ends, and has the path as before."""
        for step in (self._file.close, lambda: os.unlink(self._file.name)):
            with contextlib.suppress(OSError):
                step()


class Pieces:
    """The bytes of a file that were read and not yet taken: `len` of them, which lie at the address `at`."""

    def __init__(self, file: BinaryIO) -> None:
        self._file, self._room = file, (ctypes.c_ubyte * PIECE)()
        self._first = self.at = ctypes.addressof(self._room)
        self.len = self.taken = 0

    def take(self, number: int) -> bytes:
        data = ctypes.string_at(self.at, number)
        self.at, self.len, self.taken = self.at + number, self.len - number, self.taken + number
        return data

    def more(self) -> bool:
        """Reads more behind them, if the file has more."""
        ctypes.memmove(self._first, self.at, self.len)
        self.at = self._first
        got = self._file.readinto(memoryview(self._room)[self.len :])  # type: ignore[attr-defined]
        self.len += got
        return got > 0

    def need(self, number: int) -> bool:
        """Whether a call that answered this is to be made again, with more bytes."""
        if number == MORE_BYTES and not self.more():
            raise BadImage("the file ends within it")
        if number and number not in (MORE_BYTES, IMAGE_END):
            raise self.wrong(number)
        return number == MORE_BYTES

    def wrong(self, number: int) -> Exception:
        if number == Full.number:
            return BadImage("it has more messages than its setting has room for")
        return BadImage("nothing of an image begins at its byte %d" % self.taken) if number == BadImage.number else refusal(number, 0)


def setting_of(calls: ctypes.CDLL, pieces: Pieces) -> Tuple[int, ...]:
    """Takes the head, and answers its setting."""
    numbers = (ctypes.c_uint32 * 3)()
    at = ctypes.addressof(numbers)
    while pieces.need(calls.eb_image_setting(pieces.at, pieces.len, at, at + 4, at + 8)):
        pass
    pieces.take(HEAD)
    return tuple(numbers)


S = TypeVar("S", bound="Saved")


class Saved:
    """What has a setting and adds messages, and may have an image. The calls that add are given `_to` first."""

    _calls: ctypes.CDLL
    _alone: threading.Lock
    _reading: Reading
    _to: Tuple[int, ...]
    _by_part: Callable[..., int]
    _image: Optional[Image] = None

    def __init__(self, *setting: int, **options: Any) -> None:
        raise NotImplementedError

    def _done(self, number: int) -> None:
        raise NotImplementedError

    def _add_by(self, add: Callable[..., int], part_of: Callable[..., int], *message: Any) -> None:
        """Adds a message by a call; where there is an image, by the part that another call makes of it, and the image keeps that."""
        with self._alone:
            if self._image is None:
                self._done(add(*self._to, self._reading.at, *message))
            else:
                self._done(part_of(self._reading.at, *message, *self._image.room))
                self._done(self._by_part(*self._to, *self._image.part))
                self._image.keep()

    def _end_image(self) -> None:
        image, self._image = self._image, None
        if image:
            image.close()

    def save(self) -> None:
        """Has the path that is its `image` lead to an image of all messages that are accepted, as `close` does, and goes on. It copies what
        is written so far.

        Raises ValueError where it has no `image`, and OSError where writing fails, now or before; the file at the path is then as before.

            >>> import os, tempfile
            >>> from earlybird import Index
            >>> path = os.path.join(tempfile.mkdtemp(), "messages.image")
            >>> index = Index(image=path)
            >>> index.add(7, "hello world")
            >>> index.save()
            >>> Index.load(path).search("hello")
            Answer([7], seen=1)
            >>> index.close()
        """
        with self._alone:
            if self._image is None:
                raise ValueError("there is no image to save: it is closed, or was made without one")
            self._image.save()

    @classmethod
    def load(
        cls: Type[S],
        path: Path,
        *,
        fields: Iterable[str] = (),
        words: Optional[str] = None,
        id: Optional[str] = None,
        text: Optional[str] = None,
        image: Optional[Path] = None,
    ) -> S:
        """One of the setting and the messages of an image: a file that `image` of another one wrote, or `earlybird save`. Give the `fields` and
        the `words` with which its messages were added, since an image doesn't have them. The new one may have an `image` of its own, also in
        the place of this file, which has its messages too.

        Raises `BadImage` where the file isn't a whole image, and its `detail` says why; OSError where it can't be read; and what `Index` and
        `Writer` raise. It takes the memory of the setting, at most 1 GiB, and reads the file in pieces.

            >>> import os, tempfile
            >>> from earlybird import Index
            >>> path = os.path.join(tempfile.mkdtemp(), "messages.image")
            >>> with Index(1, 1000, 1024, image=path) as index:
            ...     index.add(7, "hello world")
            >>> Index.load(path)
            Index(segments=1, docs=1000, terms=1024)
        """
        with open(path, "rb", buffering=0) as file:
            pieces = Pieces(file)
            made = cls(*setting_of(_library.load(), pieces), fields=fields, words=words, id=id, text=text, image=image)
            try:
                made._load(pieces)
            except BaseException:
                made._give_up()
                raise
            return made

    def _load(self, pieces: Pieces) -> None:
        """Adds the messages of an image after its head."""
        taken, number = ctypes.c_uint64(), 0
        with self._alone:
            while number != IMAGE_END:
                number = self._by_part(*self._to, pieces.at, pieces.len, ctypes.addressof(taken))
                if pieces.need(number):
                    continue
                part = pieces.take(taken.value)
                if self._image:
                    self._image.write(part)
        pieces.take(1)
        if pieces.len or pieces.more():
            raise BadImage("the file goes on behind it, at its byte %d" % pieces.taken)

    def _give_up(self) -> None:
        image, self._image = self._image, None
        if image:
            image.drop()
        self.close()

    def close(self) -> None:
        raise NotImplementedError

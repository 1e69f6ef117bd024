"""Where lines come from: files, compressed ones and standard input, in blocks of whole lines that can be read again."""
import gzip
import os
import select
import tempfile
import zlib

PIECE = 1 << 16
# bytes of a line that are kept: the others are passed over
LONGEST = 1 << 16
CHUNK = 1 << 26
# seconds for which a pipe is waited for
PAUSE = 0.1


class Spool:
    """What can't be read a second time, in files without names. Each of them is given back once nothing in it is asked for any more."""

    def __init__(self):
        self._files = {}

    def write(self, place, data):
        """Keeps bytes at a place."""
        left = memoryview(data)
        while left:
            number, offset = divmod(place, CHUNK)
            if number not in self._files:
                self._files[number] = tempfile.TemporaryFile(prefix="earlybird-")
            count = os.pwrite(self._files[number].fileno(), left[:CHUNK - offset], offset)
            place, left = place + count, left[count:]

    def read(self, place, length):
        """The bytes at a place; fewer where they were given back."""
        data = b""
        while length:
            number, offset = divmod(place, CHUNK)
            here = min(length, CHUNK - offset)
            file = self._files.get(number)
            data += os.pread(file.fileno(), here, offset) if file else b""
            place, length = place + here, length - here
        return data

    def forget(self, place):
        """Gives back the bytes before a place."""
        for number in [it for it in self._files if it < place // CHUNK]:
            self._files.pop(number).close()


class Source:
    """A file, or standard input where `path` is None. `followed` says whether it is read on as it grows."""

    def __init__(self, path, descriptor=None, followed=False):
        self.path = path
        self.name = "standard input" if path is None else shorter(path)
        self.lines = 0
        self.place = 0
        self._rest = b""
        self._passing = False
        self._read = 0
        packed = path is not None and path.endswith(".gz")
        self._input = gzip.open(path, "rb") if packed else None
        self._descriptor = descriptor if descriptor is not None else None if packed else os.open(path, os.O_RDONLY)
        self.is_file = path is not None and not packed and os.path.isfile(path)
        self._spool = None if self.is_file else Spool()
        self._waits = followed and not self.is_file and not packed
        self.size = os.fstat(self._descriptor).st_size if self.is_file else None
        self.can_grow = followed and not packed

    def head(self):
        """The first bytes of a file; nothing of what can't be read a second time."""
        return os.pread(self._descriptor, PIECE, 0) if self.is_file else b""

    def piece(self):
        """The next bytes: b"" at the end, and None where a pipe that is followed has none now."""
        if self._waits and not select.select([self._descriptor], [], [], PAUSE)[0]:
            return None
        try:
            found = self._input.read(PIECE) if self._input else os.read(self._descriptor, PIECE)
        except (OSError, EOFError, zlib.error) as fault:
            raise OSError("%s: %s" % (self.name, getattr(fault, "strerror", None) or fault)) from fault
        if found and self._spool:
            self._spool.write(self._read, found)
        self._read += len(found)
        return found

    def blocks(self, piece):
        """The blocks of whole lines that end in this piece: (place, bytes). What waits for its end is at most LONGEST bytes; of a longer line
        only these are kept, as a block of its own without an end."""
        found = []
        if self._passing:
            end = piece.find(b"\n") + 1
            self.place += end or len(piece)
            self._passing = not end
            piece = piece[end:] if end else b""
        data = self._rest + piece
        end = data.rfind(b"\n") + 1
        if end:
            found.append((self.place, data[:end]))
            self.place += end
        self._rest = data[end:]
        if len(self._rest) > LONGEST:
            found.append((self.place, self._rest[:LONGEST]))
            self.place += len(self._rest)
            self._rest, self._passing = b"", True
        return found

    def last(self):
        """The block of the line without an end, where there is one."""
        found = [(self.place, self._rest)] if self._rest else []
        self.place += len(self._rest)
        self._rest = b""
        return found

    def was_replaced(self):
        """Whether another file came in its place, or it became shorter than what was read."""
        try:
            there, here = os.stat(self.path), os.fstat(self._descriptor)
        except OSError:
            return False
        return (there.st_dev, there.st_ino) != (here.st_dev, here.st_ino) or here.st_size < self._read

    def at(self, place, length):
        """Bytes that were read; others, or fewer, where the file was changed since."""
        try:
            return self._spool.read(place, length) if self._spool else os.pread(self._descriptor, length, place)
        except OSError:
            return b""

    def forget(self, place):
        """Gives back what is kept of the bytes before a place."""
        if self._spool:
            self._spool.forget(place)

    def close(self):
        """Closes a file of which nothing is asked any more."""
        if self.is_file:
            os.close(self._descriptor)


def shorter(path):
    """A path as it is shown: from the folder where one is, where that is shorter."""
    try:
        relative = os.path.relpath(path)
    except (OSError, ValueError):
        return path
    return relative if path.startswith("/") and len(relative) < len(path) else path

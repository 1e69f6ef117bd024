"""Which line each number stands for, so that no text needs to be held: blocks of whole lines, each with the number of its first line."""
import bisect
import threading
import zlib


def lines_of(data):
    """The lines of a block."""
    lines = data.split(b"\n")
    if not lines[-1]:
        lines.pop()
    return lines


class Blocks:
    """Blocks in the order of their numbers. One thread adds and forgets, and others read."""

    def __init__(self):
        self.next = 1
        self._firsts = []
        self._blocks = []
        self._lock = threading.Lock()

    def add(self, source, place, data, count):
        """Takes in a block of this number of lines, and gives the number of its first one."""
        with self._lock:
            first = self.next
            self._firsts.append(first)
            self._blocks.append((source, place, len(data), source.lines, zlib.crc32(data)))
            source.lines += count
            self.next += count
            return first

    def forget(self, number):
        """Forgets the blocks whose lines all come before this number."""
        with self._lock:
            count = bisect.bisect_right(self._firsts, number) - 1
            if count <= 0:
                return
            gone = {source for source, *_ in self._blocks[:count]}
            del self._firsts[:count], self._blocks[:count]
            kept = {source for source, *_ in self._blocks}
            source, place, *_ = self._blocks[0]
        source.forget(place)
        for source in gone - kept:
            source.forget(source.place)

    def _find(self, number):
        with self._lock:
            at = bisect.bisect_right(self._firsts, number) - 1
            return (self._firsts[at], self._blocks[at]) if at >= 0 else None

    @staticmethod
    def _read(block):
        """The lines of a block, or None where the file isn't what it was."""
        source, place, length, _, check = block
        data = source.at(place, length)
        return lines_of(data) if zlib.crc32(data) == check else None

    def lines(self, numbers):
        """Lines of these numbers, of which neighbours in one block are read once: (number, source, number in the source, bytes). The bytes are
        None where the file isn't what it was, and a line that was forgotten is left out."""
        last, lines = None, None
        for number in numbers:
            found = self._find(number)
            if not found:
                continue
            first, block = found
            if block is not last:
                last, lines = block, self._read(block)
            at = number - first
            text = None if lines is None or at >= len(lines) else lines[at][:-1] if lines[at].endswith(b"\r") else lines[at]
            yield number, block[0], block[3] + at + 1, text

    def newest(self, most):
        """The newest blocks, about `most` bytes of them, newest first, as lists of lines."""
        with self._lock:
            blocks = self._blocks[-(most // 1024):]
        for block in reversed(blocks):
            lines = self._read(block)
            if lines:
                yield lines
            most -= block[2]
            if most < 0:
                return

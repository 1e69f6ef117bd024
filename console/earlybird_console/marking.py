"""The words that are set off in shown messages: what a query's own reading finds there, within a time for each answer."""
import time

from earlybird_logs.marks import marks
from earlybird_logs.query import read

from . import limits
from .documents import SLOTS, slots
from .turns import Turn

MARKS = str.maketrans({chr(code): " " for code in range(128) if not chr(code).isalnum()})


def in_pieces(text):
    """A text with the pieces of its words apart, as a program with `--words pieces` has them; each character keeps its place."""
    return text.translate(MARKS)


class Marker(Turn):
    """Marks the messages of one answer, within its time: behind that marks are missing."""

    def __init__(self, asked, fold, seconds=limits.MARKING):
        super().__init__()
        self._tree = None if asked.everything else read(asked.text, SLOTS, fold)
        self._fold = fold
        self._left = seconds

    def mark(self, key, said, source):
        """The marks of one message: from and to in characters of its text."""
        if self._tree is None or self._left <= 0:
            return []
        begun = time.monotonic()
        found = marks(self._tree, said.text, key, slots(said, source), self._fold)
        self._left -= time.monotonic() - begun
        return found or []

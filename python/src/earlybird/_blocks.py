"""Many messages in few calls."""
import ctypes
import itertools
import struct
from typing import Callable, Iterable, List, Tuple

from earlybird._index import MOST_ID, bytes_of
from earlybird._refusals import BadDocument, Refused, refusal, whole

# A block is sent that has this many messages, or at least this many bytes of text.
MOST_MESSAGES, MOST_BYTES = 512, 32_768

# A `struct eb_text`.
TEXT = struct.Struct("QPN")

# Adds of the structs at an address as many as the number says, one after the other until one is refused: the number of the refusal, or 0
# where all are added, and how many were added before it.
Call = Callable[[int, int], Tuple[int, int]]


def address(data: bytes) -> int:
    """Where bytes lie, as long as they are kept."""
    return ctypes.cast(data, ctypes.c_void_p).value or 0


class Block:
    """The messages of the next call. `refused` has those of all calls that were refused, and where each stands among all, from 0."""

    def __init__(self, call: Call) -> None:
        self._call, self._sent, self._bytes = call, 0, 0
        self._ids: List[int] = []
        self._texts: List[bytes] = []
        self.refused: List[Tuple[int, Refused]] = []

    def put(self, id: int, text: str) -> None:
        try:
            whole(id, 0, MOST_ID, "id", BadDocument)
            data = bytes_of(text)
        except Refused as why:
            self.send()
            self.refused.append((self._sent, why))
            self._sent += 1
            return
        self._ids.append(id)
        self._texts.append(data)
        self._bytes += len(data)
        if len(self._ids) == MOST_MESSAGES or self._bytes >= MOST_BYTES:
            self.send()

    def send(self) -> None:
        ids, texts = self._ids, self._texts
        self._ids, self._texts, self._bytes = [], [], 0
        joined, lengths = b"".join(texts), [len(text) for text in texts]
        structs = b"".join(map(TEXT.pack, ids, itertools.accumulate([address(joined), *lengths]), lengths))
        first, at = address(structs), 0
        while at < len(ids):
            number, added = self._call(first + at * TEXT.size, len(ids) - at)
            at += added
            if number:
                self.refused.append((self._sent + at, refusal(number, 0)))
                at += 1
        self._sent += len(ids)


def add_all(call: Call, messages: Iterable[Tuple[int, str]]) -> List[Tuple[int, Refused]]:
    """Adds messages in order by such a call, block by block. What came before an exception of the iterable is added."""
    block = Block(call)
    try:
        for id, text in messages:
            block.put(id, text)
    finally:
        block.send()
    return block.refused

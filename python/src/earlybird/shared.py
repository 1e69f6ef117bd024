"""The index that threads share: one `Writer` adds while any number of `Reader`s search, and a `Converter` packs what is closed.

    >>> from earlybird.shared import Writer
    >>> with Writer(segments=1, docs=1000, terms=1024) as writer:
    ...     reader = writer.reader()
    ...     writer.add(7, "hello world")
    ...     reader.search("hello")
    Answer([7], seen=1)
"""
from earlybird._shared import Converter, Reader, Writer

__all__ = ["Converter", "Reader", "Writer"]

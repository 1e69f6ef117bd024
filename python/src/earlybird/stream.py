"""The feed that threads share, which never ends: one `Leader` adds, and any number of `Follower`s search the newest generations.

    >>> from earlybird.stream import Leader
    >>> with Leader(segments=1, docs=2, terms=1024, keep=2) as leader:
    ...     follower = leader.follower()
    ...     for id in range(1, 8):
    ...         leader.add(id, "hello world")
    ...     follower.search("hello")
    Answer([7, 6, 5], seen=7)
"""
from earlybird._shared import Converter
from earlybird._stream import Follower, Leader, Released, Spare

__all__ = ["Converter", "Follower", "Leader", "Released", "Spare"]

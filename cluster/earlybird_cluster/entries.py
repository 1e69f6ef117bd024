"""Entries of a log: their ids, and what of them are documents."""
from .lines import LONGEST, lines_of


def entry_key(entry):
    """An entry's id, as bytes, as two numbers, so that ids compare. ValueError where it is none."""
    milliseconds, _, place = entry.partition(b"-")
    return int(milliseconds), int(place or 0)


def after(entry):
    """The least key that is greater than an entry's."""
    milliseconds, place = entry_key(entry)
    return milliseconds, place + 1


def text_of(fields):
    """The lines of an entry, given as Redis lists its fields; nothing where it has none."""
    fields = fields or ()
    return dict(zip(fields[::2], fields[1::2])).get(b"d", b"")


def documents_of(fields):
    """The lines of an entry and how many they are, its reply channel, its request and its number; None where it is no entry
    that a router put there, or one that would put the program's numbers of lines out of step."""
    try:
        fields = dict(zip(fields[::2], fields[1::2]))
        lines = lines_of(fields[b"d"], b"{") if len(fields[b"d"]) <= LONGEST + 1 else None
        return lines and (fields[b"d"], lines, fields[b"r"], int(fields[b"i"]), int(fields[b"n"]))
    except (KeyError, ValueError, TypeError):
        return None

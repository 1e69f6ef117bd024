"""Lines in, of any log, and lines out of the index program, as docs/FORMATS.md has them."""
import re

# a longer line is cut here
LONGEST = 65536
PRINTED = re.compile(rb"(\d+) (?:seen (\d+):((?: \d+)*)|count (\d+): (\d+)((?: \d+)*)|watch:((?: \d+)*)|refused: (.*))")
COLUMN = re.compile(r"bad query at (\d+)")
# a query that is answered at once, and settles all lines before it
PROBE = b"?1 a"


def numbers(text):
    """The numbers of a list with blanks."""
    return [int(each) for each in text.split()]


def read_printed(line):
    """The number of the line that is answered, what came of it, and more of it: ("seen", (seen, ids)), ("count", (seen, total, numbers of the
    buckets)), ("watch", numbers) or ("refused", name). None for other lines, as the summary."""
    found = PRINTED.fullmatch(line)
    if not found:
        return None
    number, seen, ids, counted, total, buckets, watches, refused = found.groups()
    if seen is not None:
        return int(number), "seen", (int(seen), numbers(ids))
    if counted is not None:
        return int(number), "count", (int(counted), int(total), numbers(buckets))
    if watches is not None:
        return int(number), "watch", numbers(watches)
    return int(number), "refused", refused.decode("ascii", "replace")


def refused_at(refusal, before):
    """A refusal of a query with `before` bytes of its line before it: its name, and the bytes of the query before it, or None."""
    found = COLUMN.fullmatch(refusal)
    return (refusal, None) if not found else ("bad query", max(int(found.group(1)) - 1 - before, 0))


class Splitter:
    """The lines of pieces of bytes, without their ends. Of a long line the first bytes are kept, and the others passed over."""

    def __init__(self):
        self.rest = b""
        # the bytes behind the last end
        self.behind = 0
        self._long = False

    def take(self, piece):
        """The lines that end in this piece."""
        *lines, rest = piece.split(b"\n")
        self.behind = len(rest) if lines else self.behind + len(rest)
        if lines:
            lines[0] = self.rest + (b"" if self._long else lines[0])
            self.rest, self._long = b"", False
        if not self._long:
            self.rest += rest
            if len(self.rest) > LONGEST:
                self._long, self.rest = True, self.rest[:LONGEST]
        if b"\r" not in piece and len(piece) <= LONGEST:
            # (a piece of short lines has many, and but for the first they are whole as they are)
            return [self._whole(line) for line in lines[:1]] + lines[1:]
        return [self._whole(line) for line in lines]

    @staticmethod
    def _whole(line):
        line = line[:LONGEST]
        return line[:-1] if line.endswith(b"\r") else line

    def last(self):
        """The line after the last end, where there is one."""
        return [self._whole(self.rest)] if self.rest else []

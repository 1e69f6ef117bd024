"""Lines: what of them may go into a log or to a program, and the blend of several answers."""
import re

LONGEST = 65536  # the most bytes of a line; the program refuses a longer one
BATCH = 64  # query lines that go together, at most, and of 64 KiB but for one longer line
QUERY = (b"?", b"#")  # what a line begins with that asks: a query line, and a count line, which programs with `--counts` take
NUMBER = re.compile(rb"\?(\d{1,4})|#\d{1,20}\+\d{1,20}\*(\d{1,4})|#")
MOST = (1 << 64) - 1  # a greater sum is this one, as the program's is


def whole_line(given):
    """A line without the LF, CR, or CR and LF at its end; None where it holds another LF or CR, so that it is no one line."""
    line = given[:-1] if given.endswith(b"\n") else given
    line = line[:-1] if line.endswith(b"\r") else line
    return None if b"\n" in line or b"\r" in line else line


def refusal_of(line, begin):
    """Why a line can't go to a program: `long line` or `bad line`; None where it can. `begin` is its first byte, or those of which
    it has one."""
    if len(line) > LONGEST:
        return b"long line"
    return None if line.startswith(begin) else b"bad line"


def lines_of(text, *begins):
    """How many lines a text has, where each ends with LF and begins with one of these bytes; else None."""
    lines = text.count(b"\n")
    return lines if all_begin(text, lines, *begins) else None


def all_begin(text, lines, *begins):
    """Whether each line of a text, which has `lines` LF, ends with LF and begins with one of these bytes."""
    return lines > 0 and text.endswith(b"\n") and sum([text.count(b"\n" + each) for each in begins]) + text.startswith(begins) == lines


def blocks_of(text, most):
    """Cuts a text of lines, each with its LF, into texts of whole lines, of at most `most` bytes but for one longer line."""
    place, last = 0, len(text)
    while place < last:
        end = last if last - place <= most else text.rfind(b"\n", place, place + most) + 1
        if end <= place:
            end = text.index(b"\n", place) + 1
        yield text[place:end]
        place = end


def count_of(line):
    """How many ids a query line asks for, or how many numbers a count line, at most: 0 to 10,000. What is neither is refused by
    the programs."""
    found = NUMBER.match(line)
    return int(found[1] or 1 + int(found[2] or 0)) if found else 0


def seen_of(lines):
    """The number of documents that the answers of one batch saw, which is the same for all of it."""
    for line in lines:
        words = line.split(b" ", 3)
        if words[1] in (b"seen", b"count"):
            return int(words[2].split(b":", 1)[0])
    return 0


def added(lines):
    """The numbers of the answers to one count line, the total and the buckets, each the sum over the partitions."""
    numbers = [map(int, line[line.index(b":") + 1:].split()) for line in lines]
    return b" ".join([b"%d" % min(sum(each), MOST) for each in zip(*numbers)])


def blend(texts, counts):
    """Answers from what the partitions printed for a batch of queries, a line each; `counts` is how many ids each asks for at
    most. `seen` is the sum, the ids are the greatest ones, falling, and numbers of a count are sums. A refusal is that of the first
    partition."""
    rows = [text.split(b"\n") for text in texts]
    seen = sum([seen_of(row[:-1]) for row in rows])
    head = b"seen %d:" % seen
    answers = []
    for most, line, *others in zip(counts, *rows):
        if b"f" in line:  # of `refused`; no answer has the letter
            answers.append(line.split(b" ", 1)[1])
            continue
        if b"c" in line:  # of `count`; no other answer has the letter
            answers.append(b"count %d: %b" % (seen, added([line, *others])))
            continue
        ids, parts = line[line.index(b":") + 1:], 1
        for other in others:
            more = other[other.index(b":") + 1:]
            if more:
                parts = 2 if ids else 1
                ids += more
        if parts > 1:
            found = ids.split()
            found.sort(key=int, reverse=True)
            ids = b" " + b" ".join(found[:most])
        answers.append(head + ids)
    return answers

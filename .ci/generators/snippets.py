"""The code in the crates' READMEs: pieces of sources that the gate proves, or of examples that it runs. Above the code comments name
the source and, each in a line of its own, the first and the last line of the piece; where there is one line alone it is the piece.
The piece goes from the first such line to the next line that is the last one; a bracket that closes stands as far in as the first."""
import re

COMMENT = re.compile(r"<!-- code: (\S+)\n(.*?)\n-->\n", re.S)
# such comments, and the code below them
SHOWN = re.compile(r"^((?:<!-- code: \S+\n.*?\n-->\n)+)```(\w+)\n.*?^```$", re.M | re.S)
# code of a language that a source can have
CODE = re.compile(r"^```(?:rust|c)$", re.M)


def indent(line):
    return len(line) - len(line.lstrip(" "))


def piece(text, first, last):
    """The lines of a source between these two, as far out as they go; None where it hasn't both."""
    lines = text.splitlines()
    begin = next((at for at, line in enumerate(lines) if line.strip() == first), None)
    if begin is None:
        return None
    margin = indent(lines[begin])
    is_last = lambda line: line.strip() == last and (indent(line) == margin or last[:1] not in ")]}>")
    end = next((at for at in range(begin, len(lines)) if is_last(lines[at])), None)
    if end is None:
        return None
    return "".join(line[margin:] + "\n" if line.strip() else "\n" for line in lines[begin : end + 1])


def pieces(comments, read):
    """The pieces that some comments name, one after the other."""
    for path, named in COMMENT.findall(comments):
        names = named.split("\n")
        found = piece(read(path), names[0], names[-1]) if len(names) <= 2 else None
        if found is None:
            raise SystemExit("generate: %s has no lines from '%s' to '%s'" % (path, names[0], names[-1]))
        yield found


def with_code(text, read):
    """A README, its code written anew."""
    return SHOWN.sub(lambda found: "%s```%s\n%s```" % (found.group(1), found.group(2), "\n".join(pieces(found.group(1), read))), text)


def faults(path, text):
    """Code of a README that no comment names the source of; and a README of calls without code."""
    loose = len(CODE.findall(text)) - len(SHOWN.findall(text))
    found = ["%s shows code, and no comment above it names its source" % path] * (loose > 0)
    calls = re.search(r"^Calls: (.*)$", text, re.M)
    if calls and not calls.group(1).startswith(("none", "the laws")) and not SHOWN.search(text):
        found.append("%s names calls, and shows none in use" % path)
    return found

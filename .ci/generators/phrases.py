"""The phrases that no document and no comment has (phrases.txt): where one is, and what to write instead."""
import glob
import io
import os
import re
import tokenize

# what people read: documents, help, and what the packages and the programs in Python say of themselves
READ = ("*.md", "docs/*.md", "bench/*.md", "crates/*/README.md", "examples/*/README.md", "python/README.md", "rust/README.md", "include/*.h",
        ".ci/generators/commands.py", ".ci/generators/helping.py", "share/earlybird/words.awk", "python/src/**/*.py", "rust/src/**/*.rs",
        "console/earlybird_console/page/*.html", "console/earlybird_console/page/*.js")
# programs of which people read the strings alone, those that document them too
PROGRAMS = tuple("%s/earlybird_%s/**/*.py" % (it, it) for it in ("console", "cluster", "live", "logs", "web"))
# sources of which people read the comments alone, and what begins one
SOURCES = (("crates/*/**/*.rt", "//"), ("crates/*/**/*.antt", "--"))
# between two words: blanks, or the end of a line and how a comment goes on
GAP = r"(?:[ \t]+|[ \t]*\n[ \t]*(?://[/!]?|--|\*|#)?[ \t]*)"


def rows(text):
    """Each phrase, and what to write instead."""
    for line in text.splitlines():
        phrases, colon, instead = line.partition(":")
        if colon and not line.startswith("#"):
            yield from ((" ".join(phrase.split()).lower(), instead.strip()) for phrase in phrases.split(","))


def strings_of(source):
    """A program in Python of which its strings are left, in their places."""
    lines = source.splitlines(True)
    out = [[" "] * len(line) for line in lines]
    for token in tokenize.generate_tokens(io.StringIO(source).readline):
        if "STRING" in tokenize.tok_name[token.type]:
            (first, begin), (last, end) = token.start, token.end
            for at in range(first - 1, last):
                here = slice(begin if at == first - 1 else 0, end if at == last - 1 else len(lines[at]))
                out[at][here] = lines[at][here]
    return "\n".join("".join(line).rstrip("\n") for line in out)


def comments_of(sign):
    """What is left of a source whose comments begin so: these, in their lines. A sign in a text or in a character begins none."""
    code = re.compile(r"""(?:"(?:\\.|[^"\\])*"|'(?:\\.|[^'\\])'|(?!%s).)*""" % sign)
    return lambda source: "\n".join(line[code.match(line).end():] for line in source.split("\n"))


def texts(root):
    """Each file that people read, and what they read of it."""
    for patterns, said in ((READ, str), (PROGRAMS, strings_of), *(((pattern,), comments_of(sign)) for pattern, sign in SOURCES)):
        for path in sorted({path for pattern in patterns for path in glob.glob(os.path.join(root, pattern), recursive=True)}):
            with open(path, encoding="utf-8") as file:
                yield path, said(file.read())


def found(root, text):
    """Each place of a phrase, as a line that says what to write."""
    instead, faults = dict(rows(text)), []
    any_phrase = re.compile(r"\b(%s)\b" % "|".join(GAP.join(map(re.escape, it.split())) for it in sorted(instead, key=len, reverse=True)), re.I)
    for path, said in texts(root):
        for place in any_phrase.finditer(said):
            phrase = " ".join(re.sub(GAP, " ", place.group(1)).lower().split())
            at = said.count("\n", 0, place.start()) + 1
            faults.append("%s:%d says '%s'; write: %s" % (os.path.relpath(path, root), at, phrase, instead[phrase]))
    return faults

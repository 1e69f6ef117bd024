"""The commands of Earlybird, their words and their numbers: the one table that the help, the completions and the manual are made
from (.ci/generate), and that .ci/test-program compares with the program."""
import re
import textwrap
from collections import namedtuple

VERSION = "0.5.0"
LICENCE = "MIT OR Apache-2.0"
# what --version prints
ABOUT = "earlybird %s\nSPDX-License-Identifier: %s\n" % (VERSION, LICENCE)
NAME = "earlybird: a real-time search index for messages, in memory"

# An option. `value` is what its value is called, or None where it takes none: N is a whole number from `low` to `high`, LIST a list of
# names, NAME any one name, SIZE an amount of memory, DIR a folder, and any other name a word. `usual` is the value where the option isn't given. `offers` are
# the values that a completion offers, and with `only` no other is taken. `text` is what the option does, as the help says it, `letter` its
# one letter where the command has a `parser`, `example` a value. The launcher turns a `launcher` option into others, so the program doesn't know it.
Option = namedtuple("Option", "value low high usual offers text letter launcher only example", defaults=(None, None, None, None, (), "", "", False, False, ""))

# the powers of two from 1,024 to 1,048,576
POWERS = [1 << at for at in range(10, 21)]

OPTIONS = {
    "overlap": Option(text="read lines by several threads; in run without --parts messages are added while queries are answered, and a query may see later ones"),
    "workers": Option("N", 1, 16, None, range(1, 17), "answer queries by N threads while messages come in: a query may see later ones"),
    "parts": Option("N", 1, 16, None, range(1, 17), "spread the messages over N indexes by their ids, which have to rise"),
    "watch": Option(text="take lines !N QUERY and !N, which set and remove a watch: each message prints the watches that it matches"),
    "fields": Option("LIST", None, None, None, (), "find messages by their members of these names, as by from:mara; LIST is 1 to 8 names with commas between", example="from,level"),
    "words": Option("pieces", None, None, None, ("pieces",), "find words by their pieces too, as billing in com.acme.billing: cut them at each ASCII character that is no letter or digit", only=True, example="pieces"),
    "counts": Option(text="take lines # QUERY and #X+W*N QUERY: how many messages match, and how many in each of N buckets, W ids wide, from the id X on"),
    "id": Option("NAME", text="the member that is a message's id, in place of id: a whole number, or a string of its digits", example="seq"),
    "text": Option("NAME", text="the member that is a message's text, in place of text", letter="t", example="message"),
    "stats": Option(text="print the number of segments, and how many are converted, after the summary; of a feed those that it keeps, and the number of generations"),
    "json": Option(text="print each line of the output as one JSON object"),
    "segments": Option("N", 1, 64, 12, (1, 2, 3, 6, 9, 12, 15, 20, 32, 64), "segments of the index"),
    "docs": Option("N", 1, 16777216, 4096, [1 << at for at in range(10, 25)], "messages that a segment has room for"),
    "terms": Option("N", 1024, 1048576, 8192, POWERS, "distinct words that a segment has room for, a power of two"),
    "keep": Option("N", 2, 64, 4, range(2, 65), "generations that are kept"),
    "memory": Option("SIZE", offers=("64M", "200M", "400M", "800M", "1G"), launcher=True, example="800M",
                     text="settle --segments, --docs and --terms (of a feed --keep too) by how much memory the index takes; SIZE is as 800M, up to 1G"),
    "prefix": Option("DIR", usual="~/.local", text="the folder to install into, or to uninstall from", example="~/.local"),
    "follow": Option(text="go on as the files grow", letter="f"),
    "query": Option("QUERY", text="print the newest matches, and end; with --follow print each new one as it comes", letter="q", example="timeout"),
    "number": Option("N", 1, 1000, 20, (5, 10, 20, 50, 100, 1000), "how many matches are printed at most", "n"),
    "count": Option(text="with --query: print how many match, and end", letter="c"),
    "color": Option("WHEN", usual="auto", offers=("auto", "always", "never"), only=True, text="mark the words that matched"),
}

# A command: its words that aren't options; the options of which at most one is given (`ways`), and the others; and what it does. The
# launcher has some commands of its own, which the program doesn't know. `beside` says which of the ways may be given together, and
# `apart` which others may not. Its own help has `about`, what it reads and prints, and `examples`. `parser` is the program that reads
# the command's words, where that is one in Python, and `says` what an option does there, where that differs.
Command = namedtuple("Command", "words ways options text launcher beside apart about examples parser says", defaults=((), (), (), "", False, {}, {}, "", (), "", {}))

SETTING = ("segments", "docs", "terms")
# what --memory stands for
SETTLED = (*SETTING, "keep")
# the most bytes of all indexes of a program
MOST_MEMORY = 1 << 30
LINES = (
    "Standard input has messages and queries, one a line. Answers are ids, and all of them are out before it waits for input.\n\n"
    "  {\"id\":7,\"text\":\"hello world\"}   a message: a whole number as its id, a string as its text\n"
    "  ?5 hello                        a query: the newest 5 messages that match, newest first\n"
    "  ?5 \"night train\" OR (late -rain)   a phrase, OR, groups, minus; more: docs/QUERIES.md")
COMMANDS = {
    "run": Command((), ("overlap", "workers", "parts", "watch"), ("fields", "words", "counts", "id", "text", "stats", "json", *SETTING, "memory"), "read messages and queries, and print answers", beside={"parts": ("overlap",)},
                   about=LINES + "\n\nOnce the index is full it refuses the newest messages; feed drops the oldest instead.",
                   examples=(("earlybird run < examples/first.jsonl", "the first answers"), ("{ cat old.jsonl; cat; } | earlybird run", "messages of a file, then ask by hand"),
                             ("earlybird run --memory 800M < big.jsonl", "room for more messages"), ("earlybird run --json < lines.jsonl | jq .", "answers as JSON"),
                             ("earlybird run --id seq --text message < app.jsonl", "messages whose members have other names"))),
    "feed": Command((), ("overlap", "workers", "watch"), ("keep", "fields", "words", "counts", "id", "text", "stats", "json", *SETTING, "memory"), "the same, without end: the oldest messages go where there is no room", apart={"workers": ("stats",)},
                    about=LINES,
                    examples=(("tail -n +1 -F app.jsonl | earlybird feed --memory 400M", "the newest messages of a log"),
                              ("{ echo '!1 timeout'; tail -F app.jsonl; } | earlybird feed --watch", "tell which messages match"))),
    "save": Command((), (), ("fields", "words", "id", "text", *SETTING, "memory"), "read messages, and write an image of the index",
                    about="Standard input has messages, one a line; standard output gets an image, with which load begins.",
                    examples=(("earlybird save < messages.jsonl > messages.image", ""),)),
    "load": Command((), (), ("fields", "words", "counts", "id", "text", "stats", "json"), "read an image, and then go on as run does",
                    about="Standard input has an image that save wrote, and behind it messages and queries. Its setting is the image's; --fields and --words are what save had, --id and --text are of the messages behind it.",
                    examples=(("{ cat messages.image; echo '?5 hello'; } | earlybird load", "one query"), ("cat messages.image - | earlybird load", "then ask by hand"))),
    "bench": Command(("START", "DOCS"), (), (), "process DOCS messages (1 to 40000) that the number START makes, and print one line of figures",
                     examples=(("earlybird bench 1 10000", ""),)),
    "live": Command(("[FILE..]",), (), ("follow", "query", "number", "count", "fields", "text", "json", "memory", "color"), "search logs by hand: files or standard input, also as they grow", True,
                    about="It reads files (or standard input) of lines of text or of JSON objects, also .gz, into an index. On a terminal a prompt asks for queries and prints the newest "
                          "matches as their lines, the newest last; with --query it prints and ends. Enter alone prints older ones; :help tells the rest.",
                    examples=(("earlybird live app.log", "ask by hand, while it still reads"), ("earlybird live -f app.log api.log", "and as they grow"),
                              ("journalctl -o cat | earlybird live", "a pipe; the prompt is on the terminal"), ("earlybird live -q 'timeout -retry' -n 5 app.log", "print the newest 5, and end"),
                              ("earlybird live -fq timeout app.log", "print each new match as it comes")), parser="live/earlybird-live",
                    says={"memory": "the most memory of all its indexes, 2G by default: beyond it the oldest lines go", "json": "print each match as one JSON object: file, line, message or text",
                          "fields": "the members that are fields; without it the first lines tell",
                          "text": "of JSON lines: the member that has the text; without it the first of message, msg, text, log, event and body"}),
    "console": Command(("[WORDS]",), (), (), "a page over a feed, for a browser: docs/CONSOLE.md", True, examples=(("earlybird console --help", "its options"),), parser="console/earlybird-console"),
    "cluster": Command(("[WORDS]",), (), (), "several machines: docs/CLUSTER.md", True, examples=(("earlybird cluster --help", "its commands and options"),), parser="cluster/earlybird-cluster"),
    "install": Command((), (), ("prefix",), "install the program, its manual, completions, and the library for C", True),
    "uninstall": Command((), (), ("prefix",), "remove exactly what install brought", True),
    "build": Command((), (), (), "prove and build the program from its sources, and compare it with dist/", True),
}
# the commands in the groups of a list
GROUPS = (
    ("ask by hand", ("live", "console")),
    ("ask over a pipe", ("run", "feed", "save", "load")),
    ("and more", ("cluster", "bench", "install", "uninstall", "build")),
)
# words that are given alone, and what they do
ALONE = {"--help": "print the help", "--version": "print the version"}
# the same, in one letter
LETTERS = {"-h": "--help", "-V": "--version"}

# Each status, and when a command ends with it.
STATUSES = [
    (0, "done", "the input was processed to its end, and no line was refused"),
    (1, "some line was refused", "the input was processed to its end, and at least one line was refused"),
    (2, "usage", "invalid command line; nothing was read"),
    (3, "read fault", "reading failed; all whole lines that were read are answered"),
    (4, "write fault", "writing failed"),
    (5, "no memory", "memory ran out; that it comes for nothing else isn't promised"),
    (6, "input too long", "2^40 bytes were read without an end; their whole lines are answered"),
    (7, "bad image", "what `load` read begins no image; nothing was printed"),
    (70, "not built, or not installed", "the launcher could not build the program of changed sources, or could not install or uninstall"),
]


def letter_of(command, name):
    """The one letter of an option of a command: of those alone that the launcher passes on to a program of their own."""
    return OPTIONS[name].letter if COMMANDS[command].parser else ""


def shown(name):
    """An option as it is written, as `--docs N`."""
    return "--%s %s" % (name, OPTIONS[name].value) if OPTIONS[name].value else "--" + name


def synopsis(name, of_program=False):
    """A command with its words, as `run [--stats] [--docs N]`; with `of_program` those that the program itself knows."""
    command = COMMANDS[name]
    with_others = lambda it: shown(it) + "".join(" [%s]" % shown(other) for other in command.beside.get(it, ()))
    ways = ["[" + " | ".join(with_others(it) for it in command.ways) + "]"] if command.ways else []
    options = [it for it in command.options if not (of_program and OPTIONS[it].launcher)]
    return " ".join([name, *command.words, *ways, *("[%s]" % shown(it) for it in options)])


def excluded(name, option):
    """The options that can't stand beside one of a command."""
    command = COMMANDS[name]
    is_apart = lambda one, other: other in command.apart.get(one, ()) or one in command.ways and other in command.ways and other not in command.beside.get(one, ())
    together = lambda one, other: other in command.beside.get(one, ()) or one in command.beside.get(other, ())
    others = [other for other in (*command.ways, *command.options) if other != option]
    settled = [other for other in others if option == "memory" and other in SETTLED or other == "memory" and option in SETTLED]
    return [other for other in others if other in settled or not together(option, other) and (is_apart(option, other) or is_apart(other, option))]


def range_of(name):
    """What an option takes in words, as `N is 1 to 64, 12 by default`; nothing where that says nothing."""
    option = OPTIONS[name]
    usual = "%s by default" % option.usual if option.usual is not None else ""
    values = "%s is %d to %d" % (option.value, option.low, option.high) if option.low is not None else ""
    values = "%s is %s" % (option.value, alternatives(option.offers)) if option.only and len(option.offers) > 1 else values
    return ", ".join(filter(None, [values, usual]))


def alternatives(values):
    """Some values as `auto, always or never`."""
    return " or ".join(filter(None, [", ".join(map(str, values[:-1])), str(values[-1])]))


def said(name, command=None):
    """What an option does (of a command), and what it takes, in one line."""
    return "; ".join(filter(None, [COMMANDS[command].says.get(name, OPTIONS[name].text) if command else OPTIONS[name].text, range_of(name)]))


def wrapped(row, width, **how):
    """A synopsis in lines of at most `width` letters, which ends none of them inside of brackets."""
    whole = re.sub(r"\[(?:[^][]|\[[^][]*\])*\]", lambda found: found.group(0).replace(" ", "\0"), row)
    return textwrap.fill(whole, width, break_on_hyphens=False, break_long_words=False, **how).replace("\0", " ")

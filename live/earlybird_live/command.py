"""The words of `earlybird live`, and its life."""
import argparse
import os
import re
import resource
import signal
import sys
import time

from .documents import MOST_FIELDS, NAME
from .hints import hints
from .loading import LEAST, Loader
from .parts import Gone, Refused
from .prompt import Prompt, follow, grouped, new_matches, reason
from .showing import Shown, seen_safely, tree_of

ROOT = os.path.dirname(os.path.dirname(os.path.dirname(os.path.abspath(__file__))))


def size(text):
    """The bytes of a size as 800M."""
    found = re.fullmatch(r"([0-9]{1,6}(?:\.[0-9]{1,6})?)([KkMmGg])(?:[Ii]?[Bb])?", text, re.ASCII)
    if not found:
        raise argparse.ArgumentTypeError("%s is no size; write 64M, 800M or 2G" % text)
    bytes_of = int(float(found.group(1)) * {"k": 1 << 10, "m": 1 << 20, "g": 1 << 30}[found.group(2).lower()])
    if bytes_of < LEAST:
        raise argparse.ArgumentTypeError("%s is too small; the least is %dM" % (text, LEAST >> 20))
    return bytes_of


def few(text):
    """A number from 1 to 1000."""
    if not re.fullmatch("[0-9]{1,9}", text) or not 1 <= int(text) <= 1000:
        raise argparse.ArgumentTypeError("%s isn't a number from 1 to 1000" % text)
    return int(text)


def names(text):
    """A list of fields."""
    for name in text.split(","):
        if not NAME.fullmatch(name) or name == "since":
            raise argparse.ArgumentTypeError("a name has 1 to 32 small letters, digits and _, unlike %r" % name)
    if len(set(text.split(","))) < len(text.split(",")) or text.count(",") >= MOST_FIELDS:
        raise argparse.ArgumentTypeError("at most %d names, each once" % MOST_FIELDS)
    return text


class Parser(argparse.ArgumentParser):
    """Says in one line why words aren't taken, as the launcher does."""

    def error(self, message):
        import difflib
        unknown = message.partition("unrecognized arguments: ")[2]
        near = difflib.get_close_matches(unknown.split(" ")[0].split("=")[0], [it for it in self._option_string_actions if it.startswith("--")], 1, 0.7)
        message = re.sub(r"^argument (?:-\w/)?(--\w+)", r"\1", "there is no option " + unknown if unknown else message)
        print(seen_safely("earlybird: live: %s%s" % (message, ": did you mean %s?" % near[0] if near else "; earlybird help live tells all")), file=sys.stderr)
        sys.exit(2)


def make_parser():
    """What reads the words; .ci/generators/commands.py has the same options, for the help."""
    parser = Parser(prog="earlybird live", add_help=False, allow_abbrev=False)
    parser.add_argument("files", nargs="*", metavar="FILE")
    parser.add_argument("-f", "--follow", action="store_true")
    parser.add_argument("-q", "--query")
    parser.add_argument("-n", "--number", type=few, default=20)
    parser.add_argument("-c", "--count", action="store_true")
    parser.add_argument("-t", "--text")
    parser.add_argument("--fields", type=names)
    parser.add_argument("--json", action="store_true")
    parser.add_argument("--memory", type=size, default=2 << 30)
    parser.add_argument("--color", choices=("auto", "always", "never"), default="auto")
    return parser


def read_words():
    """The words, or an error that says why they aren't taken."""
    parser = make_parser()
    asked = parser.parse_args()
    if asked.count and asked.query is None:
        parser.error("--count comes with --query")
    if asked.count and asked.follow:
        parser.error("--count ends, and --follow goes on: leave one of them out")
    for path in asked.files:
        if not os.path.exists(path) or os.path.isdir(path):
            parser.error("%s %s" % (seen_safely(path), "is a folder" if os.path.isdir(path) else "isn't there"))
    if not asked.files and sys.stdin is None:
        parser.error("standard input is closed")
    if not asked.files and os.isatty(0):
        parser.error("it reads files, or standard input: earlybird live app.log")
    if asked.query is None and not sys.stdout.isatty():
        parser.error("standard output is no terminal: ask with --query")
    return parser, asked


def by_hand(loader, shown, asked, colour, moves):
    """The prompt; where standard input has the lines, on the terminal itself."""
    if not asked.files:
        try:
            terminal = os.open("/dev/tty", os.O_RDWR)
        except OSError:
            raise Gone("there is no terminal to ask at: ask with --query") from None
        os.dup2(terminal, 0)
        sys.stdin = open(0, encoding="utf-8", errors="surrogateescape", closefd=False)
    return Prompt(loader, shown, asked.number, colour, moves).run()


def wait_until_loaded(loader, shows):
    """Waits until all is read; on standard error it says how far it is."""
    said = False
    while not loader.loaded.wait(0.25):
        took = time.monotonic() - loader.begun
        if shows and took > 0.5:
            share, lines = loader.share(), loader.blocks.next - 1
            sys.stderr.write("\r\x1b[K%s lines%s, %s a second" % (grouped(lines), "" if share is None else ", %d %%" % (100 * share), grouped(int(lines / took))))
            sys.stderr.flush()
            said = True
    if said:
        sys.stderr.write("\r\x1b[K")
        sys.stderr.flush()


def once(loader, shown, asked, shows):
    """One query, and where files are followed each new match. The status is grep's: 0 where something matched, 1 where nothing did."""
    query = asked.query
    wait_until_loaded(loader, shows)
    if asked.count:
        _, count = loader.count(query)
        print(count)
        return 0 if count else 1
    came = follow(loader, query)[0] if asked.follow else None
    _, ids = loader.ask(query, asked.number)
    tree = tree_of(query, loader.fields or ())
    shown.put(ids, tree)
    if loader.parts and loader.parts.dropped:
        print("earlybird: the oldest %d lines were dropped: --memory is %d MiB" % (loader.parts.first - 1, asked.memory >> 20), file=sys.stderr)
    if not ids and not came and sys.stderr.isatty():
        for hint in hints(query, loader):
            print(seen_safely("earlybird: no match: " + hint), file=sys.stderr)
    newest, some = ids[0] if ids else 0, bool(ids)
    for each in new_matches(came) if came else ():
        # (what came while the first ones were asked is shown already)
        shown.put([it for it in each if it > newest], tree)
        some = True
    return 0 if some else 1


def run(parser, asked):
    """The command, whose words are right. Gives its status."""
    plain = os.environ.get("TERM", "") in ("", "dumb")
    colour = asked.color == "always" or asked.color == "auto" and sys.stdout.isatty() and not os.environ.get("NO_COLOR") and not plain
    program = [os.environ.get("EARLYBIRD_COMMAND") or os.path.join(ROOT, "earlybird")]
    try:
        loader = Loader(asked.files, os.dup(0) if not asked.files else None, asked, program)
    except OSError as fault:
        parser.error(seen_safely(str(fault)))
    shown = Shown(loader, sys.stdout.buffer, sys.stdout.isatty() or colour, colour, asked.json)
    loader.start()
    try:
        if asked.query is None:
            return by_hand(loader, shown, asked, colour, not plain)
        return once(loader, shown, asked, sys.stderr.isatty() and not plain)
    finally:
        if loader.parts:
            loader.parts.close()


def refusal(query, fault):
    """What is said of a query that is refused: the fault, where it is, and why where its name doesn't say it."""
    if fault.column is None:
        return fault.name
    text, why = "%s at %d of the query" % (fault.name, fault.column), reason(query, fault)
    return text if why == fault.name else "%s: %s" % (text, why)


def main():
    """The command. Its status: 0 (with --query: where something matched), 1 nothing matched, 2 usage or a bad query, 3 a fault of reading or of
    the index, 4 a write fault, 130 Ctrl-C."""
    # (a file that was replaced is kept open as long as its lines are there)
    limit = resource.getrlimit(resource.RLIMIT_NOFILE)
    resource.setrlimit(resource.RLIMIT_NOFILE, (limit[1], limit[1]))
    if sys.stdout is None:
        print("earlybird: write fault: standard output is closed", file=sys.stderr)
        return 4
    for stream in filter(None, (sys.stdout, sys.stderr)):
        stream.reconfigure(errors="replace")
    signal.signal(signal.SIGTERM, lambda *_: sys.exit(143))
    parser, asked = read_words()
    try:
        return run(parser, asked)
    except Refused as fault:
        print("earlybird: %s" % refusal(asked.query, fault), file=sys.stderr)
        return 2
    except Gone as fault:
        print("earlybird: %s" % seen_safely(str(fault)), file=sys.stderr)
        return 3
    except BrokenPipeError:
        os.dup2(os.open(os.devnull, os.O_WRONLY), 1)
        return 0
    except OSError as fault:
        print("earlybird: write fault: %s" % fault.strerror, file=sys.stderr)
        os.dup2(os.open(os.devnull, os.O_WRONLY), 1)
        return 4
    except KeyboardInterrupt:
        return 130

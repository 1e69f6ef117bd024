"""The help, as `earlybird --help` prints it."""
import textwrap

from generators.commands import ALONE, COMMANDS, GROUPS, NAME, STATUSES, letter_of, said, shown, synopsis, wrapped

WIDTH = 100

HEAD = """\
run reads lines from standard input and prints answers on standard output, all before it waits for
input:

  {"id":7,"text":"hello world"}   a message: a JSON object with a whole number as its id and a
                                  string as its text
  ?5 hello                        a query: the ids of the newest 5 messages that match, newest first
"""

IMAGES = """\
  earlybird save < messages.jsonl > messages.image
  cat messages.image - | earlybird load
"""

FOOT = """\
earlybird help COMMAND, or COMMAND --help, tells the options of one command; -h is a short help, and
-V the version.

Queries: docs/QUERIES.md. Recipes: docs/RECIPES.md. All rules: docs/FORMATS.md. The manual:
docs/MANUAL.md, or man earlybird where it is installed, else man -l docs/earlybird.1
"""


def filled(text, first, rest):
    return textwrap.fill(text, WIDTH, initial_indent=first, subsequent_indent=rest, break_on_hyphens=False, break_long_words=False)


def usage():
    """The synopsis of each command, with the words that stand alone in the last row."""
    rows = [synopsis(name) for name in COMMANDS]
    rows = [*rows[:-1], " | ".join([rows[-1], *ALONE])]
    how = {"subsequent_indent": " " * 21}
    return "\n".join(wrapped("earlybird " + row, WIDTH, initial_indent="usage: " if at == 0 else " " * 7, **how) for at, row in enumerate(rows))


def option(name, width=14, command=None):
    """The rows of an option (of a command)."""
    letter = letter_of(command, name) if command else ""
    form = ("-%s, " % letter if letter else "") + shown(name)
    return filled(said(name, command), "  %-*s " % (width, form), " " * (width + 3))


def commands(width=14):
    """The commands in groups, each with what it does."""
    groups = []
    for head, names in GROUPS:
        groups.append("\n".join(["%s:" % head, *(filled(COMMANDS[it].text, "  %-*s " % (width, it), " " * (width + 3)) for it in names)]))
    return "\n\n".join(groups)


FIRST = """\
first things to do:
  earlybird live app.log                      search a log (or any lines of text) by hand
  earlybird run < examples/first.jsonl        messages and queries in, answers out
  earlybird help run                          a command's own help
"""


def short():
    """What a first call on a terminal shows."""
    return "\n".join([NAME + "\n", FIRST, commands(10) + "\n", "earlybird help COMMAND, or COMMAND --help, tells its options; --help tells all; --version.\n"
                      "Manual: man earlybird, or docs/MANUAL.md\n"])


def of(name):
    """The help of one command."""
    command = COMMANDS[name]
    head = wrapped("usage: earlybird " + synopsis(name), WIDTH, subsequent_indent=" " * (len("usage: earlybird ") + len(name) + 1))
    parts = [head, textwrap.fill(command.text[0].upper() + command.text[1:] + ".", WIDTH)]
    if command.about:
        parts += [part if part.startswith("  ") else textwrap.fill(part, WIDTH) for part in command.about.split("\n\n")]
    if command.ways or command.options:
        width = max(len(shown(it)) + (4 if letter_of(name, it) else 0) for it in (*command.ways, *command.options))
        ways = "\n".join(option(it, width, name) for it in command.ways)
        options = "\n".join(option(it, width, name) for it in command.options)
        if ways:
            beside = " (%s)" % "; ".join("--%s beside --%s too" % (other, it) for it, others in command.beside.items() for other in others) if command.beside else ""
            parts += ["ways to run, one at most%s:\n%s" % (beside, ways)]
        parts += ["options:\n" + options]
        if command.apart:
            parts += ["; ".join("--%s isn't given beside --%s" % (other, it) for it, others in command.apart.items() for other in others) + "."]
    if command.examples:
        wide = max(len(it) for it, _ in command.examples)
        parts += ["examples:\n" + "\n".join(("  %-*s   %s" % (wide, it, what)).rstrip() for it, what in command.examples)]
    return "\n\n".join(parts) + "\n"


def statuses():
    rows = ["%d %s" % (code, name) for code, name, _ in STATUSES]
    return filled("Exit codes: " + ", ".join(rows[:-1]) + "; " + rows[-1] + ".", "", "")


def text():
    run, feed = COMMANDS["run"], COMMANDS["feed"]
    of_run = "\n".join(option(it) for it in (*run.ways, *run.options))
    of_feed = "\n".join(option(it) for it in feed.options if it not in (*run.ways, *run.options))
    of_live = "\n".join(option(it, 18, "live") for it in COMMANDS["live"].options if it not in run.options or letter_of("live", it))
    of_install = "\n".join(option(it) for it in COMMANDS["install"].options)
    return "\n".join([
        NAME + "\n", usage() + "\n", commands() + "\n", HEAD, of_run + "\n",
        filled("At most one of %s is given, or --overlap beside --parts; and --stats isn't given to a feed with --workers. A feed keeps its newest generations, each an index of this setting, and "
               "drops the oldest where the newest has no room for a message:" % ", ".join("--" + it for it in run.ways), "", "") + "\n",
        of_feed + "\n", "save writes an image of the index, and load starts with one:\n", IMAGES,
        "live takes beside --fields, --json and --memory:\n", of_live + "\n",
        "install and uninstall take the folder; bin/, lib/, include/ and share/ below it get the files:\n", of_install + "\n",
        statuses() + "\n", FOOT])

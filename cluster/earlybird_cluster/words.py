"""The words of the command line. They are read before Redis's module is asked for, so `--help` answers without it."""
import argparse
import os
import re
import sys

from . import names

ROOT = os.path.dirname(os.path.dirname(os.path.dirname(os.path.abspath(__file__))))
# the command by which this one was called, else the launcher beside it
PROGRAM = os.environ.get("EARLYBIRD_COMMAND") or os.path.join(ROOT, "earlybird")


def default_folder():
    """Where `up` keeps what it starts, unless told otherwise."""
    state = os.environ.get("XDG_STATE_HOME") or os.path.expanduser("~/.local/state")
    return os.path.join(state, "earlybird-cluster")


def a_name(text):
    """A word of the command line that names a cluster or a client."""
    if not names.NAME.match(text):
        raise argparse.ArgumentTypeError("a name has 1 to 64 letters, digits, and . _ -")
    return text


def at_least(least):
    """What reads a whole number of the command line."""
    def read(text):
        if not text.isascii() or not text.isdigit() or len(text) > 15 or int(text) < least:
            raise argparse.ArgumentTypeError("a whole number from %d on" % least)
        return int(text)
    return read


def seconds(text):
    """Reads a time of the command line."""
    try:
        found = float(text)
    except ValueError:
        found = -1.0
    if not 0 < found <= 86400:
        raise argparse.ArgumentTypeError("seconds, more than 0 and at most 86400")
    return found


def read_words():
    """The command line."""
    where = argparse.ArgumentParser(add_help=False, argument_default=argparse.SUPPRESS)
    where.add_argument("--redis", metavar="URL", help="redis://, rediss:// or unix://, or cluster+ and URLs of nodes of a Redis Cluster with commas "
                       "between; else the variable EARLYBIRD_REDIS (better, where it holds a password), else the Redis of --folder")
    where.add_argument("--name", type=a_name, help="of the cluster; its keys in Redis begin with it (earlybird)")
    where.add_argument("--folder", help="of what `up` starts on this machine (%s)" % default_folder())
    where.add_argument("--patience", type=seconds, metavar="SECONDS", help="how long Redis, and a partition that lives, is waited for (5)")
    top = argparse.ArgumentParser(prog="earlybird-cluster", description="Many indexes as one: partitions over a log in Redis.", parents=[where])
    commands = top.add_subparsers(dest="command", required=True, metavar="COMMAND")

    def command(name, says, program=False):
        made = commands.add_parser(name, help=says, description=says, parents=[where])
        if program:
            made.add_argument("--program", default=PROGRAM, help="the index program (%(default)s)")
        return made

    add = command("add", "document lines from standard input into the log; refused ones are printed")
    add.add_argument("--no-wait", action="store_true", help="don't wait for the partitions to say what became of each line")
    add.add_argument("--client", type=a_name, metavar="NAME", help="of this input: the same lines added again under it are added once")
    add.add_argument("--first", type=at_least(1), default=1, metavar="NUMBER", help="of the first line (1)")
    command("ask", "query lines from standard input; prints their answers in order")
    shown = command("status", "each partition, its workers and its log").add_mutually_exclusive_group()
    shown.add_argument("--json", action="store_true", help="as JSON")
    shown.add_argument("--prometheus", action="store_true", help="as text of Prometheus")

    service = command("serve", "answer over HTTP: POST /documents and /queries, GET /status and /metrics")
    service.add_argument("--listen", metavar="HOST:PORT", default="127.0.0.1:8081", help="where it listens (%(default)s)")
    service.add_argument("--token-file", metavar="FILE", help="a file whose first line each request has to know; needed where others than this machine can ask")

    up = command("up", "start N workers on this machine, and Redis where no URL is given, and start them again when they die", True)
    up.add_argument("parts", type=at_least(1), metavar="N")
    up.add_argument("--fsync", choices=("everysec", "always"), default="everysec", help="when the log of a Redis that is started is on disk")
    up.add_argument("--replicas", type=at_least(1), metavar="R", help="workers of a partition (1)")
    up.add_argument("--safe", type=at_least(0), metavar="S", help="acknowledge only what S replicas of Redis have, too (0)")
    up.add_argument("--retain", type=at_least(0), metavar="DOCUMENTS", help="cut each log to this many documents, at least; with a feed to what it keeps")
    up.add_argument("--images", metavar="FOLDER", help="workers start from the newest image in it, and the log behind it")
    up.epilog = "What comes after -- are the program's words: up 4 -- feed --keep 8; without them those of before, at first: run --counts."
    command("down", "end all that `up` started in the folder")
    commands.add_parser("supervise", parents=[where])  # what `up` starts

    worker = command("worker", "serve one partition until it is ended", True)
    worker.add_argument("--partition", type=at_least(0), required=True, metavar="P")
    worker.add_argument("--replica", type=at_least(0), default=0, metavar="R")
    worker.add_argument("--images", metavar="FOLDER", help="start from the newest image in it, and the log behind it")

    save = command("image", "make an image of a partition from the last one and the log behind it", True)
    save.add_argument("--partition", type=at_least(0), required=True, metavar="P")
    save.add_argument("--images", required=True, metavar="FOLDER")
    save.add_argument("--cut", action="store_true", help="then cut the log up to the oldest image that all its workers can start from")

    grow = command("grow", "give a cluster more partitions while it runs; or read its log again, into another cluster", True)
    which = grow.add_mutually_exclusive_group(required=True)
    which.add_argument("--into", type=a_name, metavar="NAME", help="the name of another cluster, which `up` has set up")
    which.add_argument("--to", type=at_least(1), metavar="M", help="the number of partitions; workers for the new ones start on this machine")
    grow.add_argument("--seal", action="store_true", help="new documents go to the new partitions alone")
    own, program = sys.argv[1:], []
    if "--" in own:
        place = own.index("--")
        own, program = own[:place], own[place + 1:]
    usual = {"redis": os.environ.get("EARLYBIRD_REDIS"), "name": "earlybird", "folder": default_folder(), "patience": 5.0}
    words = argparse.Namespace(**{**usual, **vars(top.parse_args(own))})
    if program and words.command != "up":
        top.error("words of the program come after `up N` alone")
    words.words, words.folder = program, os.path.abspath(words.folder)
    if words.redis and not re.match(r"(cluster\+)?(rediss?|unix)://", words.redis):
        top.error("a URL of Redis begins with redis://, rediss:// or unix://, or with cluster+ before that")
    return words

"""The words of the command, and its life."""
import argparse
import asyncio
import ctypes
import os
import signal
import sys

from earlybird_web.guard import read_guarded
from earlybird_web.server import Server

from .alerts import Alerts
from .cluster import WATCHING, Cluster, ClusterIndex
from .console import Console, Stopped
from .documents import SLOTS
from .routes import Routes
from .sources import follow, read_input, read_journal
from .texts import Texts, TextsFault

ROOT = os.path.dirname(os.path.dirname(os.path.dirname(os.path.abspath(__file__))))
# what glibc calls the size from which memory is taken by itself, and given back once it is free; and that size
MMAP_THRESHOLD, LARGE = -3, 1 << 17


def read_words(words):
    """The command's words: its own, and after `--` those of the index program."""
    place = words.index("--") if "--" in words else len(words)
    parser = argparse.ArgumentParser(
        prog="earlybird-console", allow_abbrev=False, description="A page over an index of logs: docs/CONSOLE.md.",
        epilog="Words after -- go to the index program: `-- --memory 800M`, or `-- run --docs 65536` for an index that drops nothing.")
    parser.add_argument("files", metavar="FILE", nargs="*", help="logs that grow, and packed ones (.gz): any lines of text, or of JSON; - is standard "
                        "input, which is read also where no file is named")
    parser.add_argument("--follow", metavar="FILE", action="append", default=[], help="one more of these files")
    parser.add_argument("--journal", action="store_true", help="reads the journal, by journalctl")
    parser.add_argument("--texts", metavar="FILE", default=":memory:", help="the SQLite file that keeps the messages (else memory)")
    parser.add_argument("--words-only", metavar="NAME", action="append", default=[], help="a member, as trace_id, whose values are words and no field; repeatable")
    parser.add_argument("--listen", metavar="HOST:PORT", default="127.0.0.1:8080", help="where it listens (127.0.0.1:8080)")
    parser.add_argument("--token-file", metavar="FILE", help="a file whose first line each request has to know; needed where others than this machine can ask")
    parser.add_argument("--alert-file", metavar="FILE", help="a file to which each alarm of a watch is added, as a line of JSON")
    parser.add_argument("--alert-command", metavar="WORDS", help="a command that is run for each alarm, with that line on its standard input")
    parser.add_argument("--cluster", metavar="NAME", help="a cluster of this name in place of one index program: docs/CLUSTER.md; needs --texts")
    parser.add_argument("--redis", metavar="URL", help="where the cluster is; else the variable EARLYBIRD_REDIS, else what `earlybird-cluster up` starts")
    parser.add_argument("--program", metavar="FILE", default=os.environ.get("EARLYBIRD_COMMAND") or os.path.join(ROOT, "earlybird"), help="the index program (the launcher)")
    return parser, parser.parse_args(words[:place]), words[place + 1:]


def give_back():
    """Has the C library give back large pieces of memory, as answers are, once they are free; where it is glibc, which else keeps them all."""
    try:
        ctypes.CDLL(None).mallopt(MMAP_THRESHOLD, LARGE)
    except (OSError, AttributeError):
        pass


def over_program(asked, words, texts, alerts):
    """A console over one index program."""
    program = [asked.program, *words, "--fields", ",".join(SLOTS), "--watch", "--counts", "--words", "pieces"]
    return Console(program, texts, alerts, drops=words[0] == "feed", words_only=asked.words_only)


def over_cluster(asked, texts, alerts):
    """A console over a cluster."""
    cluster = Cluster(asked.redis, asked.cluster)
    cluster.meet(texts)
    program = [asked.program, *WATCHING, *(["--words", "pieces"] if cluster.has_pieces else [])]
    return Console(program, texts, alerts, drops=cluster.drops, parts=not cluster.has_pieces, words_only=asked.words_only,
                   make_index=lambda taken: ClusterIndex(cluster, taken), keeps=True)


async def serve(asked, words, host, port, token):
    """Runs the console until a signal ends it, or raises what ends it else."""
    loop, stop = asyncio.get_running_loop(), asyncio.Event()
    for name in (signal.SIGINT, signal.SIGTERM):
        loop.add_signal_handler(name, stop.set)
    texts, alerts = Texts(asked.texts), Alerts(asked.alert_file, asked.alert_command)
    console = over_cluster(asked, texts, alerts) if asked.cluster else over_program(asked, words, texts, alerts)
    routes = Routes(console, token)
    server = routes.server = Server(routes.handle)
    port = await server.start(host, port)
    print("earlybird-console: http://%s:%d/" % ("[%s]" % host if ":" in host else host, port), file=sys.stderr, flush=True)
    work = [console.run(), console.drop_gone(), routes.streams.tell_pages()]
    files = [path for path in (*asked.files, *asked.follow) if path != "-"]
    if files:
        work.append(follow(console, files))
    if asked.journal:
        work.append(read_journal(console))
    if "-" in asked.files or not files and not asked.journal and not os.isatty(0):
        work.append(read_input(console))
    working = asyncio.gather(*work)
    stopping = asyncio.ensure_future(stop.wait())
    try:
        await asyncio.wait({working, stopping}, return_when=asyncio.FIRST_COMPLETED)
        if working.done():
            await working
    finally:
        stopping.cancel()
        await server.close()
        await console.end()
        working.cancel()
        await asyncio.gather(working, return_exceptions=True)
        await alerts.end()
        texts.close()


def main():
    """The command. Its status: 0 where a signal ended it, 2 usage, 3 where the index can't be started, the texts can't be kept or it can't
    listen."""
    parser, asked, words = read_words(sys.argv[1:])
    try:
        host, port, token = read_guarded(asked.listen, asked.token_file)
    except ValueError as fault:
        parser.error(str(fault))
    if asked.cluster and (words or asked.texts == ":memory:"):
        parser.error("--cluster needs --texts FILE, and its index programs have their words from `earlybird-cluster up`")
    if asked.redis and not asked.cluster:
        parser.error("--redis says where a --cluster is")
    give_back()
    # (the console asks for watches and counts itself)
    words = [word for word in words if word not in ("--watch", "--counts")]
    words = words if words[:1] in (["feed"], ["run"]) else ["feed", *words]
    if any(word.startswith("--fields") for word in words):
        parser.error("the console gives the index its fields: all members of messages")
    if any(word.startswith(("--overlap", "--workers", "--parts", "--json", "--words", "--id", "--text")) for word in words):
        parser.error("the index program runs here without --overlap, --workers, --parts, --json, --words, --id and --text")
    try:
        asyncio.run(serve(asked, words, host, port, token))
    except (Stopped, TextsFault, OSError) as fault:
        print("earlybird-console: %s" % fault, file=sys.stderr)
        return 3
    return 0

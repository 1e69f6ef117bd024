"""The prompt: queries and commands by hand."""
import os
import queue
import shutil
import sys
import threading
import time

from .hints import hints
from .parts import Gone, Refused
from .showing import seen_safely, tree_of

# seconds for which a query that finds nothing waits for more lines
PATIENCE = 0.6
# queries that are watched beside each other: each of them is asked whenever lines came
MOST_WATCHED = 100
# letters of a typed line below which the line above it is still one line above
SHORT = 60

HELP = """\
  timeout upstream        lines with both words; "night train" a phrase; a OR b; -word; (..); "a b"~5
  level:error             a field has this value (:fields names them)
  since:1000              lines after line 1000; since:0 all lines
  n, or Enter alone       older matches of the last query
  :count QUERY            how many match
  :follow QUERY           each new match as it comes, until Ctrl-C       (with -f)
  :watch QUERY, :watch    count new matches from now on beside all else; tell the counts
  :unwatch QUERY          end that; without a query, all counts
  :n 50                   how many are shown
  :fields, :status, :help, :quit (or Ctrl-D)
"""


def history():
    """Reads the lines that were asked before, and keeps those of now, where this can be written."""
    try:
        import atexit
        import readline
    except ImportError:
        return
    folder = os.path.join(os.environ.get("XDG_STATE_HOME") or os.path.expanduser("~/.local/state"), "earlybird")
    path = os.path.join(folder, "history")

    def keep():
        try:
            readline.write_history_file(path)
        except OSError:
            pass

    try:
        os.makedirs(folder, mode=0o700, exist_ok=True)
        if os.path.exists(path):
            readline.read_history_file(path)
    except OSError:
        return
    readline.set_history_length(1000)
    atexit.register(keep)


def span(seconds):
    """A time as people read it."""
    return "%.1f ms" % (1000 * seconds) if seconds < 1 else "%.1f s" % seconds


def grouped(number):
    """A count with commas."""
    return format(number, ",")


class Prompt:
    """Asks by hand. `most` matches are shown; with `moves` the terminal takes signs that move the cursor."""

    def __init__(self, loader, shown, most, colour, moves):
        self._loader = loader
        self._shown = shown
        self._most = most
        self._dim = (lambda text: "\x1b[2m%s\x1b[0m" % text) if colour else (lambda text: text)
        self._moves = moves
        # the last query, the number of its oldest match that was shown, and the watches by their queries
        self._last = None
        self._watches = {}
        self._waiting = False

    def say(self, text):
        """Writes a line about the matches."""
        print(self._dim(seen_safely(text)), flush=True)

    def progress(self, seen=None):
        """How far it has read, in words; or how many lines were there, of which `seen` were asked."""
        loader = self._loader
        share = loader.share()
        percent = "" if share is None else " (%d %%)" % (100 * share)
        if seen is not None:
            return "%s lines" % grouped(seen) + ("" if loader.loaded.is_set() else " read so far" + percent)
        lines = loader.blocks.next - 1
        if loader.loaded.is_set():
            return "%s lines" % grouped(lines)
        return "%s lines so far%s, %s a second" % (grouped(lines), percent, grouped(int(lines / max(0.001, time.monotonic() - loader.begun))))

    def run(self):
        """Asks until the end; gives the status."""
        history()
        print("earlybird live: %s. A query finds lines; :help" % seen_safely(", ".join(it.name for it in self._loader.sources[:4])))
        threading.Thread(target=self._tell_progress, daemon=True).start()
        while True:
            line = ""
            try:
                line = self._next_line()
                if line is None or self._take(line):
                    return 0
            except KeyboardInterrupt:
                print()
            except Refused as fault:
                print(why(line, fault))
            except Gone as fault:
                print("earlybird: %s" % fault, file=sys.stderr)
                return 3

    def _next_line(self):
        """A line that is typed, or None at the end."""
        if not self._loader.loaded.is_set():
            self.say(self.progress())
        try:
            self._waiting = True
            return input("> ").strip()
        except EOFError:
            print()
            return None
        finally:
            self._waiting = False

    def _tell_progress(self):
        """Writes the line above the prompt anew while it reads."""
        try:
            import readline
        except ImportError:
            return
        loader = self._loader
        while not loader.loaded.wait(0.3):
            self._write_above(readline, self.progress())
        parts, more = loader.parts, ""
        if parts and parts.dropped:
            more += "; the oldest %s were dropped (--memory)" % grouped(parts.first - 1)
        if loader.cut:
            more += "; %s long ones are found by their beginning" % grouped(loader.cut)
        self._write_above(readline, "all %s lines read in %s%s" % (grouped(loader.blocks.next - 1), span(loader.took), more))

    def _write_above(self, readline, text):
        if self._moves and self._waiting and len(readline.get_line_buffer()) < SHORT:
            width = shutil.get_terminal_size().columns
            sys.stdout.write("\x1b7\x1b[1A\r\x1b[K%s\x1b8" % self._dim(text[:max(1, width - 1)]))
            sys.stdout.flush()

    def _take(self, line):
        """Does what a line asks; whether that is the end."""
        word, _, rest = line.partition(" ")
        rest = rest.strip()
        if not line or line == "n":
            self._more()
        elif not line.startswith(":"):
            self._ask(line)
        elif word in (":q", ":quit", ":exit"):
            return True
        elif word == ":help":
            print(HELP, end="")
        elif word in (":fields", ":status"):
            self._status()
        elif word == ":n" and rest.isascii() and rest.isdigit() and len(rest) < 5 and 1 <= int(rest) <= 1000:
            self._most = int(rest)
        elif word == ":n":
            print(":n takes 1 to 1000, as in :n 50")
        elif word == ":count" and (rest or self._last):
            self._count(rest or self._last[0])
        elif word == ":follow" and (rest or self._last):
            self._follow(rest or self._last[0])
        elif word == ":watch":
            self._watch(rest)
        elif word == ":unwatch":
            self._unwatch(rest)
        else:
            print(seen_safely("there is no command %s; these are: :count, :follow, :watch, :unwatch, :n, :fields, :status, :help, :quit" % word))
        return False

    def _status(self):
        loader, parts = self._loader, self._loader.parts
        print("fields: %s" % (", ".join(loader.fields or ()) or "none"))
        if parts:
            more = "; lines before %s were dropped" % grouped(parts.first) if parts.dropped else ""
            print("%s; %d MiB in %d programs%s" % (self.progress(), sum(it.memory for it in parts.all) >> 20, len(parts.all), more))

    def _ask(self, query, before=None):
        begun = time.monotonic()
        seen, ids = self._loader.ask(query, self._most, before)
        # (where it has hardly begun to read, an answer that finds nothing tells nothing)
        while not ids and not before and time.monotonic() - begun < PATIENCE and not self._loader.loaded.is_set():
            time.sleep(0.05)
            seen, ids = self._loader.ask(query, self._most)
        took = time.monotonic() - begun
        self._shown.put(ids, tree_of(query, self._loader.fields or ()))
        self._last = (query, ids[-1] if ids else None)
        for hint in [] if ids or before else hints(query, self._loader):
            print(seen_safely("no match: " + hint))
        if ids:
            what = "%s %d%s" % ("the next" if before else "the newest", len(ids), ", all" if before is None and len(ids) < self._most else "")
        else:
            what = "no older match" if before else "no match"
        self.say("-- %s of %s; %s" % (what, self.progress(seen), span(took)))

    def _more(self):
        if not self._last:
            print("ask first: a word, for example; :help")
        elif self._last[1] is None or self._last[1] <= 1:
            self.say("-- no older match")
        else:
            self._ask(self._last[0], self._last[1])

    def _count(self, query):
        begun = time.monotonic()
        seen, count = self._loader.count(query)
        self.say("-- %s of %s; %s" % (grouped(count), self.progress(seen), span(time.monotonic() - begun)))

    def _follow(self, query):
        if not self._loader.follow:
            print("the files aren't followed: start with -f")
            return
        came, stop = follow(self._loader, query)
        self.say("-- new matches of %s; Ctrl-C ends it" % query)
        tree = tree_of(query, self._loader.fields or ())
        try:
            for ids in new_matches(came):
                self._shown.put(ids, tree)
        finally:
            stop()

    def _watch(self, query):
        if query and not self._loader.follow:
            print("the files aren't followed: start with -f")
        elif query and query not in self._watches and len(self._watches) >= MOST_WATCHED:
            print("%d queries are watched, and no more can be: end one with :unwatch QUERY" % MOST_WATCHED)
        elif query:
            # (where the query is refused, nothing has changed)
            watch = Watch(self._loader, query)
            if query in self._watches:
                self._watches[query].stop()
            self._watches[query] = watch
        for each, watch in self._watches.items():
            print(seen_safely("%8s  %s%s" % (grouped(watch.count), each, ": %s" % watch.fault if watch.fault else "")))

    def _unwatch(self, query):
        if query and query not in self._watches:
            print(seen_safely("%s isn't watched" % query))
        for each in [it for it in self._watches if not query or it == query]:
            self._watches.pop(each).stop()


def reason(line, fault):
    """Why a line was refused, in words: its name where that says it."""
    if fault.name != "bad query" or fault.column is None:
        return fault.name
    rest = line[fault.column - 1:]
    if not rest:
        return "the query ends too early: a parenthesis is open, or a word is missing"
    reasons = {'"': "the quote isn't closed, or no right number follows ~", ")": "no parenthesis is open, or nothing is in it", "O": "a side of OR is missing"}
    return reasons.get(rest[0], "this is no word")


def why(line, fault):
    """Why a line was refused, below the column where that is known."""
    if fault.column is None or line.startswith(":"):
        return fault.name
    return " " * (fault.column + 1) + "^ " + reason(line, fault)


def whenever_grown(loader, query, ask, take):
    """Has `take` called on the loader's thread with what `ask` finds of the query among lines behind one of a number, where some match; with
    None at the end of all sources; and where the query is refused or can't be asked, with that fault. Gives what ends it."""
    last = [loader.blocks.next - 1]

    def grown():
        try:
            newest = loader.blocks.next - 1
            if newest > last[0]:
                found = ask(query, last[0])
                last[0] = newest
                if found:
                    take(found)
        except (Refused, Gone) as fault:
            take(fault)
        if loader.ended.is_set():
            take(None)

    # (a query that is refused with its bounds is refused here)
    loader.ask(query, 1, None, 1)
    loader.grown.append(grown)
    if loader.ended.is_set():
        take(None)
    return lambda: grown in loader.grown and loader.grown.remove(grown)


def follow(loader, query):
    """A queue of the numbers of new matches, as `whenever_grown` gives them, and what ends it."""
    came = queue.Queue()
    return came, whenever_grown(loader, query, lambda *asked: [number for page in loader.pages(*asked) for number in page], came.put)


class Watch:
    """Counts the new matches of a query, until `stop` is called."""

    def __init__(self, loader, query):
        self.count = 0
        self.fault = None
        self.stop = whenever_grown(loader, query, lambda *asked: loader.count(*asked)[1], self._take)

    def _take(self, found):
        if isinstance(found, Exception):
            self.fault = found
        elif found:
            self.count += found


def new_matches(came):
    """What comes to such a queue, until its end."""
    while True:
        found = came.get()
        if found is None:
            return
        if isinstance(found, Exception):
            raise found
        yield found

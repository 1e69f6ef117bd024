"""The command: its words, over pipes, on a terminal, and how it ends."""
import contextlib
import io
import json
import os
import signal
import subprocess
import sys
import time

from comparing import check
from earlybird_live.command import make_parser, read_words
from generators.commands import COMMANDS, OPTIONS
from terminal import Terminal
from terminal import on_a_terminal as shown_on_a_terminal

from .loads import PROGRAM, write

# seconds for the first answer over a large log, where much else runs
SOON = 4


def command(words, **how):
    """What the command prints and says, and how it ends."""
    done = subprocess.run([PROGRAM, "live", *words], stdout=subprocess.PIPE, stderr=subprocess.PIPE, **how)
    return done.stdout.decode(), done.stderr.decode(), done.returncode


def refused(words):
    """What the command says of words that it doesn't take, and its status, without a process."""
    said, before = io.StringIO(), sys.argv
    sys.argv = ["earlybird-live", *words]
    try:
        with contextlib.redirect_stderr(said), contextlib.redirect_stdout(io.StringIO()):
            read_words()
        return "", 0
    except SystemExit as ended:
        return said.getvalue(), ended.code
    finally:
        sys.argv = before


def made_log(folder):
    """A log of 1,000 lines."""
    return write(os.path.join(folder, "a log.txt"), "".join("w%d line %d\n" % (n % 3, n) for n in range(1000)))


def options(folder):
    """The words that are read are those of the table; wrong ones are refused by name."""
    table = {"--" + name: ["-" + OPTIONS[name].letter] * bool(OPTIONS[name].letter) for name in COMMANDS["live"].options}
    read = {it.option_strings[-1]: it.option_strings[:-1] for it in make_parser()._actions if it.option_strings}
    check("live: the options of the table", table, read)
    path = made_log(folder)
    for words, part in ((["--nope", path], "--nope"), (["-n", "0", path], "isn't a number from 1 to 1000"), (["-n", "\u00b2", path], "isn't a number"), (["--memory", "5", path], "no size"),
                        (["--memory", "1M", path], "too small"), (["--fields", "A", path], "small letters"), (["--fields", "a,a", path], "each once"), (["-c", path], "--query"),
                        (["-cfq", "w1", path], "leave one of them out"), ([path + ".not"], "isn't there"), ([folder], "is a folder"), (["--color", "red", path], "red"),
                        ([path], "ask with --query"), (["-q", "x", "a\x1b[2J"], "isn't there")):
        said, code = refused(words)
        check("live %s" % words[:2], (2, True, False, 1), (code, part in said, "\x1b" in said, said.count("\n")))
    out, said, code = command(["--nope", path])
    check("live: usage", ("", True, 2), (out, said == "earlybird: live: there is no option --nope; earlybird help live tells all\n", code))
    for words, near in ((["--folow", path], "--follow"), (["--colour=always", path], "--color")):
        check("live %s" % words[0], ("earlybird: live: there is no option %s: did you mean %s?\n" % (words[0], near), 2), refused(words))


def over_pipes(folder):
    """Matches as lines and as JSON, counts and statuses."""
    path = made_log(folder)
    check("-q", ("w1 line 994\nw1 line 997\n", "", 0), command(["-q", "w1", "-n", "2", path]))
    check("-q, nothing", ("", "", 1), command(["-q", "zzz", path]))
    for query, said in (("(", "bad query at 2 of the query: the query ends too early: a parenthesis is open, or a word is missing"),
                        ("w1)", "bad query at 3 of the query: no parenthesis is open, or nothing is in it"),
                        ('w2 "w1', "bad query at 4 of the query: the quote isn't closed, or no right number follows ~"),
                        ("w1 OR", "bad query at 6 of the query: the query ends too early: a parenthesis is open, or a word is missing")):
        check("-q, the bad query %s" % query, ("", "earlybird: %s\n" % said, 2), command(["-q", query, path]))
    check("-q, two lines", ("", "earlybird: a query is one line at 3 of the query\n", 2), command(["-q", "w1\nw2", path]))
    check("-c", ("333\n", "", 0), command(["-cq", "w1", path]))
    check("-c, nothing", ("0\n", "", 1), command(["-cq", "zzz", path]))
    with open(path, "rb") as file:
        check("standard input", ("w1 line 997\n", "", 0), command(["-q", "w1", "-n", "1"], input=file.read()))
    check("no input at all", ("", "", 1), command(["-q", "w1"], stdin=subprocess.DEVNULL))
    other = write(os.path.join(folder, "b.log"), b'{"time":1796032800,"msg":"w1 \xc3\xa9","user":"mara"}\r\nw1 \xff\x1b[2J\n')
    done = subprocess.run([PROGRAM, "live", "-q", "w1", "-n", "2", path, other], stdout=subprocess.PIPE, cwd=folder)
    check("lines as they came, with their files", b'b.log:{"time":1796032800,"msg":"w1 \xc3\xa9","user":"mara"}\nb.log:w1 \xff\x1b[2J\n', done.stdout.replace(folder.encode() + b"/", b""))
    rows = [json.loads(row) for row in command(["-q", "w1", "-n", "2", "--json", other])[0].splitlines()]
    name = rows[0].pop("file")
    check("--json", [{"line": 1, "time": "2026-11-30T10:00:00.000Z", "message": {"time": 1796032800, "msg": "w1 \u00e9", "user": "mara"}},
                     {"file": name, "line": 2, "text": "w1 \ufffd\x1b[2J"}], rows)
    out = command(["-q", "w1 mara", "--color=always", other], env={**os.environ, "TZ": "UTC"})[0]
    check("--color=always", "\x1b[35m1:\x1b[0m \x1b[2m2026-11-30 10:00:00\x1b[0m  \x1b[1;31mw1\x1b[0m \u00e9\x1b[2m user=\x1b[0m\x1b[1;31mmara\x1b[0m\n", out)
    check("no control of a line reaches a terminal", False, "\x1b[2J" in command(["-q", "w1", "--color=always", other])[0])
    check("in another locale", ("w1 line 997\n", "", 0), command(["-q", "w1", "-n", "1", path], env={**os.environ, "LC_ALL": "C", "PYTHONUTF8": "0", "PYTHONCOERCECLOCALE": "0"}))
    check("a name that isn't UTF-8", ("w1\n", "", 0), command(["-q", "w1", write(os.path.join(folder.encode(), b"\xff"), "w1\n")]))
    line = '"$1" live -q w1 -n 1000 "$2" | head -1; echo "${PIPESTATUS[0]}"'
    done = subprocess.run(["bash", "-c", line, "bash", PROGRAM, path], stdout=subprocess.PIPE, stderr=subprocess.PIPE)
    check("a reader that has gone", (b"w1 line 1\n0\n", b""), (done.stdout, done.stderr))
    with open("/dev/full", "wb") as full:
        done = subprocess.run([PROGRAM, "live", "-q", "w1", path], stdout=full, stderr=subprocess.PIPE)
        check("a full device", (b"earlybird: write fault: No space left on device\n", 4), (done.stderr, done.returncode))
    for closed, want in ((">&-", (b"earlybird: write fault: standard output is closed\n", 4)), ("<&-", (b"earlybird: live: standard input is closed; earlybird help live tells all\n", 2))):
        done = subprocess.run(["bash", "-c", '"$1" live -q w1 %s' % closed, "bash", PROGRAM], stdin=subprocess.DEVNULL, stdout=subprocess.PIPE, stderr=subprocess.PIPE)
        check("closed: %s" % closed, want, (done.stderr, done.returncode))
    going = subprocess.Popen([PROGRAM, "live", "-fq", "w1", "-n", "1", path], stdout=subprocess.PIPE)
    check("-f: first the newest", b"w1 line 997\n", going.stdout.readline())
    write(path, "w2\nw1 new\n", "ab")
    check("-f: and then each new one", b"w1 new\n", going.stdout.readline())
    going.send_signal(signal.SIGINT)
    check("-f: Ctrl-C ends it", 130, going.wait(30))
    going.stdout.close()
    out = subprocess.run(["bash", "-c", '{ echo w1 a; sleep 0.5; echo w1 b; } | "$1" live -fq w1', "bash", PROGRAM], stdout=subprocess.PIPE)
    check("-f of a pipe, to its end", (b"w1 a\nw1 b\n", 0), (out.stdout, out.returncode))


def on_a_terminal(folder):
    """The prompt: matches with marks, older ones, counts, reasons, hints, Ctrl-C, and lines from a pipe."""
    path = os.path.join(folder, "a log.txt")
    environment = {"XDG_STATE_HOME": os.path.join(folder, "state"), "NO_COLOR": ""}
    for name, words, how in (("a file", [PROGRAM, "live", "-f", path], {}), ("a pipe", ["sh", "-c", 'trap : INT; cat "$2" | "$1" live', "sh", PROGRAM, path], {})):
        made_log(folder)
        screen = Terminal(words, env=environment, **how)
        asked = [(b"w1 line 997", "-- the newest 1, all of 1,000 lines"), (b"w1", "-- the newest 20 of 1,000 lines"), (b"", "-- the next 20 of 1,000 lines"), (b":count w2", "-- 333 of 1,000 lines"),
                 (b"(w1", "^ the query ends too early"), (b"w1 AND w2", "no match: all parts of a query have to match: leave AND out"), (b"lin", 'no match: "lin" is no word of its own here, but is within line'),
                 (b"user:mara", "no match: user is no field"), (b":n 5", ""), (b"w2", "-- the newest 5 of 1,000 lines"), (b":n 5000", ":n takes 1 to 1000"), (b":nope", "there is no command :nope"),
                 (b":status", "fields: none"), (b"\x1b[A", "fields: none")]
        check("%s: a prompt" % name, True, screen.wait_for(b"> "))
        for line, want in asked:
            # (all that was there is read by then)
            time.sleep(0.5 if line == asked[0][0] else 0)
            screen.type(line + b"\n")
            check("%s: %s" % (name, line), True, screen.wait_for(want.encode()) and screen.wait_for(b"> "))
        screen.type(b"half a line")
        screen.wait_for(b"half a line")
        # (readline looks for an interrupt while it waits for a key)
        time.sleep(0.3)
        screen.type(b"\x03")
        check("%s: Ctrl-C gives another prompt" % name, True, screen.wait_for(b"> "))
        for _ in range(20):
            screen.type(b"w1 OR w2\n:count w1\n")
            screen.process.send_signal(signal.SIGINT)
            time.sleep(0.01)
        time.sleep(0.3)
        screen.type(b"\n:count line 500\n")
        check("%s: after many interrupts it answers" % name, True, screen.wait_for(b"-- 1 of 1,000 lines") and screen.wait_for(b"> "))
        if name == "a file":
            screen.type(b":watch w2\n:follow w1\n")
            check("%s: it follows" % name, True, screen.wait_for(b"new matches of w1; Ctrl-C ends it"))
            write(path, "w2 new\nw1 new\n", "ab")
            check("%s: a new match" % name, True, screen.wait_for(b"\x1b[1;31mw1\x1b[0m new"))
            time.sleep(0.1)
            screen.type(b"\x03")
            check("%s: Ctrl-C ends that" % name, True, screen.wait_for(b"> "))
            screen.type(b":watch\n")
            # (a key counts once the prompt is there: before that it is the terminal's)
            check("%s: a watch has counted" % name, True, screen.wait_for(b"       1  w2") and screen.wait_for(b"> "))
        screen.type(b"\x04")
        shown, code = screen.end()
        check("%s: Ctrl-D ends it" % name, (0, False), (code, "Traceback" in shown))
        check("%s: words are marked" % name, True, "\x1b[1;31mw1\x1b[0m \x1b[1;31mline\x1b[0m \x1b[1;31m997\x1b[0m" in shown)
    with open(os.path.join(folder, "state/earlybird/history"), encoding="utf-8") as file:
        check("what was asked is kept", True, "w1 line 997\n" in file.read())
    shown = shown_on_a_terminal([PROGRAM, "live", "-q", "w1", "-n", "1", path], env={"TERM": "dumb"})
    check("a terminal without colours", ("998: w1 line 997\n", 0), shown)
    shown, code = shown_on_a_terminal(["sh", "-c", 'printf ":q\\n" | "$1" live "$2"', "sh", PROGRAM, path], env={**environment, "TERM": "dumb"})
    check("lines for the prompt from a pipe", (0, False), (code, "\x1b" in shown))
    write(os.path.join(folder, "state2"), "")
    shown, code = shown_on_a_terminal(["sh", "-c", 'echo :q | "$1" live "$2"', "sh", PROGRAM, path], env={**environment, "XDG_STATE_HOME": os.path.join(folder, "state2")})
    check("a history that can't be kept", (0, False), (code, "Traceback" in shown))


def at_once(folder):
    """The first answer comes within a second of the start on a machine that has nothing else to do, while a log of 100 MB still loads."""
    path, size = os.path.join(folder, "large.log"), 100 << 20
    piece = b"".join(b"2026-11-30T10:%02d:%02d INFO request %d of worker %d took %d ms\n" % (n // 60 % 60, n % 60, n, n % 7, n * 37 % 1000) for n in range(10000))
    with open(path, "wb") as file:
        for _ in range(size // len(piece)):
            file.write(piece)
    begun = time.monotonic()
    screen = Terminal([PROGRAM, "live", path], env={"XDG_STATE_HOME": os.path.join(folder, "state")})
    screen.type(b"request 4567\n")
    check("100 MB: an answer while they load", True, screen.wait_for(b"lines read so far"))
    took = time.monotonic() - begun
    print("live: the first answer over 100 MB after %.2f s" % took, flush=True)
    check("100 MB: and soon", True, took < SOON)
    screen.wait_for(b"> ")
    screen.type(b"\x04")
    shown, code = screen.end()
    check("100 MB: the line is shown, and Ctrl-D ends it meanwhile", (True, 0), ("\x1b[1;31m4567\x1b[0m of worker 3 took 979 ms" in shown, code))
    os.remove(path)


def ended(folder):
    """A signal ends it with its programs, and an index that ends is told."""
    path = made_log(folder)
    for number, want in ((signal.SIGTERM, 143), (signal.SIGINT, 130)):
        going = subprocess.Popen([PROGRAM, "live", "-fq", "w1", "-n", "1", path], stdout=subprocess.PIPE, stderr=subprocess.PIPE)
        going.stdout.readline()
        below = children_of(going.pid)
        check("%s: it has a program" % number.name, True, len(below) > 0)
        going.send_signal(number)
        out, said = going.communicate(timeout=30)
        check("%s: how it ends" % number.name, (b"", b"", want), (out, said, going.returncode))
        check("%s: its programs ended, too" % number.name, [], [it for it in below if os.path.exists("/proc/%d" % it)])
    going = subprocess.Popen([PROGRAM, "live", "-fq", "w1", "-n", "1", path], stdout=subprocess.PIPE, stderr=subprocess.PIPE)
    going.stdout.readline()
    for each in children_of(going.pid):
        os.kill(each, signal.SIGKILL)
    write(path, "w1 more\n", "ab")
    out, said = going.communicate(timeout=30)
    check("an index that was killed", (b"", b"earlybird: the index ended: signal 9\n", 3), (out, said, going.returncode))


def children_of(process):
    """The processes that a process began."""
    found = []
    for task in os.listdir("/proc/%d/task" % process):
        with open("/proc/%d/task/%s/children" % (process, task), encoding="ascii") as file:
            found += map(int, file.read().split())
    return found

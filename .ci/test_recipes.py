"""What .ci/test-program tries of docs/RECIPES.md: commands of the page, run as they are over small files, print what they should."""
import json
import os
import re
import shutil
import subprocess
import tempfile

ROOT = os.getcwd()
SYSLOG = """Nov 30 10:00:00 db sshd[7]: Failed password for root
2026-11-30T10:00:01.5+01:00 web nginx: failed upstream
Nov  3 10:00:02 db sshd: failed again: twice
a line of another form failed
"""
CSV = 'comment,user\n"Night train, ""late""",jon\ntrain,mara\n"two\nlines of a train",jon\n'


SYSLOG_OF_PIECES = """Nov 30 10:00:00 db sshd[7]: err_timeout for root
Nov 30 10:00:01 db nginx: err_timeout upstream
Nov 30 10:00:02 db sshd[7]: timeouts
"""
JAVA = """2026-11-30 10:00:00,123 ERROR [main] com.acme.billing.InvoiceService - TimeoutError:connect
java.net.SocketTimeoutException: read_timeout
\tat com.acme.billing.Gateway.pay(Gateway.java:42) err_timeout
2026-11-30 10:00:01,000 INFO [main] com.acme.stock.Store - err_timeout
"""
PYTHON = """ERROR:acme.billing:err_timeout
INFO:acme.billing:paid
Traceback (most recent call last):
ERROR:acme.stock:gone
"""
DPKG = """2026-11-30 10:00:00 startup archives unpack
2026-11-30 10:00:01 upgrade linux-libc-dev:amd64 6.1.0-1 6.1.0-2
2026-11-30 10:00:02 status installed linux-libc-dev:amd64 6.1.0-2
2026-11-30 10:00:03 upgrade tzdata:all 2026a 2026b
"""
# a journal of a check: seconds behind 12:00 UTC of 2026-11-30 and microseconds, the level, the message
NOON = 1796040000
JOURNAL = ((59, 999999, 3, "before the hour"), (60, 0, 3, "err_timeout"), (119, 999999, 3, "again"), (120, 0, 3, "again"), (150, 0, 6, "no error, though a timeout"),
           (160, 0, 3, [104, 105]), (3659, 999999, 3, "TimeoutError:connect timeout"))


def recipe(text, words):
    """The command that follows these words of the page, with the launcher where it is."""
    rest = text[text.index(words) + len(words):]
    block = re.search(r"\n\n((?:    .*\n)+)", rest).group(1)
    return re.sub("^    ", "", block, flags=re.M).replace("./earlybird", "'%s'" % os.path.join(ROOT, "earlybird"))


def run(folder, command):
    """What a command prints in a folder, and how it ends. Programs of that folder's `bin` come before others."""
    environment = {**os.environ, "PATH": os.path.join(folder, "bin") + ":" + os.environ["PATH"], "TZ": "UTC"}
    done = subprocess.run(["bash", "-c", command], cwd=folder, stdout=subprocess.PIPE, stderr=subprocess.PIPE, env=environment)
    return done.stdout.decode(), done.stderr.decode(), done.returncode


def write(folder, name, text, mode=0o644):
    """A file of a folder."""
    path = os.path.join(folder, name)
    with open(path, "w", encoding="utf-8") as file:
        file.write(text)
    os.chmod(path, mode)


def texts(check, page, folder):
    """Lines of text, files, syslog, CSV, and texts of answers."""
    write(folder, "app.log", "a timeout\nno \"time\"\nTimeout \\ again\n")
    write(folder, "other.log", "urgency=low\nother\n")
    write(folder, "syslog", SYSLOG)
    write(folder, "orders.csv", CSV)
    write(folder, "messages.jsonl", "".join('{"id":%d,"text":"sunset %d"}' % (at, at) + "\n" for at in (7, 70, 9)))
    end = lambda documents: "end: documents %d, queries 1, refused 0\n" % documents
    for words, want in (
        ("Each line is a message with its number as its id:", "4 seen 3: 3 1\n" + end(3)),
        ("asks for the lines of one file:", "6 seen 5: 5\n" + end(5)),
        ("another form the whole is the text:", "5 seen 4: 3 1\n" + end(4)),
        ("answer, newest first:", '{"id":9,"text":"sunset 9"}\n{"id":70,"text":"sunset 70"}\n{"id":7,"text":"sunset 7"}\n'),
        ("messages of every answer:", '{"id":9,"text":"sunset 9"}\n{"id":70,"text":"sunset 70"}\n{"id":7,"text":"sunset 7"}\n'),
    ):
        check("recipes: %s" % words, (want, "", 0), run(folder, recipe(page, words)))
    if shutil.which("sqlite3"):
        check("recipes: CSV", ("4 seen 3: 3 1\n" + end(3), "", 0), run(folder, recipe(page, "names the columns:")))
    else:
        print("test-program: the recipe for CSV isn't tried: there is no sqlite3")


def words_of_logs(check, page, folder):
    """Words by their pieces, in logs of several kinds."""
    for name, text in (("syslog", SYSLOG_OF_PIECES), ("java.log", JAVA), ("python.log", PYTHON), ("dpkg.log", DPKG)):
        write(folder, name, text)
    # (which makes the messages that the next one reads)
    run(folder, recipe(page, "another form the whole is the text:"))
    end = lambda documents, refused=0: "end: documents %d, queries 1, refused %d\n" % (documents, refused)
    for words, want in (
        ("**Syslog**, by host and program as above:", ("4 seen 3: 1\n" + end(3), "", 0)),
        ("**Java**, lines and stacks as Log4j and Logback write them:", ("5 seen 4: 3\n" + end(4), "", 0)),
        ("with the level as a field:", ("5 seen 4: 1\n" + end(4), "", 0)),
        ("**dpkg.log**, with the action as a field:", ("5 seen 4: 2\n" + end(4), "", 0)),
    ):
        check("recipes: %s" % words, want, run(folder, recipe(page, words)))


def a_journal(check, page, folder):
    """A journal by its own names, and its errors per minute as a table and as bars."""
    entries = [{"__REALTIME_TIMESTAMP": "%d%06d" % (NOON + second, micro), "PRIORITY": str(level), "MESSAGE": text} for second, micro, level, text in JOURNAL]
    os.makedirs(os.path.join(folder, "bin"), exist_ok=True)
    write(folder, "journal", "".join(json.dumps(each) + "\n" for each in entries))
    write(folder, "bin/journalctl", "#!/bin/sh\nexec cat journal\n", 0o755)
    # (13:00, whatever is asked)
    write(folder, "bin/date", "#!/bin/sh\necho %d\n" % (NOON + 3600), 0o755)
    found = "".join(" %d%06d" % (NOON + second, micro) for second, micro in ((3659, 999999), (150, 0), (60, 0)))
    check("recipes: the journal by pieces", ("8 seen 6:%s\nend: documents 6, queries 1, refused 1\n" % found, "", 0), run(folder, recipe(page, "document`:")))
    check("recipes: errors per minute", ("", "", 0), run(folder, recipe(page, "each minute is a bucket of 60,000,000 ids:")))
    # (of the hour's minutes, 12:01 to 13:00, the first has two errors, the next one and the last one)
    numbers = {1: 2, 2: 1, 60: 1}
    minutes = [("%02d:%02d" % (12 + at // 60, at % 60), numbers.get(at, 0)) for at in range(1, 61)]
    with open(os.path.join(folder, "minutes.txt"), encoding="utf-8") as file:
        check("recipes: the table of minutes", "".join("%s %d\n" % each for each in minutes), file.read())
    bars = "".join("%s %s %d\n" % (at, "#" * 30 * number, number) for at, number in minutes)
    check("recipes: the minutes as bars", (bars, "", 0), run(folder, recipe(page, "the fullest minute 60 signs long:")))


def a_restart(check, page, folder):
    """After an index was killed the same commands bring the same feed."""
    start = recipe(page, "the same three lines again bring the same feed:")
    with open(os.path.join(folder, "messages.jsonl"), "w", encoding="utf-8") as file:
        file.write("".join('{"id":%d,"text":"train %d"}\n' % (at, at) for at in range(1, 1001)))
    asks = start.replace("200M", "2M") + """
for round in $(seq 100); do
  echo '?3 train' >&3; sleep 0.1
  grep -q "$WANTED" answers && break
done
%s
"""
    for wanted, ends in ((": 1000 999 998", "echo '{\"id\":1001,\"text\":\"train\"}' >> messages.jsonl; kill -9 %1 %2"), (": 1001 1000 999", "kill %1 %2")):
        if os.path.exists(os.path.join(folder, "answers")):
            os.remove(os.path.join(folder, "answers"))
        shell = subprocess.Popen(["bash", "-m", "-c", asks % ends], cwd=folder, env={**os.environ, "WANTED": wanted}, stderr=subprocess.DEVNULL)
        shell.wait(60)
        with open(os.path.join(folder, "answers"), encoding="utf-8") as file:
            check("recipes: a feed, the newest are %s" % wanted, True, wanted in file.read())


def try_all(check):
    """All of them, where jq is here."""
    with open("docs/RECIPES.md", encoding="utf-8") as file:
        page = file.read()
    if not shutil.which("jq"):
        print("test-program: recipes aren't tried: there is no jq")
        return
    with tempfile.TemporaryDirectory(prefix="recipes ") as folder:
        texts(check, page, folder)
        words_of_logs(check, page, folder)
        a_journal(check, page, folder)
        a_restart(check, page, folder)

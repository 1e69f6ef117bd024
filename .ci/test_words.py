"""What .ci/test-program tries of the words of the command line: each form of help; that there is a reason exactly where the program answers usage, over
random lists of words; what some wrong words are told; that the numbers of --memory fit and are most of it; and what is said to people on a
terminal of a closed pipe and of `save`."""
import os
import random
import re
import shlex
import subprocess
import tempfile

from generators.commands import COMMANDS, OPTIONS
from terminal import on_a_terminal

ROOT = os.getcwd()
PROGRAM = os.path.join(ROOT, "earlybird")
TABLE, WORDED = (os.path.join(ROOT, "share/earlybird", it) for it in ("table.awk", "words.awk"))
LISTS = 5000
# letters by which lists of words are told apart
WORD, LINE = "\x1e", "\x1d"

ODD = ["", "--", "-", "-h", "x", "file.jsonl", "--nope", "--doc", "docs", "--stats=1", "--json=", "=", "--=", "--docs=", "-d", "a b", "\n", "\x1b[31m", "--prefix", "--memoryy",
       "?5 x", "--Docs", "--segments ", "ü", "--fields", "*", "%s", "\\n", "a=b", "--run", "--query", "--text", "--since", "x" * 300, "\x9b"]
NUMBERS = ["", "abc", "1.5", "-1", "1e3", "0x10", "4k", "8K", "1M", " 5", "5 ", "+5", "1,000", "0000000001", "00000001024", "--json", "--docs", "٣", "4_000", "4'096", "2\n", "-h",
           "000000004", "0", "9" * 40]
LISTS_OF_NAMES = ["", "from,", ",", "from,from", "since", "From", "fr-om", "n" * 33, "a,b,c,d,e,f,g,h,i", "from, room", "a b", "since,a", "ü", "a,,b", "--json", "from=1", "a,sinces",
                  "since_", "A", "\n", "a\n", "a," * 500]
STARTS = ["0", "1", "18446744073709551615", "18446744073709551616", "007", "x", "", "00000000000000000001", "000000000000000000001", "99999999999999999999", "1844674407370955161",
          "08446744073709551616"]
MANY = ["1", "2", "5", "000000001", "0000000001", "0", "40000", "40001", "-1", "", "x", "1.0"]


class Made:
    """Lists of words, of which about two in five ask for a command."""

    def __init__(self, seed):
        self.chance = random.Random(seed)

    def number(self, name):
        it, pick = OPTIONS[name], self.chance.random()
        if pick < 0.62:
            if name == "terms":
                return str(self.chance.choice([1024, 2048, 8192, 4096, 1024, 65536, 1048576, 262144]))
            if name == "docs":
                return str(self.chance.choice([1, 7, 100, 4096, 10000, 65536, 1000000, 16777216]))
            return str(self.chance.randint(it.low, it.high))
        if pick < 0.7:
            return str(self.chance.choice([it.low, it.high])).zfill(self.chance.choice([1, 9, 8]))
        if pick < 0.8:
            return str(self.chance.choice([it.low - 1, it.high + 1, 0, 3000, 1000, 10 ** 9, 10 ** 8, 999999999, 2 ** 64, 1536]))
        return self.chance.choice(NUMBERS)

    def value(self, name):
        it = OPTIONS[name]
        if it.value == "N":
            return self.number(name)
        if it.value == "LIST":
            if self.chance.random() < 0.6:
                return ",".join(self.chance.sample(["from", "room", "level", "a", "b_2", "9", "x" * 32, "_", "user"], self.chance.randint(1, 8)))
            return self.chance.choice(LISTS_OF_NAMES)
        return str(self.chance.choice([*it.offers, it.example, "", "x"]))

    def option(self, name):
        if not OPTIONS[name].value:
            return ["--" + name]
        value = self.value(name)
        return ["--%s=%s" % (name, value)] if self.chance.random() < 0.4 else ["--" + name, value]

    def words(self):
        chance = self.chance
        if chance.random() < 0.05:
            return [chance.choice(ODD + ["rum", "fed", "laod", "RUN", "runn", "ru"])] + chance.choices(ODD, k=chance.randrange(2))
        name = chance.choice([it for it in COMMANDS if not COMMANDS[it].launcher])
        if name == "bench":
            return [name, *([chance.choice(ODD + ["1", "5"]) for _ in range(chance.randrange(4))] if chance.random() < 0.2 else [chance.choice(STARTS), chance.choice(MANY)])]
        it, out = COMMANDS[name], []
        mine = [each for each in (*it.ways, *it.options) if not OPTIONS[each].launcher]
        rest = [each for each in mine if each not in it.ways]
        if it.ways and chance.random() < 0.5:
            out += self.option(chance.choice(it.ways))
        if "--parts" in " ".join(out) and chance.random() < 0.4:
            out += ["--overlap"]
        for each in chance.sample(rest, chance.randrange(0, min(4, len(rest)) + 1)):
            out += self.option(each)
        if chance.random() < 0.15:
            out += self.option(chance.choice(mine))
        if chance.random() < 0.06:
            out += self.option(chance.choice([each for each in OPTIONS if not OPTIONS[each].launcher]))
        if chance.random() < 0.08:
            out.insert(chance.randrange(len(out) + 1), chance.choice(ODD))
        if chance.random() < 0.04 and out:
            out.pop()
        if chance.random() < 0.2:
            chance.shuffle(out)
        return [name] + out


def ask_table(mode, words):
    """What the table says of words, as the launcher asks it."""
    how = {"stdout": subprocess.PIPE, "stderr": subprocess.STDOUT, "env": {**os.environ, "LC_ALL": "C"}}
    return subprocess.run(["awk", "-v", "mode=" + mode, "-f", TABLE, "-f", WORDED, "--", *words], **how).stdout.decode("utf-8", "replace")


def reasons(lists):
    """What the table says of each of many lists, in one run: its functions over lists that are lines."""
    with open(WORDED, encoding="utf-8") as file:
        functions = re.sub(r"^BEGIN \{.*?^\}$", "", file.read(), flags=re.M | re.S)
    loop = functions + """
        BEGIN {
            set_table()
            while ((getline line < "-") > 0) {
                for (at in given) delete given[at]
                for (at in values) delete values[at]
                reason = ""; settled = ""
                ARGC = split(line, parts, "%s")
                for (at = 2; at <= ARGC; at++) { gsub("%s", "\\n", parts[at]); ARGV[at - 1] = parts[at] }
                look_at_words()
                print reason
            }
        }""" % (WORD, LINE)
    text = "".join(WORD.join(["", *words]).replace("\n", LINE) + "\n" for words in lists)
    with tempfile.NamedTemporaryFile("w", suffix=".awk", encoding="utf-8") as file:
        file.write(loop)
        file.flush()
        done = subprocess.run(["awk", "-f", TABLE, "-f", file.name], input=text.encode(), stdout=subprocess.PIPE, env={**os.environ, "LC_ALL": "C"}, check=True)
    return done.stdout.decode("utf-8", "replace").splitlines()


def statuses(program, lists):
    """How the program ends with each list and no input, by two shells. It has so little memory that a large index ends as that, and not as usage."""
    halves = []
    for half in (lists[::2], lists[1::2]):
        text = "ulimit -v 40000; ulimit -c 0\n" + "".join("%s </dev/null >/dev/null 2>&1; echo $?\n" % " ".join(map(shlex.quote, [program, *words])) for words in half)
        shell = subprocess.Popen(["sh"], stdin=subprocess.PIPE, stdout=subprocess.PIPE, stderr=subprocess.DEVNULL)
        shell.stdin.write(text.encode())
        shell.stdin.close()
        halves.append(shell)
    ended = [list(map(int, shell.stdout.read().split())) for shell in halves]
    for shell in halves:
        shell.wait()
    out = [0] * len(lists)
    out[::2], out[1::2] = ended
    return out


def a_reason_where_refused(check, program, seed):
    """The table has a reason exactly where the program answers usage."""
    made = Made(seed)
    lists = [[]] + [made.words() for _ in range(LISTS - 1)]
    # (help is the launcher's, and a terminal isn't the program's matter)
    lists = [it for it in lists if it not in (["-h"], ["--help"], ["help"], ["-V"], ["--version"])]
    told, ended = reasons(lists), statuses(program, lists)
    check("words: a line for each list", (len(lists), len(lists)), (len(told), len(ended)))
    check("words: a reason where the program answers usage, and nowhere else", [], [(it, said, code) for it, said, code in zip(lists, told, ended) if (code == 2) != (said != "")][:20])
    share = sum(code == 2 for code in ended) / len(ended)
    check("words: right ones and wrong ones", True, 0.4 < share < 0.8)
    check("words: no reason has a control, or is longer than 200 letters", [], [it for it in told if len(it) > 200 or re.search("[\x00-\x1f\x7f-\x9f]", it)])
    some = lists[:60]
    check("words: the same by the launcher's question", [it for it in told[:60]], [ask_table("explain", it).rstrip("\n") for it in some])


# what some words are told on a terminal
TOLD = [
    ("", "a command is missing; earlybird help names all"), ("rum", "there is no command rum: did you mean run?"),
    ("app.log", "there is no command app.log; to search a file: earlybird live app.log"), ("--docs 5", "a command comes before --docs, as in: earlybird run --docs"),
    ("run --terms 3000", "--terms: 3000 is no power of two: 2048 or 4096"), ("run -d 5", "there is no option -d of run: did you mean --docs?"),
    ("run --fields", "--fields takes names with commas between, as in --fields from,level"), ("run --idd x", "there is no option --idd of run: did you mean --id?"),
    ("run --nope", "there is no option --nope of run; earlybird help run names all"), ("run file.jsonl", "run reads standard input, and takes no files: earlybird run < file.jsonl"),
    ("run 'a b'", "run reads standard input, and takes no files: earlybird run < 'a b'; for lines of text: earlybird live 'a b'"),
    ("feed app.log", "feed reads standard input, and takes no files: earlybird feed < app.log; for lines of text: earlybird live app.log"),
    ("save app.log", "save reads standard input, and takes no files: earlybird save < app.log"),
    ("load --docs 10", "load takes its setting from the image: leave --docs out"), ("load a.image", "load reads the image from standard input: earlybird load < a.image"),
    ("feed --parts 2", "--parts is an option of run, and not of feed"), ("run --docs 4k", "--docs: a number has digits alone, unlike 4k: 4096"),
    ("run --docs abc", "--docs: abc is no whole number; N is 1 to 16777216"), ("run --docs", "--docs takes a number from 1 to 16777216, as in --docs 4096"),
    ("run --docs --json", "--docs takes a number from 1 to 16777216, as in --docs 4096, and --json follows"),
    ("run --workers 99", "--workers: 99 is too large; N is 1 to 16"), ("run --fields A", "--fields: a name has small letters, digits and _ alone, unlike A"),
    ("run --watch --workers 2", "--workers and --watch can't be given together: leave one of them out"), ("feed --keep 3 --keep 4", "--keep is given twice: once is enough"),
    ("run --segments 64 --docs 16777216", "this setting takes 8.3 GiB, and the most is 1 GiB: --segments 7"), ("run --stats=1", "--stats takes no value"),
    ("run --memory 800", "--memory: 800 has no unit: 800M is MiB, 800K is KiB"), ("run --memory 2G", "--memory: 2G is more than 1 GiB, which indexes may take at most"),
    ("run --memory 1K", "--memory: 1K is too small; the least is 633 KiB"), ("feed --memory 1M --docs 5", "--memory settles --docs: leave one of them out"),
    ("bench 1", "bench takes two numbers, START and DOCS, as in: earlybird bench 1 10000"), ("install --prefx /a", "there is no option --prefx of install: did you mean --prefix?"),
    ("uninstall all", "uninstall takes no word all; see earlybird help uninstall"),
]


def what_is_told(check):
    """On a terminal the reason, and elsewhere the program's own line; the status is 2."""
    for words, want in TOLD:
        line = "%s %s" % (shlex.quote(PROGRAM), words)
        check("on a terminal: %s" % words, ("earlybird: %s\n" % want, 2), on_a_terminal(["sh", "-c", line], stdout=subprocess.DEVNULL))
    for words in (["run", "--docs", "abc"], ["rum"], []):
        done = subprocess.run([PROGRAM, *words], stdin=subprocess.DEVNULL, stdout=subprocess.PIPE, stderr=subprocess.PIPE)
        check("elsewhere: %s" % words, (b"", True, 2), (done.stdout, done.stderr.startswith(b"earlybird: usage: "), done.returncode))
    # (what is refused is seen by the program alone: without awk, too)
    with tempfile.TemporaryDirectory() as folder:
        for name in ("sh", "dirname", "readlink", "find", "head", "cat", "sort", "xargs", "cksum", "sed", "touch", "mv", "rm", "mkdir"):
            os.symlink(os.path.realpath(subprocess.run(["sh", "-c", "command -v " + name], stdout=subprocess.PIPE).stdout.decode().strip()), os.path.join(folder, name))
        how = {"stdin": subprocess.DEVNULL, "stdout": subprocess.DEVNULL, "env": {"PATH": folder}}
        said, code = on_a_terminal([PROGRAM, "run", "--docs", "abc"], **how)
        check("without awk: the program's own line", (True, 2), (said.startswith("earlybird: usage: run "), code))
        check("without python3: live says so", ("earlybird: this command needs python3, which is not installed\n", 70), on_a_terminal([PROGRAM, "live", "x"], **how))
        check("without python3: help is there", 0, on_a_terminal([PROGRAM, "live", "--help"], **how)[1])
        with open("examples/first.jsonl", "rb") as file:
            check("without python3: save", ("", 1), on_a_terminal([PROGRAM, "save"], **{**how, "stdin": file}))


def forms_of_help(check):
    """Each form of help, on standard output, with the status 0."""
    texts = {}
    for path in ("help.txt", "short.txt", "version", *("help/%s.txt" % name for name in COMMANDS)):
        with open(os.path.join("share/earlybird", path), "rb") as file:
            texts[path] = file.read()
    forms = [(["-h"], "short.txt"), (["--help"], "help.txt"), (["help"], "help.txt"), (["help", "--help"], "help.txt"), (["-V"], "version"), (["--version"], "version")]
    for name, command in COMMANDS.items():
        own = "help/%s.txt" % name
        forms += [(["help", name], own), (["--help", name], own)]
        if not command.parser or name == "live":
            forms += [([name, "-h"], own), ([name, "--help"], own), ([name, "--docs", "5", "x", "--help"], own)]
    for words, path in forms:
        done = subprocess.run([PROGRAM, *words], stdin=subprocess.DEVNULL, stdout=subprocess.PIPE, stderr=subprocess.PIPE)
        check("help: %s" % words, (texts[path], b"", 0), (done.stdout, done.stderr, done.returncode))
    for words in (["rum"], ["../help"], [""], ["--docs"]):
        done = subprocess.run([PROGRAM, "help", *words], stdin=subprocess.DEVNULL, stdout=subprocess.PIPE, stderr=subprocess.PIPE)
        check("help of what is no command: %s" % words, (b"", 1, 2), (done.stdout, done.stderr.count(b"\n"), done.returncode))
    check("alone on a terminal", (texts["short.txt"].decode(), 0), on_a_terminal([PROGRAM]))
    check("each command's help has its options", [], [(name, it) for name, command in COMMANDS.items() for it in (*command.ways, *command.options) if b"--" + it.encode() not in texts["help/%s.txt" % name]])
    check("no line of help over 100 letters", [], [line for text in texts.values() for line in text.decode().splitlines() if len(line) > 100])


def bytes_of(words):
    """What indexes of this setting take (docs/MANUAL.md)."""
    number = {word[2:].split("=")[0]: int(word.split("=")[1]) for word in words}
    return 8 * (number.get("keep", 0) + 1) * (1 + number["segments"] * (2 + number["docs"] + 77 * number["terms"]))


def sizes(check):
    """What --memory stands for is no more than it says, is most of it, and is taken."""
    for name in ("run", "feed", "save"):
        for size in ("2M", "8M", "64M", "100MiB", "2.5m", "1G"):
            setting = ask_table("memory", [name, "--memory", size]).split()
            most = float(size.rstrip("MGmiB")) * (1 << 30 if size.endswith("G") else 1 << 20)
            check("%s --memory %s: within it, and most of it" % (name, size), True, most * 0.62 < bytes_of(setting) <= most)
    check("run --memory over parts", True, 55 << 20 < 4 * bytes_of(ask_table("memory", ["run", "--parts=4", "--memory", "64M"]).split()) <= 64 << 20)
    with open("examples/first.jsonl", "rb") as file:
        lines = file.read()
    for words in (["run", "--memory", "8M"], ["run", "--memory=8M", "--json"], ["feed", "--fields", "user", "--memory", "4M"]):
        plain = [it for it in words if "memory" not in it and it not in ("8M", "4M")]
        outs = [subprocess.run([PROGRAM, *it], input=lines, stdout=subprocess.PIPE, stderr=subprocess.PIPE) for it in (words, plain)]
        check("%s: the same answers" % words, *((it.stdout, it.stderr, it.returncode) for it in outs))
    # (these messages fit with it, and don't without it)
    many = b"".join(b'{"id":%d,"text":"w%d"}\n' % (at, at) for at in range(3000))
    out = lambda words: subprocess.run([PROGRAM, "run", *words], input=many, stdout=subprocess.PIPE).stdout.splitlines()[-1]
    check("--memory gives room", (b"end: documents 3000, queries 0, refused 0", True),
          (out(["--memory", "4M"]), out(["--segments", "1", "--docs", "99999", "--terms", "1024"]).startswith(b"end: documents 1")))
    check("--memory where it can't be taken is usage", 2, subprocess.run([PROGRAM, "run", "--memory", "5G"], stdin=subprocess.DEVNULL, stderr=subprocess.DEVNULL).returncode)


def said_to_people(check):
    """A closed pipe says nothing on a terminal, and other faults say what they are; save says what it saved."""
    with tempfile.TemporaryDirectory(prefix="worded ") as folder:
        lines = os.path.join(folder, "lines")
        with open(lines, "wb") as file:
            file.write(b"".join(b'{"id":%d,"text":"w%d"}\n?5 w%d\n' % (at, at, at) for at in range(20000)) + b'\n\r\n{"id":\n{"id":7,"text":"no end of the line"}')
        shell = lambda line, **how: on_a_terminal(["bash", "-c", line, "bash", PROGRAM, lines], **how)
        check("a reader that has gone", ("1 seen 1: 0\n4\n".replace("1 seen", "2 seen"), 0), shell('"$1" run <"$2" | head -1; echo "${PIPESTATUS[0]}"'))
        check("a full device", ("earlybird: write fault\n4\n", 0), shell('"$1" run <"$2" >/dev/full; echo $?'))
        check("other faults over a pipe", ("earlybird: read fault\n3\n", 0), shell('{ "$1" run </ | cat >/dev/null; echo "${PIPESTATUS[0]}"; sleep 0.1; } | (sleep 0.4; cat)'))
        saved = "earlybird: 1024 messages were saved, 38978 lines were refused; earlybird run with the same lines says which, and why\n1\n"
        check("save says what it saved", (saved, 0), shell('"$1" save --segments 1 --docs 1024 <"$2" >image; echo $?', cwd=folder))
        plain = subprocess.run([PROGRAM, "save", "--segments", "1", "--docs", "1024"], stdin=open(lines, "rb"), stdout=subprocess.PIPE, stderr=subprocess.PIPE)
        with open(os.path.join(folder, "image"), "rb") as file:
            check("save: the same image, and silence elsewhere", (file.read(), b"", 1), (plain.stdout, plain.stderr, plain.returncode))
        check("save of nothing", ("earlybird: 0 messages were saved, no line was refused\n0\n", 0), shell('"$1" save </dev/null | cat >/dev/null; echo "${PIPESTATUS[0]}"'))
        check("save to a reader that has gone", ("4\n", 0), shell('"$1" save <"$2" | true; echo "${PIPESTATUS[0]}"'))
        check("save to a full device", ("earlybird: write fault\n4\n", 0), shell('"$1" save <"$2" >/dev/full; echo $?'))
        check("save of a folder", ("earlybird: read fault\n3\n", 0), shell('"$1" save </ >/dev/null; echo $?'))
        check("save: wrong words", ("earlybird: --stats is an option of run, feed and load, and not of save\n2\n", 0), shell('"$1" save --stats <"$2" >/dev/null; echo $?'))
    check("save to a terminal", ("earlybird: save writes an image, which no terminal shows: earlybird save < messages.jsonl > messages.image\n", 2),
          on_a_terminal([PROGRAM, "save"], stdin=subprocess.DEVNULL))
    check("load from a terminal", ("earlybird: load reads an image from standard input: earlybird load < messages.image\n", 2), on_a_terminal([PROGRAM, "load"]))


def try_all(check, program):
    """All of it; `program` is the proved one, which the launcher runs."""
    forms_of_help(check)
    a_reason_where_refused(check, program, 11)
    what_is_told(check)
    sizes(check)
    said_to_people(check)

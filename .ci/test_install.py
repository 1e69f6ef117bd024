"""What .ci/test-program tries of an install: in a clean folder, with an environment of nothing but a home of its own and the commands of the
system, among which is no rt."""
import json
import os
import re
import shutil
import subprocess
import sys
import tempfile
import time
import urllib.request

from generators.commands import ABOUT, ALONE, COMMANDS, LICENCE, OPTIONS, VERSION

ROOT = os.getcwd()
FIRST = os.path.join(ROOT, "examples", "first.jsonl")

# a program that allocates, prints and starts threads beside the index, of which it searches on all of them
BESIDE = r"""
#include <earlybird.h>
#include <pthread.h>
#include <stdio.h>
#include <stdlib.h>
#include <string.h>

static uint64_t *words;
static size_t size;
static struct eb_index idx;

static void *work(void *at) {
    long found = 0;
    for (int round = 0; round < 200; round++) {
        char *text = malloc(64 + round);
        snprintf(text, 64, "train %s", round % 2 ? "-late" : "late");
        uint64_t ids[10];
        struct eb_answer answer;
        if (eb_ask_text(words, size, &idx, 10, (const unsigned char *)text, strlen(text), ids, 10, &answer) == EB_OK)
            found += (long)answer.count;
        text = realloc(text, 4096);
        free(text);
    }
    *(long *)at = found;
    return NULL;
}

int main(void) {
    size = eb_words(1, 16, 1024);
    words = calloc(size, sizeof *words);
    eb_begin(words, size, &idx, 1, 16, 1024);
    eb_add_text(words, size, &idx, 1, (const unsigned char *)"night train", 11);
    eb_add_text(words, size, &idx, 2, (const unsigned char *)"late train", 10);
    pthread_t threads[4];
    long found[4];
    for (int at = 0; at < 4; at++)
        pthread_create(&threads[at], NULL, work, &found[at]);
    for (int at = 0; at < 4; at++) {
        pthread_join(threads[at], NULL);
        printf("%ld\n", found[at]);
    }
    free(words);
    return 0;
}
"""

# prints what completes a line, of which the last word is begun
COMPLETES = """
. "$1"; shift
COMP_WORDS=("$@"); COMP_CWORD=$(($# - 1))
_earlybird earlybird "${COMP_WORDS[COMP_CWORD]}" "${COMP_WORDS[COMP_CWORD - 1]}"
echo "${COMPREPLY[*]}"
"""


class Place:
    """A home, a folder to install into, and what runs there."""

    def __init__(self, home, commands, check):
        self.home, self.check = home, check
        self.prefix = os.path.join(home, ".local")
        self.env = {"HOME": home, "PATH": os.path.join(self.prefix, "bin") + ":" + commands, "LC_ALL": "C.UTF-8"}

    def run(self, words, text=b"", **more):
        how = {"stdout": subprocess.PIPE, "stderr": subprocess.PIPE, "cwd": self.home, "env": {**self.env, **more}}
        try:
            done = subprocess.run(words, input=text, timeout=600, **how)
        except FileNotFoundError:
            return "", "%s isn't there" % words[0], 127
        return done.stdout.decode(), done.stderr.decode(), done.returncode

    def has(self, name):
        return shutil.which(name, path=self.env["PATH"]) is not None


def files_below(folder):
    return sorted(os.path.relpath(os.path.join(at, it), folder) for at, below, names in os.walk(folder) for it in [*below, *names])


def snippet(path, language):
    """The code of a document in a language, and what it says that the code prints."""
    with open(path, encoding="utf-8") as file:
        code = re.search(r"^```%s\n(.*?)^```$" % language, file.read(), re.M | re.S).group(1)
    return code, "".join(it + "\n" for it in re.findall(r"(?:#|//|/\*) prints (.*?)(?: \*/)?$", code, re.M))


def left_out(what, why):
    print("test-program: %s isn't tried: %s" % (what, why))


def the_program(place, first_answers):
    with open(FIRST, "rb") as file:
        text = file.read()
    place.check("installed: the first command", (first_answers, "", 1), place.run(["earlybird", "run"], text))
    place.check("installed: a feed", 0, place.run(["earlybird", "feed"], b"?1 a\n")[2])
    place.check("installed: --version", (ABOUT, "", 0), place.run(["earlybird", "--version"]))
    for source in ("LICENSE-MIT", "LICENSE-APACHE", "docs/THIRD-PARTY.md"):
        with open(source, "rb") as file, open(os.path.join(place.prefix, "share/doc/earlybird", os.path.basename(source)), "rb") as brought:
            place.check("installed: %s" % source, file.read(), brought.read())
    with open("share/earlybird/help.txt", encoding="utf-8") as file:
        place.check("installed: --help", (file.read(), "", 0), place.run(["earlybird", "--help"]))
    place.check("installed: words that ask for nothing", 2, place.run(["earlybird", "nothing"])[2])
    place.check("installed: help of a command", 0, place.run(["earlybird", "run", "--help"])[2])
    place.check("installed: --memory", (first_answers, "", 1), place.run(["earlybird", "run", "--memory", "8M"], text))
    place.check("installed: live", ("?5 train -late\n", "", 0), place.run(["earlybird", "live", "-q", "train -id -TRAIN OR (train 5 late -id)", "-n", "1"], text))


def the_console(place):
    """Its page, and a search over a file; a signal ends it."""
    place.check("installed: the console's help", 0, place.run(["earlybird", "console", "--help"])[2])
    words = ["earlybird", "console", "--listen", "127.0.0.1:0", FIRST]
    with subprocess.Popen(words, cwd=place.home, env=place.env, stdin=subprocess.DEVNULL, stderr=subprocess.PIPE, text=True) as process:
        try:
            port = re.search(r"http://127\.0\.0\.1:(\d+)/\n", process.stderr.readline())
            place.check("installed: the console listens", True, port is not None)
            ask = lambda path: urllib.request.build_opener(urllib.request.ProxyHandler({})).open("http://127.0.0.1:%s%s" % (port.group(1), path), timeout=60).read()
            with open(os.path.join(ROOT, "console/earlybird_console/page/index.html"), "rb") as file:
                place.check("installed: the console's page", file.read(), ask("/"))
            for _ in range(600):
                found = [it["message"] for it in json.loads(ask("/search?q=nine"))["matches"]]
                if found:
                    break
                time.sleep(0.1)
            place.check("installed: a search of the console", [101], [it["id"] for it in found])
        finally:
            process.terminate()
            process.communicate(timeout=60)
    place.check("installed: the console ends", 0, process.returncode)


def the_cluster(place):
    """Its words, and its program; and where Redis's module is here, that its service finds what it stands on."""
    place.check("installed: the cluster's help", 0, place.run(["earlybird", "cluster", "--help"])[2])
    shown = place.run(["earlybird", "cluster", "up", "--help"])[0]
    place.check("installed: the cluster's program", True, os.path.join(place.prefix, "bin/earlybird") in "".join(shown.split()))
    if place.run(["python3", "-c", "import redis"])[2]:
        return left_out("the installed cluster's service", "this Python has no module redis")
    wanted = ("earlybird-cluster: --listen takes HOST:PORT\n", 2)
    place.check("installed: the cluster's service", wanted, place.run(["earlybird", "cluster", "serve", "--listen", "nothing"])[1:])
    return place.check("installed: no cluster", 3, place.run(["earlybird", "cluster", "status"])[2])


def the_manual(place):
    if not place.has("man"):
        return left_out("man earlybird", "there is no man")
    out, said, code = place.run(["man", "earlybird"], MANPAGER="cat", MANWIDTH="100", MAN_KEEP_FORMATTING="")
    place.check("man earlybird reads", (0, "", True), (code, said, "EARLYBIRD(1)" in out))
    plain = re.sub(".\b", "", out)
    place.check("man earlybird has each option", [], [it for it in OPTIONS if "--" + it not in plain])


def the_completions(place):
    script = os.path.join(place.prefix, "share/bash-completion/completions/earlybird")
    complete = lambda *words: place.run(["bash", "-c", COMPLETES, "bash", script, "earlybird", *words])[0].split()
    if not place.has("bash"):
        return left_out("completion in bash", "there is no bash")
    place.check("completion: commands", [*COMMANDS, *ALONE], complete(""))
    place.check("completion: a command that is begun", ["bench", "build"], complete("b"))
    for name, command in COMMANDS.items():
        place.check("completion: options of " + name, ["--" + it for it in (*command.ways, *command.options)], complete(name, "-" if command.parser else ""))
        for it in (*command.ways, *command.options):
            if OPTIONS[it].offers:
                place.check("completion: numbers of --%s" % it, [str(at) for at in OPTIONS[it].offers], complete(name, "--" + it, ""))
                place.check("completion: numbers of --%s=" % it, [str(at) for at in OPTIONS[it].offers], complete(name, "--" + it, "="))
    given = [it for it in complete("run", "--parts", "3", "--docs", "5", "") if it]
    place.check("completion: at most one way, and each option once", ["--overlap", "--fields", "--words", "--counts", "--id", "--text", "--stats", "--json", "--segments", "--terms"], given)
    beside = [it for it in complete("feed", "--workers", "3", "--docs", "5", "") if it]
    place.check("completion: what can't stand beside workers of a feed", ["--keep", "--fields", "--words", "--counts", "--id", "--text", "--json", "--segments", "--terms"], beside)
    place.check("completion: a folder", True, ".local" in complete("install", "--prefix", ".lo"))
    for shell, file, words in [("zsh", "zsh/site-functions/_earlybird", ["-n"]), ("fish", "fish/vendor_completions.d/earlybird.fish", ["-n"])]:
        if place.has(shell):
            place.check("completion: %s reads it" % shell, ("", "", 0), place.run([shell, *words, os.path.join(place.prefix, "share", file)]))
        else:
            left_out("completion in " + shell, "there is no " + shell)


def from_c(place, first_answers):
    missing = [it for it in ("cc", "pkg-config") if not place.has(it)]
    if missing:
        return left_out("C by pkg-config", "there is no " + " and no ".join(missing))
    known = {"PKG_CONFIG_PATH": os.path.join(place.prefix, "lib/pkgconfig")}
    build = 'set -eu; cc -std=c99 -D_POSIX_C_SOURCE=200809L -Wall -Wextra -Werror -O2 "$1" $(pkg-config --cflags --libs earlybird) -o "$2"'
    live = os.path.join(place.home, "live")
    place.check("C: live.c builds by pkg-config", ("", "", 0), place.run(["sh", "-c", build, "sh", os.path.join(ROOT, "examples/embed/c/live.c"), live], **known))
    with open(FIRST, "rb") as file:
        place.check("C: live.c prints what the program prints", (first_answers, "", 1), place.run([live], file.read()))
    if place.has("c++"):
        said = place.run(["c++", "-std=c++17", "-Wall", "-Wextra", "-Werror", "-fsyntax-only", "-x", "c++", os.path.join(place.prefix, "include/earlybird.h")])
        place.check("C: the header is one of C++, too", ("", "", 0), said)
    code, wanted = snippet("README.md", "c")
    with open(os.path.join(place.home, "readme.c"), "w", encoding="utf-8") as file:
        file.write(code)
    build_shown = "cc readme.c $(pkg-config --cflags --libs earlybird) -o readme"
    place.check("C: README's program builds", ("", "", 0), place.run(["sh", "-c", build_shown], **known))
    place.check("C: README's program prints what it says", (wanted, 0), place.run([os.path.join(place.home, "readme")])[::2])
    source, beside = os.path.join(place.home, "beside.c"), os.path.join(place.home, "beside")
    with open(source, "w", encoding="utf-8") as file:
        file.write(BESIDE)
    place.check("C: a program with threads builds", ("", "", 0), place.run(["sh", "-c", build, "sh", source, beside], **known))
    # one of the two messages each round: 100 rounds ask for the one, and 100 for the other
    place.check("C: malloc, printf and threads beside it", (4 * "200\n", "", 0), place.run([beside]))
    if place.has("nm"):
        names = place.run(["nm", "-g", "--defined-only", os.path.join(place.prefix, "lib/libearlybird.a")])[0]
        names = [row.split()[-1] for row in names.splitlines() if len(row.split()) == 3]
        place.check("C: the archive's names are its own", [], [it for it in names if not it.startswith(("eb_", "rattle_"))])


def from_python(place, first_answers):
    if not place.has("cc"):
        return left_out("the Python package", "there is no cc")
    python = os.path.realpath(sys.executable)
    venv, commands = os.path.join(place.home, "venv"), place.env["PATH"]
    out, said, code = place.run([python, "-m", "venv", venv])
    if code:
        return left_out("the Python package", "there is no venv")
    # (pip builds in the folder: a copy leaves the checkout as it is)
    copy = os.path.join(place.home, "python")
    shutil.copytree("python", copy, ignore=shutil.ignore_patterns("__pycache__", "*.so", "build", "*.egg-info"))
    # (its tests read the lines that the examples in C read)
    os.makedirs(os.path.join(place.home, "examples/embed"))
    shutil.copy("examples/embed/fields.jsonl", os.path.join(place.home, "examples/embed"))
    known = {"PKG_CONFIG_PATH": os.path.join(place.prefix, "lib/pkgconfig"), "PATH": os.path.join(venv, "bin") + ":" + commands}
    out, said, code = place.run(["pip", "install", "--quiet", "--disable-pip-version-check", "--no-index", copy], **known)
    place.check("Python: pip install", 0, code)
    if code:
        return print(said)
    shown = place.run(["pip", "show", "--disable-pip-version-check", "--files", "earlybird"], **known)[0].splitlines()
    wanted = ["License: " + LICENCE, *("  earlybird-%s.dist-info/LICENSE-%s" % (VERSION, it) for it in ("APACHE", "MIT"))]
    place.check("Python: pip show has the licence, and its files", wanted, [it for it in shown if "icense" in it or "LICENSE" in it])
    known["EARLYBIRD"] = os.path.join(place.prefix, "bin/earlybird")
    how = ["python3", "-B", "-m", "unittest", "discover", "-q", "-s", os.path.join(copy, "tests"), "-t", copy]
    out, said, code = place.run(how, **known)
    ran = re.search(r"^Ran (\d+) tests", said, re.M)
    place.check("Python: its tests", (0, True), (code, bool(ran) and int(ran.group(1)) >= 15 and "skipped" not in said))
    if code:
        print(said)
    for path in ("README.md", "python/README.md"):
        code, wanted = snippet(path, "python")
        place.check("Python: what %s prints" % path, (wanted, "", 0), place.run(["python3", "-c", code], **known))
    for name in ("live.py", "texts.py"):
        with open(FIRST, "rb") as file:
            got = place.run(["python3", "-B", os.path.join(ROOT, "examples/embed/python", name)], file.read(), **known)
        place.check("Python: %s prints what the program prints" % name, (first_answers, "", 1), got)


def from_rust(place, first_answers):
    if not (place.has("cargo") and place.has("rustc")):
        return left_out("the Rust crate", "there is no cargo and rustc")
    known = {"PKG_CONFIG_PATH": os.path.join(place.prefix, "lib/pkgconfig"), "EARLYBIRD": os.path.join(place.prefix, "bin/earlybird")}
    # (rustup keeps its compilers in the home of who installed it)
    for name, usual in (("CARGO_HOME", ".cargo"), ("RUSTUP_HOME", ".rustup")):
        known[name] = os.environ.get(name) or os.path.join(os.path.expanduser("~"), usual)
    known["CARGO_TARGET_DIR"] = os.path.join(place.home, "target")
    ignore = shutil.ignore_patterns("target", "Cargo.lock")
    for folder in ("rust", "examples/embed/rust", "examples/first.jsonl"):
        to = os.path.join(place.home, "copy", folder)
        os.makedirs(os.path.dirname(to), exist_ok=True)
        shutil.copytree(folder, to, ignore=ignore) if os.path.isdir(folder) else shutil.copy(folder, to)
    crate = os.path.join(place.home, "copy/rust")
    out, said, code = place.run(["cargo", "test", "--quiet", "--offline", "--manifest-path", crate + "/Cargo.toml"], **known)
    passed = sum(int(it) for it in re.findall(r"test result: ok\. (\d+) passed", out))
    place.check("Rust: cargo test", (0, True), (code, passed >= 9))
    if code:
        print(out + said)
    for path in ("README.md", "rust/README.md"):
        code, wanted = snippet(path, "rust")
        folder = os.path.join(place.home, "copy/readme")
        os.makedirs(os.path.join(folder, "src"), exist_ok=True)
        with open(os.path.join(folder, "Cargo.toml"), "w", encoding="utf-8") as file:
            file.write('[package]\nname = "readme"\nversion = "0.1.0"\nedition = "2021"\n[dependencies]\nearlybird = { path = "../rust" }\n')
        with open(os.path.join(folder, "src/main.rs"), "w", encoding="utf-8") as file:
            file.write("fn main() -> Result<(), earlybird::Refusal> {\n%sOk(())\n}\n" % code)
        got = place.run(["cargo", "run", "--quiet", "--offline", "--manifest-path", folder + "/Cargo.toml"], **known)
        place.check("Rust: what %s prints" % path, (wanted, "", 0), got)
    live = os.path.join(place.home, "copy/examples/embed/rust/Cargo.toml")
    with open(FIRST, "rb") as file:
        got = place.run(["cargo", "run", "--quiet", "--offline", "--manifest-path", live], file.read(), **known)
    place.check("Rust: live prints what the program prints", (first_answers, "", 1), got)


def again_and_away(place, launcher):
    """An install over itself changes nothing; a file that no install brought is left alone; uninstall leaves nothing."""
    before = files_below(place.prefix)
    place.check("install again", 0, launcher("install")[2])
    place.check("install again: the same files", before, files_below(place.prefix))
    other = os.path.join(place.home, "other")
    os.makedirs(os.path.join(other, "bin"))
    with open(os.path.join(other, "bin/earlybird"), "w", encoding="utf-8") as file:
        file.write("mine\n")
    out, said, code = launcher("install", "--prefix", other)
    place.check("install over a file of others", (70, True, ["bin", "bin/earlybird"]), (code, "nothing is installed" in said, files_below(other)))
    place.check("uninstall where nothing is installed", 70, launcher("uninstall", "--prefix=" + other)[2])
    for words in (["--prefix"], ["--prefix", ""], ["--prefix=/a", "--prefix=/b"], ["more"]):
        place.check("install %s: usage" % words, 2, launcher("install", *words)[2])
    place.env.pop("HOME")
    place.check("install without a HOME", (70, True), (launcher("install")[2], "HOME isn't set" in launcher("install")[1]))
    place.env["HOME"] = place.home
    # a folder with a blank, which is not there yet, beside which something else is put
    blank = os.path.join(place.home, "a folder", "of mine")
    place.check("install into a new folder", 0, launcher("install", "--prefix", blank)[2])
    place.check("uninstall by the installed command", 0, place.run([os.path.join(blank, "bin/earlybird"), "uninstall"])[2])
    place.check("uninstall leaves nothing of a new folder", False, os.path.exists(os.path.dirname(blank)))
    launcher("install", "--prefix", blank)
    moved = os.path.join(place.home, "moved")
    os.rename(blank, moved)
    place.check("uninstall where the folder was moved", 0, place.run([os.path.join(moved, "bin/earlybird"), "uninstall"])[2])
    place.check("uninstall leaves nothing of a moved folder", False, os.path.exists(moved))
    launcher("install", "--prefix", blank)
    with open(os.path.join(blank, "lib/mine"), "w", encoding="utf-8") as file:
        file.write("mine\n")
    launcher("uninstall", "--prefix", blank)
    place.check("uninstall leaves what is of others", ["lib", "lib/mine"], files_below(blank))
    place.check("uninstall", 0, launcher("uninstall")[2])
    place.check("uninstall leaves nothing", False, os.path.exists(place.prefix))


def without_an_archive(place, copy, launcher):
    """Without dist/libearlybird.a and without the kit the program is installed, and one line says what is left out."""
    os.remove(os.path.join(copy, "dist/libearlybird.a"))
    to = os.path.join(place.home, "alone")
    out, said, code = launcher("install", "--prefix", to)
    place.check("install without an archive", (0, 1), (code, sum("left out: the library for C" in it for it in said.splitlines())))
    place.check("install without an archive: no file of the library", [], [it for it in files_below(to) if "libearlybird" in it or it.endswith((".h", ".pc"))])
    place.check("install without an archive: uninstall", 0, launcher("uninstall", "--prefix", to)[2])


def try_all(check, a_copy, first_answers):
    """All of it, from a copy of the checkout, which has what a clone has."""
    with a_copy() as (copy, commands), tempfile.TemporaryDirectory(prefix="home-") as home:
        place = Place(home, commands, check)
        launcher = lambda *words: place.run([os.path.join(copy, "earlybird"), *words])
        if not os.path.exists("dist/libearlybird.a"):
            left_out("the library for C", "dist/ has none")
            os.close(os.open(os.path.join(copy, "dist/libearlybird.a"), os.O_CREAT))
        out, said, code = launcher("install")
        check("install", ("", 0), (out, code))
        check("install: what it says", True, said.startswith("earlybird: installed in %s\n" % place.prefix))
        if place.has("pkg-config") and os.path.exists("dist/libearlybird.a"):
            hint = re.search(r"^earlybird: to find the library: export (\w+)=(.*)$", said, re.M)
            check("install: how the library is found", ("PKG_CONFIG_PATH", os.path.join(place.prefix, "lib/pkgconfig")), hint and hint.groups())
            elsewhere = launcher("install", "--prefix", os.path.join(home, "elsewhere"))[1]
            check("install: how the command is found", True, "export PATH=%s/elsewhere/bin:$PATH\n" % home in elsewhere)
            launcher("uninstall", "--prefix", os.path.join(home, "elsewhere"))
        the_program(place, first_answers)
        the_console(place)
        the_cluster(place)
        the_manual(place)
        the_completions(place)
        if os.path.exists("dist/libearlybird.a"):
            from_c(place, first_answers)
            from_python(place, first_answers)
            from_rust(place, first_answers)
        again_and_away(place, launcher)
        without_an_archive(place, copy, launcher)

"""What .ci/test-program tries of the gate: .ci/run in a copy, with a stand-in for the kit, and steps that only say where they run and what they
would try. It goes by the bytes of dist/, not by the kit's name, and leaves nothing behind."""
import os
import shutil
import subprocess
import tempfile

BEFORE = (".ci/check-edits", ".ci/generate", "crates/golden_runs/plain.py")
TRIED = (".ci/test-program", "examples/embed/check", "cluster/check", "console/check")

# proves nothing, and builds what is in $BUILT
KIT = """#!/bin/sh
case $1 in
  version) echo "$KIT" ;;
  doc) echo "$(dirname -- "$0")/page" ;;
  lib) mkdir -p out; printf '!<arch>\\n' >"out/lib${PWD##*/}.a" ;;
  ci) mkdir -p crates/earlybird/out; cp "$BUILT/earlybird" crates/earlybird/out/; cp "$BUILT/c.a" "$(dirname -- "$0")/c/liblibc_c.a" ;;
esac
"""

# says its name, where it runs, what the launcher there runs, which members the library there has, and whether the sums are right
STEP = """#!/usr/bin/env python3
import os, subprocess, sys
path = os.path.realpath(__file__)
root = path[:-len(%r)].rstrip("/")
told = lambda *words: subprocess.run(words, cwd=root, stdout=subprocess.PIPE).stdout.decode().split()
library = told("sh", "-c", 'root=$PWD; . .ci/sources; find_part libearlybird.a "$(kept_checksum)"')
sums = subprocess.run(["sha256sum", "--quiet", "-c", "SHA256SUMS"], cwd=root + "/dist").returncode
print("step", %r, root, *told("./earlybird", "run"), *told("ar", "t", *library), "wrong" if sums else "right", flush=True)
sys.exit(9 if %r == os.environ["FAILS"] else 0)
"""


def write(path, text, mode=0o644):
    with open(path, "w", encoding="utf-8") as file:
        file.write(text)
    os.chmod(path, mode)


def files_of(top):
    """Each file but those of out/, with its bytes."""
    found = {}
    for at, folders, names in os.walk(top):
        folders[:] = [it for it in folders if it != "out"]
        for name in names:
            with open(os.path.join(at, name), "rb") as file:
                found[os.path.relpath(os.path.join(at, name), top)] = file.read()
    return found


def build_stand_ins(folder, word):
    """A program that prints a word, and an archive with a member of that name."""
    os.mkdir(folder)
    write(os.path.join(folder, "earlybird"), "#!/bin/sh\necho %s\n" % word, 0o755)
    write(os.path.join(folder, word), word)
    subprocess.run(["ar", "rcsD", "c.a", word], cwd=folder, check=True)
    return folder


class Gate:
    """The gate in a copy of the checkout, whose dist/ was built by the kit `noted` from `ours`."""

    def __init__(self, copy, commands):
        self.copy, self.commands = copy, commands
        self.room = os.path.join(os.path.dirname(copy), "room")
        self.ours, self.others = (build_stand_ins(os.path.join(os.path.dirname(copy), it), it) for it in ("ours", "others"))
        os.mkdir(self.room)
        os.mkdir(os.path.join(commands, "c"))
        write(os.path.join(commands, "rt"), KIT, 0o755)
        for it in BEFORE:
            write(os.path.join(copy, it), "#!/usr/bin/env python3\n", 0o755)
        for it in TRIED:
            write(os.path.join(copy, it), STEP % (it, it, it), 0o755)
        self.call("rt", "ci", built=self.ours)
        self.call(".ci/library", "--proved")
        shutil.copy(os.path.join(self.ours, "earlybird"), os.path.join(copy, "dist"))
        shutil.copy(os.path.join(copy, "crates/eb_c/out/libearlybird.a"), os.path.join(copy, "dist"))
        with open(os.path.join(copy, "dist/SOURCES"), encoding="utf-8") as file:
            write(os.path.join(copy, "dist/SOURCES"), file.readline() + "noted\n")
        self.sum()

    def sum(self):
        """Writes the sums of what is in dist/."""
        made = subprocess.run(["sha256sum", "earlybird", "libearlybird.a"], cwd=os.path.join(self.copy, "dist"), stdout=subprocess.PIPE, check=True)
        write(os.path.join(self.copy, "dist/SHA256SUMS"), made.stdout.decode())

    def call(self, *words, kit="noted", built=None, fails=""):
        """What a command prints and says at the top of the copy, and how it ends."""
        env = {**os.environ, "PATH": self.commands, "TMPDIR": self.room, "KIT": kit, "BUILT": built or self.ours, "FAILS": fails}
        done = subprocess.run(words, cwd=self.copy, env=env, stdout=subprocess.PIPE, stderr=subprocess.PIPE, stdin=subprocess.DEVNULL)
        return done.stdout.decode().splitlines(), done.stderr.decode().splitlines(), done.returncode

    def run(self, **how):
        """How a run of the gate ends, its lines about dist/, and of each step behind the build where it ran, the program and the library."""
        printed, said, code = self.call(".ci/run", **how)
        steps = [line.split()[1:] for line in printed if line.startswith("step ")]
        about = [line for line in printed + said if line.startswith("dist: ")]
        return code, about, [tuple(it) for it in steps]


def try_all(check, a_copy):
    with a_copy() as (copy, commands):
        gate = Gate(copy, commands)
        before = files_of(copy)
        here = [(it, copy, "ours", "ours", "right") for it in TRIED]
        equal = ["dist: byte by byte what was proved and built: earlybird libearlybird.a"]
        check("the gate, with the noted kit", (0, equal, here), gate.run())
        check("the gate, with another kit that builds the same bytes", (0, equal, here), gate.run(kit="other"))
        code, about, steps = gate.run(kit="other", built=gate.others)
        check("the gate, with another kit that builds other bytes", (0, 1, True), (code, len(about), "another kit (noted) than this one (other)" in about[0]))
        check("each step behind it tries what was built", [(it, "others", "others") for it in TRIED], [(it[0], *it[2:4]) for it in steps])
        check("its sums are those of what was built", True, all(it[4] == "right" for it in steps))
        check("in one copy, outside of the checkout", (1, True), (len({it[1] for it in steps}), steps[0][1].startswith(gate.room + "/")))
        check("a step that fails there", (9, 2), (lambda code, _, steps: (code, len(steps)))(*gate.run(kit="other", built=gate.others, fails=TRIED[1])))
        code, about, steps = gate.run(built=gate.others)
        wanted = ["dist: dist/earlybird isn't what was just proved and built: run .ci/dist"]
        check("the gate, with the noted kit and other bytes", (1, wanted, []), (code, about, steps))
        write(os.path.join(gate.others, "earlybird"), "#!/bin/sh\necho ours\n", 0o755)
        wanted = ["dist: dist/libearlybird.a isn't what was just proved and built: run .ci/dist"]
        check("the gate, with the noted kit and another library", (1, wanted), gate.run(built=gate.others)[:2])
        check("nothing is left behind, and dist/ is as it was", (before, []), (files_of(copy), os.listdir(gate.room)))
        with open(os.path.join(copy, "dist/SOURCES"), encoding="utf-8") as file:
            checksum = file.readline()
        for text, why in ((checksum, "dist/SOURCES notes no kit"), ("1 2\nnoted\n", "dist/ was built from other sources")):
            write(os.path.join(copy, "dist/SOURCES"), text)
            check(why, ([], ["dist: %s: run .ci/dist" % why], 1), gate.call(".ci/dist", "--check", kit="other"))
        write(os.path.join(copy, "dist/SOURCES"), checksum + "noted\n")
        check("a kit of another name", ([], [], 0), gate.call(".ci/dist", "--check", kit="other"))
        with open(os.path.join(copy, "dist/earlybird"), "a", encoding="utf-8") as program:
            program.write("\n")
        why = "dist: dist/SHA256SUMS isn't of these files: run .ci/dist"
        check("a byte more in dist/", ([], [why], 1), gate.call(".ci/dist", "--check"))

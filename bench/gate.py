#!/usr/bin/env python3
"""Runs the gate, 'rt ci' or 'rt ci NAME..', and tells where its processor time goes.

    python3 bench/gate.py [--json FILE] [--] [NAME..]

For each crate: the processor seconds of its proof, of the proof of its tests and of each must-fail edit, with those of the check
that a crate's edits begin with. Then their sum; what the gate took besides (the compilers, the programs and tests that it runs,
rt itself); and the longest chain, by processor seconds: the proofs below each other, and behind the last one its tests or its
longest edit, which nothing can shorten but work on these. What an earlier run kept isn't proved again and tells nothing, so the
whole is told by a machine that kept nothing, or put together of runs that tell each part once.

It follows the processes that rt starts, by what they are called and where they run, four times a second, and changes nothing of
the gate; a fourth of a second of each can be missing. The status is rt's, whose last lines stand first. An interrupt ends the
gate, too, and tells what was seen so far.
"""
import argparse
import json
import os
import re
import signal
import subprocess
import sys
import time

ROOT = os.path.dirname(os.path.dirname(os.path.abspath(__file__)))
TICKS = os.sysconf("SC_CLK_TCK")
EVERY = 0.25


def text_of(path):
    try:
        with open(path, encoding="utf-8", errors="replace") as file:
            return file.read()
    except OSError:
        return ""


def processes():
    """Each process: its parent, when it began, and the processor seconds of it and of those of its children that ended."""
    found = {}
    for name in os.listdir("/proc"):
        if name.isdigit():
            rest = text_of("/proc/%s/stat" % name).rpartition(") ")[2].split()
            if len(rest) > 19:
                found[int(name)] = int(rest[1]), int(rest[19]), sum(map(int, rest[11:15])) / TICKS
    return found


class Edits:
    """The must-fail edits of the crates, and which of them a try is of."""

    def __init__(self):
        self.names = {}
        for crate in os.listdir(os.path.join(ROOT, "crates")):
            folder = os.path.join(ROOT, "crates", crate, "must-fail")
            names = os.listdir(folder) if os.path.isdir(folder) else []
            self.names[crate] = sorted(it for it in names if it.endswith(".edit"))

    def of_try(self, crate, words, folder):
        """The name of the edit that stands in a folder that rt checks, 'seed' for the crate as it stands."""
        kept = os.path.basename(words[words.index("--incremental") + 1]) if "--incremental" in words else ""
        if kept == "seed":
            return kept
        if kept.isdigit() and int(kept) < len(self.names[crate]):
            return self.names[crate][int(kept)][: -len(".edit")]
        for name in self.names[crate]:
            edit = text_of(os.path.join(ROOT, "crates", crate, "must-fail", name))
            files, new = re.findall(r"(?m)^file: (.*)$", edit), re.findall(r"(?m)^new: ?(.*)$", edit)
            here, there = text_of(os.path.join(folder, files[-1])), text_of(os.path.join(ROOT, "crates", crate, files[-1]))
            if here != there and new[-1] in here:
                return name[: -len(".edit")]
        return "seed"


def what_of(pid, edits):
    """What a process is a part of, as (crate, kind, edit): a proof, a proof of tests, or an edit's try. None for what is none of these."""
    words = text_of("/proc/%d/cmdline" % pid).split("\0")
    if not words[0].endswith("/rattle") or "--crate-name" not in words or words[1:2] not in (["check"], ["build"]):
        return None
    crate = words[words.index("--crate-name") + 1]
    if crate not in edits.names or "--crate-checked" in words:
        # (the latter only compiles what was proved)
        return None
    try:
        folder = os.readlink("/proc/%d/cwd" % pid)
    except OSError:
        return None
    if os.path.basename(folder).startswith("rt-edit-"):
        return crate, "edits", edits.of_try(crate, words, folder)
    return crate, "tests" if "--test" in words else "proof", ""


class Followed:
    """What was seen of a run's processes so far."""

    def __init__(self, edits):
        self.edits, self.what, self.spent = edits, {}, {}

    def look(self, top):
        """Looks at all processes below one. What a part's process and all below it took only rises, so the most that was seen counts."""
        found = processes()
        below = {}
        for pid, (parent, _, _) in found.items():
            below.setdefault(parent, []).append(pid)

        def all_below(pid):
            return [pid, *[it for child in below.get(pid, []) for it in all_below(child)]]

        left = list(below.get(top, []))
        while left:
            pid = left.pop()
            key = pid, found[pid][1]
            if self.what.get(key) is None:
                # (a process is another program until it calls exec)
                self.what[key] = what_of(pid, self.edits)
            if self.what[key] is None:
                left += below.get(pid, [])
            else:
                spent = sum(found[it][2] for it in all_below(pid))
                self.spent[key] = max(spent, self.spent.get(key, 0))

    def parts(self):
        """The seconds of each part, of all processes that worked at it."""
        parts = {}
        for key, spent in self.spent.items():
            parts[self.what[key]] = parts.get(self.what[key], 0) + spent
        return parts


def stands_on():
    """The libraries of this repository that each crate stands on itself, in the order of crates.txt."""
    rows = [line.partition("#")[0].partition(":") for line in text_of(os.path.join(ROOT, "crates.txt")).splitlines()]
    rows = {head.split()[0]: rest.split() for head, colon, rest in rows if colon}
    return {name: [it for it in below if it in rows] for name, below in rows.items()}


def lowest_first(below):
    order = []

    def add(name):
        for it in below[name]:
            if it not in order:
                add(it)
        if name not in order:
            order.append(name)

    for name in below:
        add(name)
    return order


def table_of(parts, below):
    """What each crate took, lowest first."""
    rows = []
    for name in lowest_first(below):
        row = {"crate": name, "proof": parts.get((name, "proof", ""), 0.0), "tests": parts.get((name, "tests", ""), 0.0)}
        row["edits"] = {edit: spent for (crate, kind, edit), spent in sorted(parts.items()) if crate == name and kind == "edits"}
        row["sum"] = row["proof"] + row["tests"] + sum(row["edits"].values())
        rows += [row] if row["sum"] else []
    return rows


def longest_chain(rows, below):
    """The seconds and the parts of the longest chain: a proof waits for those below it, tests for the proofs below, an edit for all of its crate."""
    by_name = {row["crate"]: row for row in rows}
    nothing = {"proof": 0.0, "tests": 0.0, "edits": {}}
    proofs, longest = {}, (0.0, [])
    for name in lowest_first(below):
        row = by_name.get(name, nothing)
        before = max((proofs[it] for it in below[name]), default=(0.0, []))
        proofs[name] = before[0] + row["proof"], before[1] + ["%s %.0f" % (name, row["proof"])] * (row["proof"] > 0)
        tested = before[0] + row["tests"], before[1] + ["%s: tests %.0f" % (name, row["tests"])]
        longest = max(longest, proofs[name], tested)
        tries = [(spent, edit) for edit, spent in row["edits"].items() if edit != "seed"]
        if tries:
            seed = row["edits"].get("seed", 0.0)
            seeded = before[0] + seed, before[1] + ["%s: begin of its edits %.0f" % (name, seed)]
            spent, edit = max(tries)
            behind = max(seeded, proofs[name], tested)
            longest = max(longest, (behind[0] + spent, behind[1] + ["%s/%s %.0f" % (name, edit, spent)]))
    return longest


def show(told):
    print("%-20s %8s %8s %8s %6s %8s" % ("", "proof", "tests", "edits", "", "sum"))
    for row in told["crates"]:
        edits = sum(row["edits"].values())
        print("%-20s %8.1f %8.1f %8.1f %6d %8.1f" % (row["crate"], row["proof"], row["tests"], edits, len(set(row["edits"]) - {"seed"}), row["sum"]))
    sums = told["sums"]
    print("%-20s %8.1f %8.1f %8.1f %6d %8.1f" % ("all", sums["proof"], sums["tests"], sums["edits"], told["tries"], sums["all"]))
    print("besides: %.1f; in all %.1f processor seconds (%.1f minutes), in %.0f seconds" % (sums["besides"], told["processor"], told["processor"] / 60, told["seconds"]))
    dear = sorted(((spent, row["crate"], edit) for row in told["crates"] for edit, spent in row["edits"].items() if edit != "seed"), reverse=True)
    for spent, crate, edit in dear[:10]:
        print("%8.1f  %s/%s" % (spent, crate, edit))
    print("the longest chain, %.1f: %s" % (told["chain"]["seconds"], ", ".join(told["chain"]["parts"])))


def main():
    parser = argparse.ArgumentParser(description="Runs rt ci and tells where its processor time goes.")
    parser.add_argument("--json", metavar="FILE", help="where to write the figures, too")
    parser.add_argument("names", nargs="*", metavar="NAME", help="crates, and those below them; none for all")
    asked = parser.parse_args()
    followed, begun, before = Followed(Edits()), time.monotonic(), os.times()
    gate = subprocess.Popen(["rt", "ci", *asked.names], cwd=ROOT, stdin=subprocess.DEVNULL, stdout=subprocess.PIPE, stderr=subprocess.STDOUT)
    for sign in (signal.SIGINT, signal.SIGTERM):
        signal.signal(sign, lambda *_: gate.terminate())
    os.set_blocking(gate.stdout.fileno(), False)
    said = b""
    while gate.poll() is None:
        followed.look(gate.pid)
        said = (said + (gate.stdout.read() or b""))[-2000:]
        time.sleep(EVERY)
    said = (said + (gate.stdout.read() or b""))[-2000:]
    after = os.times()
    print("\n".join(said.decode(errors="replace").rstrip().split("\n")[-3:]))
    below = stands_on()
    rows = table_of(followed.parts(), below)
    seconds, chain = longest_chain(rows, below)
    sums = {kind: sum(row[kind] for row in rows) for kind in ("proof", "tests")}
    sums["edits"] = sum(sum(row["edits"].values()) for row in rows)
    sums["all"] = sum(sums.values())
    processor = after.children_user + after.children_system - before.children_user - before.children_system
    sums["besides"] = processor - sums["all"]
    told = {"command": ["rt", "ci", *asked.names], "status": gate.returncode, "seconds": time.monotonic() - begun, "processor": processor}
    told |= {"crates": rows, "sums": sums, "tries": sum(len(set(row["edits"]) - {"seed"}) for row in rows)}
    told["chain"] = {"seconds": seconds, "parts": chain}
    show(told)
    if asked.json:
        with open(asked.json, "w", encoding="utf-8") as file:
            json.dump(told, file, indent=1)
            file.write("\n")
    return gate.returncode


sys.exit(main())

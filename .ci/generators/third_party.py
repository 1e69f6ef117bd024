"""docs/THIRD-PARTY.md: each crate of the kit whose code may stand in dist/, with what the kit's folder tells of it: the Rust crate and
version that it follows, by its README, and its licence, by the texts of its LICENSE files."""
import glob
import os
import re
import shutil
import subprocess
import sys
import textwrap

from generators.layers import rows_of

WIDTH = 100
# the crates that dist/ is built from
BUILT = ("earlybird", "eb_c")
# what each program and library stands on, though no line of crates.txt says so
ALWAYS = "std"
# a licence, and words of its text
KNOWN = {
    "MIT": "Permission is hereby granted, free of charge, to any person obtaining a copy of this software and associated documentation files",
    "Apache-2.0": "Apache License Version 2.0, January 2004",
    "Unicode-3.0": "UNICODE LICENSE V3",
    "BSL-1.0": "Boost Software License - Version 1.0",
}
# the files of which either may be taken, where both are there
CHOICE = ("LICENSE-MIT", "LICENSE-APACHE")

HEAD = """\
# Code of others in `dist/`

The program and the library for C are built from the crates of this repository, which are under MIT
or Apache-2.0 at your choice (`LICENSE-MIT`, `LICENSE-APACHE`), and from crates of the kit of
Rattle. Most of these were written for the kit after a Rust crate. The table has each crate of the
kit that the two depend on, directly or through others, by `crates.txt` and the kit's libraries: its
code may stand in `dist/`. `.ci/generate` makes the page from the kit's folder and compares it: the
version is that of the Rust crate that its README names, and the licence and the copyright are those
of the texts of its LICENSE files. Where a cell says "not told", the folder says nothing of it.
"""

BEHIND = """\
The text of the MIT licence is that of `LICENSE-MIT` with the lines of the table in the place of its
copyright, and that of Apache-2.0 is `LICENSE-APACHE`. Of the kit itself, of its compiler and of the
crates whose licence isn't told, the kit's folder shows no licence. The program needs the C library
of the machine, glibc, which isn't in `dist/`.

## Unicode-3.0
"""


def kit_folder():
    """The folder of the kit, or None where there is none."""
    if not shutil.which("rt"):
        return None
    told = subprocess.run(["rt", "doc"], stdout=subprocess.PIPE, stderr=subprocess.DEVNULL).stdout.decode().strip()
    folder = os.path.dirname(told)
    return folder if os.path.isdir(os.path.join(folder, "rlibs")) and os.path.isdir(os.path.join(folder, "rattle")) else None


def named(crates):
    """The crates of the kit that those of dist/ name themselves in crates.txt, directly or through others of this repository."""
    rows, found, left = rows_of(crates), set(), list(BUILT)
    while left:
        name = left.pop()
        if name not in found:
            found.add(name)
            left += rows.get(name, [])
    return sorted({ALWAYS, *(it for it in found if it not in rows)})


def closure(crates, kit):
    """These, and those that they stand on in the kit's libraries."""
    found, left = set(), named(crates)
    while left:
        name = left.pop()
        if name not in found:
            found.add(name)
            with open(os.path.join(kit, "rlibs", name + ".rlib", "format"), encoding="utf-8", errors="replace") as file:
                left += re.findall(r"^dep (\w+)$", file.read(), re.M)
    return sorted(found)


def read(path):
    with open(path, encoding="utf-8") as file:
        return file.read()


def follows(folder):
    """The Rust crates that the first paragraph of a crate's README says it follows, with their versions."""
    path = os.path.join(folder, "README.md")
    text = read(path) if os.path.exists(path) else ""
    first = (text.split("\n\n") + [""])[1]
    later = re.search(r"Rust crate (\d+(?:\.\d+)+)", text)
    rows = re.findall(r"Rust crate `([\w-]+)`(?: (\d+(?:\.\d+)+))?", first)
    rows = ["`%s` %s" % (name, version or (later.group(1) if later else "(version not told)")) for name, version in dict(rows).items()]
    return ", ".join(rows) or ("none: it is no port" if re.search("It is no port|It ports no crate", first) else "not told")


def licence_files(folder):
    return [path for path in sorted(glob.glob(os.path.join(folder, "LICENSE*"))) if os.path.isfile(path)]


def licence(folder):
    """The licences of a crate, by their texts, as one expression: those of LICENSE-MIT and LICENSE-APACHE are a choice."""
    found = {}
    for path in licence_files(folder):
        text = " ".join(read(path).split())
        name = os.path.basename(path)
        found[name] = next((it for it, words in KNOWN.items() if words in text), "the text of its " + name)
    choice = " OR ".join(found[it] for it in CHOICE if it in found)
    rest = sorted({its for it, its in found.items() if it not in CHOICE})
    return " AND ".join(["(%s)" % choice if rest and " OR " in choice else choice] * bool(choice) + rest) or "not told"


def holders(folder):
    """The lines of copyright in the licence files, each once."""
    lines = [line.strip() for path in licence_files(folder) for line in read(path).splitlines()]
    return list(dict.fromkeys(it for it in lines if re.match(r"Copyright (\(c\)|©) ", it)))


def unicode_text(kit, names):
    """The text of Unicode's licence, which is one in all crates that have it."""
    texts = {read(path) for name in names for path in licence_files(os.path.join(kit, "rattle", name)) if path.endswith("-UNICODE")}
    if len(texts) != 1:
        raise SystemExit("generate: the kit has %d texts of Unicode's licence" % len(texts))
    return textwrap.indent(texts.pop().strip(), "    ", lambda line: line.strip())


def page(crates, kit):
    """The page, by the kit's folder."""
    names = closure(crates, kit)
    table = ["| Crate of the kit | Follows the Rust crate | Licence | Copyright |", "|---|---|---|---|"]
    for name in names:
        folder = os.path.join(kit, "rattle", name)
        cells = ("`%s`" % name, follows(folder), licence(folder), "; ".join(holders(folder)) or "not told")
        table.append("| %s |" % " | ".join(cells))
    return "\n".join([HEAD, *table, "", BEHIND, unicode_text(kit, names), ""])


def text(now, crates, noted):
    """The page, by the kit that is here; but where another kit was noted when dist/ was built, and tells other things, or where there
    is none, as it is now."""
    kit = kit_folder()
    made = page(crates, kit) if kit else now
    if made == now or not now or subprocess.run(["rt", "version"], stdout=subprocess.PIPE).stdout.decode().strip() == noted:
        return made or ""
    print("generate: docs/THIRD-PARTY.md is of another kit than this one, and isn't compared", file=sys.stderr)
    return now


def faults(now, crates):
    """Which crates of the kit crates.txt names for dist/, and the page has no row of."""
    return ["docs/THIRD-PARTY.md has no row of `%s`" % name for name in named(crates) if "\n| `%s` |" % name not in now]

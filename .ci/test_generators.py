"""What .ci/test-program tries of .ci/generate --check: in a copy, each thing that it has to find, and what it finds without a kit, with the kit that
built dist/ and with another one."""
import contextlib
import os
import shutil
import subprocess
import tempfile

from generators import layers, names, phrases, third_party

KIT = """#!/bin/sh
case $1 in
  version) echo "$KIT" ;;
  doc) echo "%s/page" ;;
esac
"""

# public names: the source that gives one, a text there that does, another that doesn't, and the name
PUBLIC = (
    ("crates/eb_terms/src/lib.rt", "home,", "", "home"),
    ("crates/eb_cursor/src/frame/calls.rt", "pub fn is_full(", "fn is_full(", "Frame::is_full"),
    ("crates/eb_base/src/config.rt", "    Words,\n", "    Word,\n", "ConfigFault::Words"),
    ("crates/eb_place/src/used.rt", "pub pool3:", "pool3:", "Used::pool3"),
    ("crates/eb_place/src/port.rt", "fn store(", "fn put_word(", "Pen::store"),
    ("crates/eb_table/specs/Rule.antt", "pub record KeepsWords", "record KeepsWords", "KeepsWords"),
)


def read(path):
    with open(path, encoding="utf-8") as file:
        return file.read()


def write(path, text):
    os.makedirs(os.path.dirname(path), exist_ok=True)
    with open(path, "w", encoding="utf-8") as file:
        file.write(text)


@contextlib.contextmanager
def changed(copy, name, old, new):
    """A file of the copy in which another text stands in the place of one."""
    path = os.path.join(copy, name)
    text = read(path)
    assert old in text, (name, old)
    write(path, text.replace(old, new, 1))
    yield
    write(path, text)


def make_kit(folder, crates):
    """A kit of all crates that dist/ is built over: each follows the Rust crate of its name, and is under Unicode's licence."""
    for name in third_party.named(crates):
        write(os.path.join(folder, "rlibs", name + ".rlib", "format"), "crate %s\ndep std\n" % name)
        write(os.path.join(folder, "rattle", name, "README.md"), "# %s\n\nAfter the Rust crate `%s` 1.2.3.\n" % (name, name))
        write(os.path.join(folder, "rattle", name, "LICENSE-UNICODE"), "UNICODE LICENSE V3\n\nCopyright (c) somebody\n")


def try_phrases(check):
    """Each phrase of the list is found, whole or over the end of a line, in any case of letters, and no part of a longer word is one."""
    listed = read(".ci/generators/phrases.txt")
    instead = dict(phrases.rows(listed))
    # (a list that lost phrases would find fewer)
    check("the list of phrases has none fewer", True, len(instead) >= 58)
    check("each has other words to write", [], [it for it, words in instead.items() if not words or it in words.lower()])
    with tempfile.TemporaryDirectory(prefix="use-") as folder:
        for name, form in (("README.md", "%s.\n"), ("docs/MORE.md", "So: %s\n\n"), ("include/more.h", " * %s\n"), ("rust/src/more.rs", "    /// %s\n"),
                           ("crates/eb_more/src/more.rt", "    //! %s\n"), ("crates/eb_more/proofs/more/More.antt", "  -- %s\n")):
            begins = "\n" + (form[: form.index("%")] if form.startswith(" ") else "")
            texts = [it if at % 2 else it.upper().replace(" ", begins, 1) for at, it in enumerate(instead)]
            write(os.path.join(folder, name), "".join(form % it for it in texts))
            found = [fault.split("'; write: ")[0].split(" says '")[1] for fault in phrases.found(folder, listed)]
            check("%s: each phrase is found" % name, sorted(instead), sorted(found))
            os.remove(os.path.join(folder, name))
        write(os.path.join(folder, "README.md"), "also many; whatstands; a frontier; it untold often; stands only; so_many\n\nso\n\nmany\n")
        check("no phrase, but its letters", [], phrases.found(folder, listed))
        write(os.path.join(folder, "cluster/earlybird_cluster/more.py"), '"""So many words."""\n# so many\nx = {"a": 1,\n     "b": "not so many"}\nprint(x, """and\n  so\nmany""")\n')
        at = [fault.split(" says ")[0].rpartition(":")[2] for fault in phrases.found(folder, listed)]
        check("of a program, its strings", ["1", "4", "6"], at)
        os.remove(os.path.join(folder, "cluster/earlybird_cluster/more.py"))
        write(os.path.join(folder, "console/earlybird_console/page/more.js"), 'put("so many");\n/* so\n   many */\n// somany\n')
        at = [fault.split(" says ")[0].rpartition(":")[2] for fault in phrases.found(folder, listed)]
        check("of the page, its scripts", ["1", "2"], at)
        os.remove(os.path.join(folder, "console/earlybird_console/page/more.js"))
        code = "let so = many(b'\"', \"// so many\", '/'); // it is so\n// many, \"so many\"\nso many // not\n// so\nlet it = 0;\n// many\n"
        write(os.path.join(folder, "crates/eb_more/src/more/more.rt"), code)
        spec = 'so many = "-- so many" -- so\n-- many\nmany - so - many // so many\n'
        write(os.path.join(folder, "crates/eb_more/specs/More.antt"), spec)
        at = [fault.split(" says ")[0].rpartition("/")[2] for fault in phrases.found(folder, listed)]
        check("of the crates, their comments", ["more.rt:1", "more.rt:2", "More.antt:1"], at)
        shutil.rmtree(os.path.join(folder, "crates"))
        write(os.path.join(folder, "README.md"), "one\ntwo so\nmany\n")
        check("where it is", ["README.md:2 says 'so many'; write: %s" % instead["so many"]], phrases.found(folder, listed))


def try_boxes(check):
    """A crate without a box, and one that depends on a crate of a later box."""
    crates = "# NAME: the libraries\neb_base: smallvec\neb_gen: eb_base eb_lines\neb_lines staticlib: eb_base\neb_other: eb_gen\n"
    wanted = ["no box of .ci/generators/layers.py has the crate `eb_other`", "`eb_gen`, of the box 'Lines and queries', depends on `eb_lines` of 'Ways to run'"]
    check("boxes: what is found", wanted, layers.faults(crates))
    check("boxes: each has crates, and no crate is in two", (True, []), (all(layers.BOXES.values()), repeated(" ".join(layers.BOXES.values()).split())))


def repeated(names):
    return sorted({it for it in names if names.count(it) > 1})


def try_all(check, a_copy):
    try_phrases(check)
    try_boxes(check)
    with a_copy() as (copy, commands):
        def told(kit=""):
            how = {"stdout": subprocess.PIPE, "stderr": subprocess.PIPE, "env": {**os.environ, "PATH": commands, "KIT": kit}}
            done = subprocess.run([os.path.join(copy, ".ci/generate"), "--check"], **how)
            return done.stdout.decode().splitlines(), done.stderr.decode().splitlines(), done.returncode

        source, readme, other = "crates/test_lines/src/tests/texts.rt", "crates/eb_text/README.md", "crates/eb_gen/README.md"
        check("generated, without a kit", ([], [], 0), told())
        changes = [(source, "bytes.push(b'|')?;", "bytes.push(b'-')?;"), (other, "<!-- code:", "<!-- once:"),
                   ("crates.txt", "eb_gen: eb_base", "eb_gen: eb_base uuid"), *((path, old, new) for path, old, new, _ in PUBLIC),
                   ("README.md", "# Earlybird\n", "# Earlybird, which lets\ngo of messages\n")]
        wanted = ["%s isn't what .ci/generate makes of its source" % readme, "docs/THIRD-PARTY.md has no row of `uuid`",
                  "%s shows code, and no comment above it names its source" % other, "%s names calls, and shows none in use" % other,
                  "README.md:1 says 'lets go'; write: %s" % dict(phrases.rows(read(".ci/generators/phrases.txt")))["lets go"],
                  *("%s gives no `%s`, which the specification names" % (path.split("/")[1], name) for path, _, _, name in PUBLIC)]
        with contextlib.ExitStack() as stack:
            for it in changes:
                stack.enter_context(changed(copy, *it))
            printed, said, code = told()
        what = "a changed letter of a README's code, code without a source, a crate of the kit without a row, public names that went, and a phrase"
        check("generate: " + what, (sorted("generate: " + it for it in wanted), [], 1), (sorted(printed), said, code))
        with changed(copy, source, "for term in tokens(alloc, text)?", "for term in tokens(alloc, line)?"):
            why = "generate: %s has no lines from 'for term in tokens(alloc, text)?.as_slice() {' to '}'" % source
            check("generate: a line that a README names is gone", ([], [why], 1), told())
        # (a list that lost names would be found to be there)
        check("the list of public names has none fewer", True, len(set(names.rows(read(os.path.join(copy, ".ci/generators/names.txt"))))) >= 367)
        kit, noted = os.path.join(os.path.dirname(copy), "kit"), read(os.path.join(copy, "dist/SOURCES")).splitlines()[1]
        make_kit(kit, read(os.path.join(copy, "crates.txt")))
        write(os.path.join(commands, "rt"), KIT % kit)
        os.chmod(os.path.join(commands, "rt"), 0o755)
        note = ["generate: docs/THIRD-PARTY.md is of another kit than this one, and isn't compared"]
        check("generated, with another kit that tells other licences", ([], note, 0), told("other"))
        check("generated, with the noted kit", (["generate: docs/THIRD-PARTY.md isn't what .ci/generate makes of its source"], [], 1), told(noted))
        subprocess.run([os.path.join(copy, ".ci/generate")], env={**os.environ, "PATH": commands, "KIT": noted}, stdout=subprocess.DEVNULL, check=True)
        row = "| `serde_json` | `serde_json` 1.2.3 | Unicode-3.0 | Copyright (c) somebody |"
        check("generated, once it was written by the noted kit", (True, ([], [], 0)), (row in read(os.path.join(copy, "docs/THIRD-PARTY.md")).splitlines(), told("other")))

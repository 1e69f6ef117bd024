"""The public names of the specification (names.txt): which of them a crate doesn't give any more."""
import glob
import os
import re


def exported(lib):
    """The names that a crate's root gives: those that it says `pub use` of, and what it defines itself."""
    found = set(re.findall(r"^pub (?:const )?(?:fn|struct|enum|trait|type|const) (\w+)", lib, re.M))
    for path in re.findall(r"^pub use ([^;]+);", lib, re.M):
        inside = re.search(r"\{(.*)\}", path, re.S)
        rows = inside.group(1).split(",") if inside else [path]
        found |= {re.split(r"::|\s+as\s+", row.strip())[-1] for row in rows if row.strip()}
    return found


def homes(name, sources):
    """The crates of this repository of whose types this name is another one, as `pub type Desk = eb_desk::Desk<Job>`."""
    return {home for text in sources for home in re.findall(r"^pub type %s(?:<[^=]*>)? = (\w+)::%s\b" % (name, name), text, re.M)}


def blocks_of(sources, name):
    """Each block of a type or a trait, with its first word or words."""
    head = r"^(pub struct|pub enum|pub trait|impl)\b([^;{]*?)\b%s\b[^;{]*\{$.*?^\}" % name
    for text in sources:
        for block in re.finditer(head, text, re.M | re.S):
            of_trait = block.group(1) == "impl" and re.search(r"\bfor\s+$", block.group(2))
            yield "impl of a trait" if of_trait else block.group(1), block.group(0)


# how a part stands in a block
PARTS = {"pub struct": "pub %s:", "pub enum": r"%s\b", "pub trait": r"fn %s\b", "impl": r"pub (?:const )?fn %s\b", "impl of a trait": r"fn %s\b"}


def gives(name, roots, sources):
    """Whether a crate gives a name, or a part of one."""
    kind, _, part = name.partition("::")
    if kind not in roots or not part:
        return kind in roots
    return any(re.search("^    " + PARTS[which] % part, block, re.M) for which, block in blocks_of(sources, kind))


def defines(name, sources):
    """Whether some file of definitions defines a name, for all."""
    return any(re.search(r"^ *(?:\w+ )*pub (?:\w+ )*%s\b" % name, text, re.M) for text in sources)


def rows(text):
    """Each crate, whether its definitions are meant, and a name."""
    for line in text.splitlines():
        head, colon, names = line.partition("#")[0].partition(":")
        if colon:
            crate, _, specs = head.partition(" ")
            yield from ((crate, bool(specs), name) for name in names.split())


def missing(root, text):
    """The names that aren't there."""
    found, kept = [], {}

    def read(crate, pattern):
        if (crate, pattern) not in kept:
            paths = sorted(glob.glob(os.path.join(root, "crates", crate, pattern), recursive=True))
            kept[crate, pattern] = [open(path, encoding="utf-8").read() for path in paths]
        return kept[crate, pattern]

    for crate, is_definition, name in rows(text):
        if is_definition:
            there = defines(name, read(crate, "specs/**/*.antt"))
        else:
            sources = read(crate, "src/**/*.rt")
            behind = [text for home in sorted(homes(name.partition("::")[0], sources)) for text in read(home, "src/**/*.rt")]
            there = gives(name, exported("".join(read(crate, "src/lib.rt"))), sources + behind)
        if not there:
            found.append("%s gives no `%s`, which the specification names" % (crate, name))
    return found

"""What .ci/test-program asks of the documents: commands print what stands below them, the files that are named exist, and lines are short."""
import glob
import os
import re
import subprocess

WIDTH = 100
README_LINES = 120
# folders whose files a document may name from the top, or from a crate
TOPS = tuple(it + "/" for it in os.listdir(".") if os.path.isdir(it))
ENDINGS = (".md", ".rt", ".antt", ".py", ".h", ".a", ".c", ".1", ".jsonl", ".txt", ".pc", ".toml", ".rs", ".png", ".service", ".edit")


def documents():
    patterns = ("*.md", "docs/*.md", "crates/*/README.md", "examples/*/README.md", "python/README.md", "rust/README.md", "bench/*.md")
    return sorted(path for pattern in patterns for path in glob.glob(pattern))


def read(path):
    with open(path, encoding="utf-8") as file:
        return file.read()


def consoles(text):
    """Each command of a console, and what stands below it."""
    for block in re.findall(r"^```console\n(.*?)^```$", text, re.M | re.S):
        for command, want in re.findall(r"((?:^[$>] .*\n)+)((?:^(?![$>] ).*\n)*)", block, re.M):
            yield re.sub(r"^[$>] ", "", command, flags=re.M), want


def commands_print(check, program):
    count = 0
    for path in documents():
        for command, want in consoles(read(path)):
            count += 1
            got = subprocess.run(["bash", "-c", command.replace("./earlybird", "'%s'" % program)], stdout=subprocess.PIPE)
            check("%s: %s" % (path, command.splitlines()[0][:60]), want, got.stdout.decode())
    check("README has consoles", True, len(list(consoles(read("README.md")))) >= 2)
    check("commands of documents were tried", True, count >= 2)


def table_below(text, head):
    """The first table below a head: its columns, and each row's cells by its name."""
    found = re.search(r"^((?:\|.*\n)+)", text[text.index(head):], re.M).group(1)
    rows = [[cell.strip() for cell in line.strip("|\n").split("|")] for line in found.splitlines()]
    return rows[0], {row[0]: row for row in rows[2:]}


def figures_are_those_measured(check):
    """Each figure of README's table stands in the newest table of docs/PERFORMANCE.md, which is of the date that README says."""
    of_all, measured = table_below(read("docs/PERFORMANCE.md"), "<!-- made: figures -->")
    columns, shown = table_below(read("README.md"), "\n## Why not")
    places = [next(at for at, it in enumerate(of_all) if it.startswith(name)) for name in columns[1:]]
    check("README's figures are those of docs/PERFORMANCE.md", {name: [name, *(measured[name][at] for at in places)] for name in shown}, shown)
    date = re.search(r"<!-- made: figures -->\n\n(\d{4}-\d\d-\d\d), ", read("docs/PERFORMANCE.md")).group(1)
    check("README's figures: three rows, with their date", (3, True), (len(shown), date in read("README.md").partition("\n## Why not")[2].partition("\n## ")[0]))


def section_of(head):
    """A section of docs/QUERIES.md."""
    return read("docs/QUERIES.md").partition("\n## %s\n" % head)[2].partition("\n## ")[0]


def printed(program, words, lines):
    """What the program prints for lines, without its summary."""
    return subprocess.run([program, *words], input="".join(line + "\n" for line in lines).encode(), stdout=subprocess.PIPE).stdout.decode().splitlines()[:-1]


def queries_find(check, program):
    """Each query of the tables of docs/QUERIES.md finds in the messages before it what the table says, without fields and with them."""
    for section, words, least in (("By examples", ["run"], 15), ("Fields", ["run", "--fields", "from,room,level"], 8)):
        text = section_of(section)
        messages = re.search(r"^```\n(\{.*?)^```$", text, re.M | re.S).group(1)
        rows = re.findall(r"^\| `(\?\d+ .*?)` \| ([\d ]+|nothing) \|", text, re.M)
        asked = messages + "".join(query.replace("\\|", "|") + "\n" for query, _ in rows)
        done = subprocess.run([program, *words], input=asked.encode(), stdout=subprocess.PIPE).stdout.decode()
        found = [line.partition(":")[2].strip() or "nothing" for line in done.splitlines()[:-1]]
        check("docs/QUERIES.md, %s: what its queries find" % section, rows, [(query, ids) for (query, _), ids in zip(rows, found)])
        check("docs/QUERIES.md, %s has queries" % section, True, len(rows) > least)


def pieces_find(check, program):
    """Each text of the table of pieces is found by what stands beside it, and by all of that only with `--words pieces`."""
    rows = re.findall(r"^\| `(.*?)` \| (`.*`) \|$", section_of("Pieces of words"), re.M)
    for text, queries in rows:
        lines = ['{"id":1,"text":"%s"}' % text, *("?9 " + query for query in re.findall("`(.*?)`", queries))]
        want = ["%d seen 1: 1" % number for number in range(2, len(lines) + 1)]
        check("docs/QUERIES.md, pieces: %s" % text, want, printed(program, ["run", "--words", "pieces"], lines))
        check("docs/QUERIES.md, pieces: %s, whole words" % text, False, want == printed(program, ["run"], lines))
    check("docs/QUERIES.md: the table of pieces", 6, len(rows))


def counts_answer(check, program):
    """Each count of the table, behind the messages of the examples, has the answer that stands beside it."""
    messages = re.search(r"^```\n(\{.*?)^```$", section_of("By examples"), re.M | re.S).group(1).splitlines()
    rows = re.findall(r"^\| (`#.*?`) \| (.*?) \|", section_of("Counts"), re.M)
    counts = [(count, answer.replace("`", "")) for shown, answer in rows for count in re.findall("`(.*?)`", shown)]
    want = [answer if " count " in answer else "%d %s" % (number, answer) for number, (_, answer) in enumerate(counts, 6)]
    check("docs/QUERIES.md: counts", want, printed(program, ["run", "--counts"], [*messages, *(count for count, _ in counts)]))
    check("docs/QUERIES.md: counts, without the option", ["6 refused: bad line"], printed(program, ["run"], [*messages, counts[0][0]]))
    check("docs/QUERIES.md has counts", 8, len(counts))


def names_in(text):
    """Each file that a document names: where a link leads, and what stands as code and looks like a path."""
    prose = re.sub(r"^    .*$", "", re.sub(r"^```.*?^```$", "", text, flags=re.M | re.S), flags=re.M)
    for link in re.findall(r"\]\(([^)#\s]+)(?:#[^)]*)?\)", prose):
        if "://" not in link:
            yield "link", link
    for code in re.findall(r"`([^`]+)`", prose):
        for word in code.split():
            word = re.sub(r"^\./(?=.)", "", word)
            if re.fullmatch(r"[\w.*@-]+(/[\w.*@-]+)*/?", word) and (word.endswith(ENDINGS) and "/" in word or word.startswith(TOPS)):
                yield "code", word


def is_there(path, kind, name):
    """A link goes from the document's folder; a name in code from there, from the top, or in a document of all crates from one of them."""
    beside = os.path.join(os.path.dirname(path), name)
    if kind == "link":
        return os.path.exists(beside)
    # (what is built, and what is installed, isn't in a clone)
    if "/out/" in name or name.startswith(("bin/", "lib/", "libexec/", "share/man/", "share/doc/")):
        return True
    places = [beside, name] + ([] if path.startswith("crates/") else ["crates/*/" + name])
    return any(glob.glob(it) for it in places)


def files_exist(check):
    missing = ["%s: %s" % (path, name) for path in documents() for kind, name in names_in(read(path)) if not is_there(path, kind, name)]
    check("each file that a document names is there", [], missing)
    # (a check that finds no name would pass)
    check("documents name files", True, sum(1 for path in documents() for _ in names_in(read(path))) > 200)


def definitions_exist(check):
    """Where a document says `NAME` of `crates/X/specs/F.antt`, the file has the name."""
    missing, count, crate = [], 0, None
    for path in documents():
        text, own = " ".join(read(path).split()), path.rpartition("/")[0] if path.startswith("crates/") else None
        for names, its, file in re.findall(r"((?:`\w+`(?:, | and )?)+) of (its )?`((?:crates/\w+/)?specs/\w+\.antt)`", text):
            # (`its` is the crate that was named last)
            crate = file.rpartition("/specs/")[0] or (crate if its else own)
            places = [os.path.join(crate, file[file.index("specs/"):])] if crate else glob.glob("crates/*/" + file)
            for name in re.findall(r"`(\w+)`", names):
                count += 1
                if not any(os.path.exists(it) and re.search(r"\b%s\b" % name, read(it)) for it in places):
                    missing.append("%s: %s of %s" % (path, name, file))
    check("each definition that a document names is there", [], missing)
    check("documents name definitions", True, count > 20)


def changes_are_worked(check):
    """Each worked change of CONTRIBUTING.md names its files."""
    changes = re.split(r"^### ", read("CONTRIBUTING.md"), flags=re.M)[1:]
    files = [{name for kind, name in names_in(change)} for change in changes]
    check("five worked changes, each with its files", (5, True), (len(changes), all(len(it) >= 4 for it in files)))


def outside_code(text):
    """Yields the lines of a document with their numbers, but those of its Rust, which are as long as in the sources."""
    inside = False
    for number, line in enumerate(text.splitlines(), 1):
        if line.startswith("```"):
            inside = line == "```rust"
        elif not inside:
            yield number, line


def lines_are_short(check):
    long = []
    for path in documents():
        for number, line in outside_code(read(path)):
            if len(line) > WIDTH and not line.lstrip().startswith("|"):
                long.append("%s:%d" % (path, number))
    check("no line over %d characters but in tables: .ci/wrap-documents FILE" % WIDTH, [], long)
    check("README has at most %d lines" % README_LINES, True, len(read("README.md").splitlines()) <= README_LINES)


def each_crate_has_a_readme(check):
    crates = sorted(path.split("/")[1] for path in glob.glob("crates/*/src"))
    check("each crate has a README", [], [it for it in crates if not os.path.exists("crates/%s/README.md" % it)])
    parts = [(it, part) for it in crates for part in ("Calls: ", "Begin with: ", "Proved: ") if "\n" + part not in read("crates/%s/README.md" % it)]
    check("each README of a crate has its parts", [], parts)


def try_all(check, program):
    commands_print(check, program)
    figures_are_those_measured(check)
    queries_find(check, program)
    pieces_find(check, program)
    counts_answer(check, program)
    files_exist(check)
    definitions_exist(check)
    changes_are_worked(check)
    lines_are_short(check)
    each_crate_has_a_readme(check)

"""The map of the crates in docs/ARCHITECTURE.md: a line for each by its README, box after box in the order of reading, and a picture
of their layers by crates.txt."""
import re
import textwrap

from generators.manual import with_parts

WIDTH = 100
# what a crate stands on tells its column: these hold lines and texts, and these the index
LINES, INDEX = {"eb_io", "eb_doc", "eb_query", "eb_text", "eb_image"}, {"eb_place"}
COLUMNS = ("lines and texts", "the index", "over both")
# the boxes, and their crates in the order of reading: a crate depends on those of its own box and of the boxes before it
BOXES = {
    "Lines and queries": "eb_base eb_io eb_text eb_fields eb_doc eb_query eb_image eb_options eb_gen",
    "The words of an index": "eb_place eb_flat eb_table eb_terms eb_chain eb_writer eb_block eb_convert",
    "Search": "eb_marks eb_cursor eb_search eb_count eb_bloom eb_engine eb_feed feed_shared eb_blend eb_beside eb_desk eb_serve feed_serve eb_watch eb_match eb_plain",
    "Ways to run": "eb_lines lines_json run_store run_index run_ahead eb_rounds run_over_parts run_with_watches run_images run_with_workers feed_with_workers eb_run earlybird",
    "Around it": "eb_c embedding_example stream_example golden_runs test_lines eb_trials test_threads test_feed test_runs",
}


def rows_of(crates):
    """The libraries that each crate of this repository stands on itself, those of the kit too."""
    rows = [line.partition("#")[0].partition(":") for line in crates.splitlines()]
    return {head.split()[0]: rest.split() for head, colon, rest in rows if colon}


def stands_on(crates):
    """The libraries of this repository that each crate stands on itself."""
    rows = rows_of(crates)
    return {name: [it for it in below if it in rows] for name, below in rows.items()}


def layers_of(below):
    """The layer of each crate: one above the highest that it stands on."""
    found = {}

    def layer(name):
        if name not in found:
            found[name] = 1 + max((layer(it) for it in below[name]), default=-1)
        return found[name]

    for name in below:
        layer(name)
    return found


def columns_of(below):
    """The column of each crate, and none for those that stand on no crate, on which both sides do."""
    def all_below(name):
        return {name}.union(*(all_below(it) for it in below[name]))

    columns = {}
    for name in below:
        on = all_below(name)
        columns[name] = 2 if on & LINES and on & INDEX else 1 if on & INDEX else 0 if on != {name} else None
    return columns


def picture(below):
    """The layers from the highest to the lowest, in three columns."""
    layers, columns = layers_of(below), columns_of(below)
    widths = (28, 24, 34)
    out = ["layer  " + "  ".join(name.ljust(width) for name, width in zip(COLUMNS, widths)).rstrip()]
    for at in range(max(layers.values()), -1, -1):
        here = sorted(name for name in below if layers[name] == at)
        if all(columns[name] is None for name in here):
            out.append("%4d   %s" % (at, " ".join(here)))
            continue
        cells = [textwrap.wrap(" ".join(it for it in here if columns[it] == column), width) for column, width in enumerate(widths)]
        for row in range(max(map(len, cells))):
            texts = [(cell[row] if row < len(cell) else "").ljust(width) for cell, width in zip(cells, widths)]
            out.append(("%4s   %s" % (at if row == 0 else "", "  ".join(texts))).rstrip())
    return "```\n" + "\n".join(out) + "\n```"


def first_sentence(readme):
    """What a README says that its crate is."""
    paragraph = re.search(r"^# .*\n\n((?:.+\n)+)", readme).group(1)
    return re.match(r".*?\.(?=\s|$)", " ".join(paragraph.split())).group(0)[:-1]


def lines(below, read):
    """A line for each crate, below the name of its box."""
    out = []
    for box, names in BOXES.items():
        out.append("### %s\n" % box)
        for name in (it for it in names.split() if it in below):
            text = first_sentence(read("crates/%s/README.md" % name))
            row = "- [`%s`](../crates/%s/README.md): %s" % (name, name, text if text[:1] == "`" else text[0].lower() + text[1:])
            out.append(textwrap.fill(row, WIDTH, subsequent_indent="  ", break_on_hyphens=False, break_long_words=False))
        out.append("")
    return "\n".join(out).rstrip()


def faults(crates):
    """Each crate that has no box, and each that depends on one of a later box."""
    below = stands_on(crates)
    box = {name: at for at, names in enumerate(BOXES.values()) for name in names.split()}
    out = ["no box of .ci/generators/layers.py has the crate `%s`" % name for name in below if name not in box]
    names = list(BOXES)
    for name, its in below.items():
        later = [it for it in its if name in box and box.get(it, -1) > box[name]]
        out += ["`%s`, of the box '%s', depends on `%s` of '%s'" % (name, names[box[name]], it, names[box[it]]) for it in later]
    return out


def with_map(text, crates, read):
    """The document with its picture and its lines written anew."""
    below = stands_on(crates)
    return with_parts(text, {"layers": picture(below), "crates": lines(below, read)})

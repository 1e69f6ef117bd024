"""The manual: the parts of docs/MANUAL.md that come from the table, and the manual page that all of it is."""
import re
import textwrap

from generators.commands import ALONE, COMMANDS, OPTIONS, STATUSES, VERSION, said, synopsis, wrapped

WIDTH = 100
DATE = "2026-11-28"


def listed(rows):
    """Rows of a head and a text, as a list of Markdown."""
    fill = lambda it: textwrap.fill(it, WIDTH, initial_indent="- ", subsequent_indent="  ", break_on_hyphens=False, break_long_words=False)
    return "\n".join(fill("`%s`: %s" % row) for row in rows)


def options():
    rows = []
    for name, it in OPTIONS.items():
        takers = [command for command, its in COMMANDS.items() if name in (*its.ways, *its.options)]
        rows.append(("--%s%s" % (name, " " + it.value if it.value else ""), "%s. Of `%s`." % (said(name), "`, `".join(takers))))
    return listed(rows)


def parts():
    rows = [synopsis(name) for name in COMMANDS]
    rows = [wrapped("earlybird " + row, WIDTH - 4, subsequent_indent=" " * 14) for row in [*rows[:-1], " | ".join([rows[-1], *ALONE])]]
    return {
        "synopsis": textwrap.indent("\n".join(rows), "    "),
        "options": options(),
        "statuses": listed([(str(code), text) for code, _, text in STATUSES]),
    }


def with_parts(text, made=None):
    """A document, each of its marked parts written anew."""
    for name, part in (made or parts()).items():
        mark = re.compile(r"(<!-- made: %s -->\n).*?(<!-- end -->\n)" % name, re.S)
        if not mark.search(text):
            raise SystemExit("generate: no place is marked for %s" % name)
        text = mark.sub(lambda found: found.group(1) + "\n" + part + "\n\n" + found.group(2), text)
    return text


def escaped(text):
    return text.replace("\\", "\\e").replace("-", "\\-").replace("'", "\\(aq")


def inline(text):
    """Code in bold, stress in italics."""
    out = []
    for piece in re.split(r"(`[^`]*`|\*[^*\s][^*]*\*)", text):
        if piece.startswith("`"):
            out.append("\\fB%s\\fP" % escaped(piece[1:-1]))
        elif piece.startswith("*") and len(piece) > 1:
            out.append("\\fI%s\\fP" % escaped(piece[1:-1]))
        else:
            out.append(escaped(piece))
    return "".join(out)


def lines_of(text):
    """The lines of some running text for the page, none of which reads as a request."""
    filled = textwrap.fill(inline(text), WIDTH, break_on_hyphens=False, break_long_words=False)
    return ["\\&" + line if line[:1] in ".'" else line for line in filled.split("\n")]


def cells(row):
    return [cell.strip() for cell in row.strip().strip("|").split("|")]


def page(text):
    """The manual page that a manual in Markdown is: heads, paragraphs, lists, tables and indented examples."""
    text = re.sub(r"<!--.*?-->\n", "", text, flags=re.S)
    out = ["'\\\" t", ".\\\" Made by .ci/generate from docs/MANUAL.md.", '.TH EARLYBIRD 1 "%s" "earlybird %s" "User Commands"' % (DATE, VERSION)]
    for block in re.split(r"\n{2,}(?!    )|\n\n(?=    )", text.strip("\n")):
        block = block.strip("\n")
        if not block or block.startswith("# "):
            continue
        if block.startswith("## "):
            out.append(".SH " + block[3:])
        elif block.startswith("    "):
            out += [".PP", ".nf", *("\\&" + escaped(line[4:]) for line in block.split("\n")), ".fi"]
        elif block.startswith("- "):
            for item in re.split(r"\n(?=- )", block):
                head, _, rest = " ".join(line.strip() for line in item[2:].split("\n")).partition(": ")
                out += [".TP", inline(head), *lines_of(rest)]
        elif block.startswith("|"):
            rows = [cells(row) for row in block.split("\n")]
            out += [".PP", ".TS", "nokeep;", " ".join("lx" if at == len(rows[0]) - 1 else "l" for at in range(len(rows[0]))) + "."]
            for row in [rows[0], *rows[2:]]:
                out.append("\t".join("T{\n%s\nT}" % "\n".join(lines_of(cell)) for cell in row))
            out += [".TE"]
        else:
            out += [".PP", *lines_of(" ".join(block.split("\n")))]
    return re.sub(r"(\.SH [^\n]*\n)\.PP\n", r"\1", "\n".join(out) + "\n")

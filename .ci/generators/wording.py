"""The table of commands and options as share/earlybird/words.awk reads it: that says in POSIX awk why words ask for no command, and the
numbers that a size in memory stands for. The launcher asks it where standard error is a terminal, and wherever --memory is given."""
from generators.commands import ALONE, COMMANDS, LETTERS, MOST_MEMORY, OPTIONS, POWERS, SETTLED, alternatives, excluded

MADE = "# Made by .ci/generate from .ci/generators/commands.py: what words.awk knows of commands and options.\n"


def quoted(text):
    """A text as a string of awk."""
    return '"%s"' % text.replace("\\", "\\\\").replace('"', '\\"')


def example(name):
    """A value of an option, as a help line shows it."""
    it = OPTIONS[name]
    return it.example or str(it.usual if it.usual is not None else it.offers[0] if it.offers else it.low)


def of_option(name, it):
    """What awk knows of an option: its kind, its values and an example."""
    rows = [("kind", it.value or "flag")]
    if it.low is not None:
        rows += [("low", it.low), ("high", it.high)]
    if it.usual is not None and it.value == "N":
        rows.append(("usual", it.usual))
    if it.offers == POWERS:
        rows.append(("power", 1))
    if it.only:
        rows += [("only", " ".join(map(str, it.offers))), ("offered", alternatives(it.offers))]
    if it.value:
        rows.append(("example", example(name)))
    return ["    %s[%s] = %s" % (what, quoted(name), value if isinstance(value, int) else quoted(value)) for what, value in rows]


def text():
    """The table as a function of awk."""
    rows = ["    most = %d" % MOST_MEMORY, "    commands = %s" % quoted(" ".join(COMMANDS)), "    alone = %s" % quoted(" ".join([*ALONE, *LETTERS, "help"])),
            "    settled_by_memory = %s" % quoted(" ".join(SETTLED))]
    for name, it in OPTIONS.items():
        rows += of_option(name, it)
    for name, it in COMMANDS.items():
        if it.parser:
            rows.append("    foreign[%s] = 1" % quoted(name))
            continue
        rows.append("    takes[%s] = %s" % (quoted(name), quoted(" ".join((*it.ways, *it.options)))))
        for option in (*it.ways, *it.options):
            apart = excluded(name, option)
            if apart:
                rows.append("    apart[%s] = %s" % (quoted(name + " " + option), quoted(" ".join(apart))))
    return MADE + "function set_table() {\n" + "\n".join(rows) + "\n}\n"

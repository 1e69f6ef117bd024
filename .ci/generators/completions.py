"""Completions for bash, zsh and fish: commands, options that are still free, and numbers in their ranges."""
from generators.commands import ALONE, COMMANDS, OPTIONS, excluded, letter_of, range_of, said

MADE = "# Completion of the command earlybird for %s; made by .ci/generate from .ci/generators/commands.py.\n"


# commands whose other words are files
OF_FILES = [name for name, it in COMMANDS.items() if it.parser]


def offered(name):
    return " ".join(str(it) for it in OPTIONS[name].offers)


def forms(name, letter):
    """The forms of an option: its name, and its letter where it has one."""
    return ["--" + name, *(["-" + letter] if letter else [])]


def written(name):
    return forms(name, OPTIONS[name].letter)


def bash():
    options = "\n".join("        %s) echo '%s' ;;" % (name, " ".join("--" + it for it in (*command.ways, *command.options)))
                        for name, command in COMMANDS.items() if command.ways or command.options)
    numbers = "\n".join("        %s) echo '%s' ;;" % (" | ".join(written(name)), offered(name)) for name, it in OPTIONS.items() if it.offers)
    folders = " | ".join("--" + name for name, it in OPTIONS.items() if it.value == "DIR")
    free = " ".join(form for name, it in OPTIONS.items() if it.value and it.value != "DIR" and not it.offers for form in written(name))
    apart = "\n".join("        '%s --%s') echo '%s' ;;" % (name, it, " ".join("--" + other for other in excluded(name, it)))
                      for name, command in COMMANDS.items() for it in (*command.ways, *command.options) if excluded(name, it))
    return MADE % "bash" + """
_earlybird_options() {
    case $1 in
%s
    esac
}

_earlybird_numbers() {
    case $1 in
%s
    esac
}

# what can't stand beside an option
_earlybird_others() {
    case $1 in
%s
    esac
}

_earlybird() {
    local word=${COMP_WORDS[COMP_CWORD]} before=${COMP_WORDS[COMP_CWORD - 1]} words='' files='' given it other
    # (bash makes words of their own of --docs, = and 4096)
    [ "$word" = = ] && word=
    [ "$before" = = ] && before=${COMP_WORDS[COMP_CWORD - 2]}
    if [ "$COMP_CWORD" -eq 1 ]; then
        words='%s'
    elif [ "$before" = '%s' ]; then
        compopt -o filenames 2>/dev/null
        mapfile -t COMPREPLY < <(compgen -d -- "$word")
        return
    elif [ "${COMP_WORDS[1]}" = help ]; then
        words='%s'
    elif [[ ' %s ' = *" $before "* ]]; then
        return
    elif [ -n "$(_earlybird_numbers "$before")" ]; then
        words=$(_earlybird_numbers "$before")
    else
        given=" ${COMP_WORDS[*]:1:COMP_CWORD - 1} "
        for it in $(_earlybird_options "${COMP_WORDS[1]}"); do
            case $given in *" $it "*) continue ;; esac
            for other in $(_earlybird_others "${COMP_WORDS[1]} $it"); do
                case $given in *" $other "*) continue 2 ;; esac
            done
            words="$words $it"
        done
        case ${COMP_WORDS[1]} in %s) case $word in -*) ;; *) files=1 ;; esac ;; esac
    fi
    mapfile -t COMPREPLY < <(compgen -W "$words" -- "$word")
    if [ -n "$files" ]; then
        compopt -o filenames 2>/dev/null
        mapfile -t COMPREPLY < <(compgen -f -- "$word")
    fi
}

complete -F _earlybird earlybird
""" % (options, numbers, apart, " ".join([*COMMANDS, *ALONE]), folders, " ".join(COMMANDS), free, " | ".join(OF_FILES))


def quoted(text):
    return "'" + text.replace("'", "'\\''") + "'"


def zsh():
    def row(command, name):
        it = OPTIONS[name]
        others = " ".join(form for other in (name, *excluded(command, name)) for form in forms(other, letter_of(command, other)))
        value = ""
        if it.value == "N":
            value = ":%s:(%s)" % (range_of(name), offered(name))
        elif it.value == "DIR":
            value = ":folder:_files -/"
        elif it.value == "LIST":
            value = ":names:"
        elif it.value:
            value = ":%s:(%s)" % (it.value.lower(), offered(name))
        shown = "--%s=" % name if it.value else "--" + name
        rest = "[%s]%s" % (COMMANDS[command].says.get(name, it.text).replace(":", "\\:"), value)
        letter = letter_of(command, name)
        if letter:
            return "                '(%s)'{-%s,%s}%s" % (others, letter + "+" * bool(it.value), shown, quoted(rest))
        return "                " + quoted("(%s)%s%s" % (others, shown, rest))

    cases = []
    for name, command in COMMANDS.items():
        rows = [row(name, it) for it in (*command.ways, *command.options)] + (["                '*:file:_files'"] if name in OF_FILES else [])
        if rows:
            cases.append("        %s)\n            _arguments \\\n%s\n            ;;" % (name, " \\\n".join(rows)))
    words = "\n".join("        %s" % quoted("%s:%s" % (name, text)) for name, text in [*((it, its.text) for it, its in COMMANDS.items()), *ALONE.items()])
    return "#compdef earlybird\n" + MADE % "zsh" + """
_earlybird() {
    local -a commands=(
%s
    )
    if (( CURRENT == 2 )) || [[ $words[2] = help ]]; then
        _describe command commands
        return
    fi
    local command=$words[2]
    shift words
    (( CURRENT-- ))
    case $command in
%s
    esac
}

_earlybird "$@"
""" % (words, "\n".join(cases))


def fish():
    lines = ["complete -c earlybird -f", "complete -c earlybird -n '__fish_seen_subcommand_from %s' -F" % " ".join(OF_FILES),
             "complete -c earlybird -n '__fish_seen_subcommand_from help' -a '%s'" % " ".join(COMMANDS)]
    for name, command in COMMANDS.items():
        lines.append("complete -c earlybird -n __fish_use_subcommand -a %s -d %s" % (name, quoted(command.text)))
    for word, text in ALONE.items():
        lines.append("complete -c earlybird -n __fish_use_subcommand -l %s -d %s" % (word[2:], quoted(text)))
    for name, it in OPTIONS.items():
        folders = " -a '(__fish_complete_directories)'" if it.value == "DIR" else ""
        value = " -x -a %s" % quoted(offered(name)) if it.offers else " -x" + folders if it.value else ""
        takers = [command for command, its in COMMANDS.items() if name in (*its.ways, *its.options)]
        # commands beside whose option the same ones can't stand, and where it has the same letter, share a line
        alike = lambda command: (tuple(excluded(command, name)), letter_of(command, name))
        for others, letter in dict.fromkeys(map(alike, takers)):
            seen = [command for command in takers if alike(command) == (others, letter)]
            condition = "__fish_seen_subcommand_from %s" % " ".join(seen) + "".join("; and not __fish_contains_opt %s" % other for other in others)
            lines.append("complete -c earlybird -n %s -l %s%s%s -d %s" % (quoted(condition), name, " -s " + letter if letter else "", value, quoted(said(name, seen[0]))))
    return MADE % "fish" + "\n" + "\n".join(lines) + "\n"

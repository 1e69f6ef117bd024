# awk -v mode=explain -f table.awk -f words.awk -- WORDS: one line that says why these words are invalid, or nothing where they are valid.
# mode=memory: the words that --memory stands for, or nothing where it isn't given or the words are invalid. Runs with LC_ALL=C, so
# a letter is a byte. Its work is linear in the words; only words cut to 40 letters are compared letter by letter.
BEGIN {
    set_table()
    reason = ""
    settled = ""
    look_at_words()
    if (mode == "memory") { if (reason == "" && settled != "") print settled }
    else if (reason != "") print reason
    exit
}

# ---- how a word is shown

# a word as a terminal may see it: no control, of one byte or of two, and at most 60 bytes that end with a whole letter
function plain(word) {
    if (length(word) > 60) { word = substr(word, 1, 57); sub(/[\300-\377]?[\200-\277]*$/, "", word); word = word "..." }
    gsub(/\302[\200-\237]|[\001-\037\177]/, "?", word)
    return word
}
# a file as a shell takes it, or a name for one that can't be shown as a whole
function for_shell(word) {
    if (plain(word) != word || word == "") return "FILE"
    if (word ~ "^[A-Za-z0-9_./:@%+,=-]+$") return word
    gsub(/'/, "'\\''", word)
    return "'" word "'"
}
function say(text) { if (reason == "") reason = text }
function size_of(bytes) {
    if (bytes >= 1073741824) return (bytes % 1073741824 ? sprintf("%.1f", bytes / 1073741824) : bytes / 1073741824) " GiB"
    if (bytes >= 1048576) return (bytes < 10485760 ? sprintf("%.1f", bytes / 1048576) : sprintf("%d", bytes / 1048576)) " MiB"
    return sprintf("%d KiB", (bytes + 1023) / 1024)
}
function range_of(name) { return "N is " low[name] " to " high[name] }
# (an awk may take a leading zero for base eight)
function value_of(digits) { sub(/^0+/, "", digits); return digits + 0 }
function wants(name) {
    if (kind[name] == "N") return "--" name " takes a number from " low[name] " to " high[name] ", as in --" name " " example[name]
    if (kind[name] == "LIST") return "--" name " takes names with commas between, as in --" name " " example[name]
    if (kind[name] == "SIZE") return "--" name " takes a size, as in --" name " " example[name]
    if (name in only) return "--" name " takes " offered[name]
    return "--" name " takes " (kind[name] == "DIR" ? "a folder" : "a value") ", as in --" name " " example[name]
}

# how far two words are apart: letters that are put in, left out, changed or swapped
function distance(a, b,    i, j, m, n, d, best) {
    m = length(a); n = length(b)
    for (i = 0; i <= m; i++) d[i, 0] = i
    for (j = 0; j <= n; j++) d[0, j] = j
    for (i = 1; i <= m; i++) for (j = 1; j <= n; j++) {
        best = d[i - 1, j - 1] + (substr(a, i, 1) != substr(b, j, 1))
        if (d[i - 1, j] + 1 < best) best = d[i - 1, j] + 1
        if (d[i, j - 1] + 1 < best) best = d[i, j - 1] + 1
        if (i > 1 && j > 1 && substr(a, i, 1) == substr(b, j - 1, 1) && substr(a, i - 1, 1) == substr(b, j, 1) && d[i - 2, j - 2] + 1 < best) best = d[i - 2, j - 2] + 1
        d[i, j] = best
    }
    return d[m, n]
}

# the only one of some names that begins with a word, else the nearest one where that is near; "" where there is none
function nearest(word, names,    list, n, i, d, best, found, begins) {
    word = tolower(substr(word, 1, 40))
    n = split(names, list, " ")
    begins = 0
    for (i = 1; i <= n; i++) if (length(word) > 1 && index(list[i], word) == 1) { begins++; found = list[i] }
    if (begins == 1) return found
    found = ""
    best = length(word) < 4 ? 2 : length(word) < 8 ? 3 : 4
    for (i = 1; i <= n; i++) {
        d = distance(word, list[i])
        if (d < best) { best = d; found = list[i] }
    }
    return found
}

# ---- the words

function look_at_words(    n) {
    n = ARGC - 1
    if (n < 1) { say("a command is missing; earlybird help names all"); return }
    name = ARGV[1] ""
    if (name in foreign) return
    if (n == 1 && index(" " alone " ", " " name " ")) return
    if (!(name in takes)) { no_command(name); return }
    if (name == "bench") { look_at_bench(n); return }
    look_at_options(n)
}

function no_command(word,    near) {
    near = nearest(word, commands " help")
    if (word == "") say("the first word is empty: is a variable not set?")
    else if (word ~ /^--./ && nearest(substr(word, 3), takes["run"] " " takes["feed"]) != "") say("a command comes before " plain(word) ", as in: earlybird run " for_shell(word))
    else if (word ~ /^-/) say("there is no option " plain(word) " here: a command comes first; earlybird help names all")
    else if (near != "") say("there is no command " plain(word) ": did you mean " near "?")
    else if (word ~ "[./]") say("there is no command " plain(word) "; to search a file: earlybird live " for_shell(word))
    else say("there is no command " plain(word) "; earlybird help names all")
}

function look_at_bench(n) {
    if (n != 3) { say("bench takes two numbers, START and DOCS, as in: earlybird bench 1 10000"); return }
    if (ARGV[2] !~ /^[0-9]+$/ || length(ARGV[2]) > 20 || above(ARGV[2], "18446744073709551615")) { say("bench: START is a whole number below 2^64, which " (ARGV[2] == "" ? "an empty word" : plain(ARGV[2])) " isn't"); return }
    if (ARGV[3] !~ /^[0-9]+$/ || length(ARGV[3]) > 9 || value_of(ARGV[3]) < 1 || value_of(ARGV[3]) > 40000) say("bench: DOCS is a whole number from 1 to 40000, which " (ARGV[3] == "" ? "an empty word" : plain(ARGV[3])) " isn't")
}

# whether digits are above others, as texts (as numbers they would lose digits)
function above(digits, others) {
    sub(/^0+/, "", digits)
    return length(digits) > length(others) || length(digits) == length(others) && (digits "x") > (others "x")
}

function has(name, option) { return index(" " takes[name] " ", " " option " ") > 0 }
function is_settled(option) { return index(" " settled_by_memory " ", " " option " ") > 0 }

function look_at_options(n,    i, word, option, at, value) {
    for (i = 2; i <= n; i++) {
        word = ARGV[i] ""
        at = index(word, "=")
        option = substr(at ? substr(word, 1, at - 1) : word, 3)
        if (word !~ /^--./ || !has(name, option)) { strange(word, option, i); return }
        if (option in given) { say("--" option " is given twice: once is enough"); return }
        given[option] = 1
        if (kind[option] == "flag") {
            if (at) { say("--" option " takes no value"); return }
            continue
        }
        if (at) value = substr(word, at + 1)
        else if (i == n) { say(wants(option)); return }
        else value = ARGV[++i] ""
        values[option] = value
        check_value(option, value)
        if (reason != "") return
    }
    check_together()
    if (reason == "") check_memory()
}

# a word of a command that is none of its options
function strange(word, option, i,    near) {
    if (word == "") { say("word " i " is empty: is a variable not set?"); return }
    if (name == "load" && word ~ /^--/ && (is_settled(option) || option == "memory")) { say("load takes its setting from the image: leave --" option " out"); return }
    if (word == "--") { say(name " takes no --"); return }
    if (word ~ /^--/ && option in kind) {
        near = takers_of(option)
        if (near != "") { say("--" option " is an option of " near ", and not of " name); return }
    }
    if (word ~ /^-/) {
        sub(/^--?/, "", word); sub(/=.*/, "", word)
        near = length(word) == 1 ? begins_with(word, takes[name]) : nearest(word, takes[name])
        say("there is no option " plain(ARGV[i]) " of " name (near == "" ? "; earlybird help " name " names all" : ": did you mean --" near "?"))
        return
    }
    if (has(name, word)) { say(word " is written --" word); return }
    if (name == "run" || name == "feed" || name == "save") say(name " reads standard input, and takes no files: earlybird " name " < " for_shell(word) for_text(name, word))
    else if (name == "load") say("load reads the image from standard input: earlybird load < " for_shell(word))
    else say(name " takes no word " plain(word) "; see earlybird help " name)
}

# what is for a file that has no messages by its name, but may be a log
function for_text(name, word) {
    return name == "save" || word ~ /\.jsonl?$/ || length(for_shell(word)) > 40 ? "" : "; for lines of text: earlybird live " for_shell(word)
}

function begins_with(letter, names,    list, n, i) {
    n = split(names, list, " ")
    for (i = 1; i <= n; i++) if (substr(list[i], 1, 1) == letter) return list[i]
    return ""
}

# the commands that take an option, as "run, feed and load"
function takers_of(option,    list, n, i, found, last) {
    n = split(commands, list, " ")
    found = ""
    last = ""
    for (i = 1; i <= n; i++) if (list[i] in takes && has(list[i], option)) {
        if (last != "") found = found (found == "" ? "" : ", ") last
        last = list[i]
    }
    return found (found == "" ? "" : " and ") last
}

# ---- values

function check_value(option, value) {
    if (kind[option] == "N") check_number(option, value)
    else if (kind[option] == "LIST") check_list(option, value)
    else if (kind[option] == "SIZE") { if (bytes_of(value) < 0) say("--" option ": " bad_size(value)) }
    else if (value == "") say(wants(option))
    else if (option in only && !index(" " only[option] " ", " " value " ")) say(wants(option) ", and not " plain(value))
}

function check_number(option, value,    number, below) {
    if (value == "") { say(wants(option)); return }
    if (value ~ /^-[^0-9]/) { say(wants(option) ", and " plain(value) " follows"); return }
    if (value ~ /^[0-9]+[kKmM]$/ && length(value) < 9) {
        number = value_of(substr(value, 1, length(value) - 1)) * (value ~ /[kK]$/ ? 1024 : 1048576)
        say("--" option ": a number has digits alone, unlike " value (number >= low[option] && number <= high[option] ? ": " sprintf("%d", number) : "; " range_of(option))); return
    }
    if (value ~ /^[0-9]+[,._'][0-9]/) { say("--" option ": a number has digits alone, unlike " plain(value) "; " range_of(option)); return }
    if (value !~ /^[0-9]+$/) { say("--" option ": " plain(value) " is no whole number; " range_of(option)); return }
    if (value_of(value) < low[option] || value_of(value) > high[option]) { say("--" option ": " plain(value) " is too " (value_of(value) < low[option] ? "small" : "large") "; " range_of(option)); return }
    if (length(value) > 9) { say("--" option ": a number has at most nine digits"); return }
    if (option in power) {
        below = low[option]
        while (below * 2 <= value_of(value)) below *= 2
        if (below != value_of(value)) say("--" option ": " value_of(value) " is no power of two: " below (below * 2 <= high[option] ? " or " below * 2 : ""))
    }
}

function check_list(option, value,    list, n, i, seen) {
    if (value == "") { say(wants(option)); return }
    if (value ~ /^--/) { say(wants(option) ", and " plain(value) " follows"); return }
    n = split(value, list, ",")
    if (n > 8) { say("--" option ": at most 8 names, and these are " n); return }
    for (i = 1; i <= n; i++) {
        if (list[i] == "") say("--" option ": a name is empty in " plain(value) "; names have single commas between, as in " example[option])
        else if (list[i] ~ /[ \t]/) say("--" option ": a list has no blanks, as in " example[option])
        else if (list[i] !~ /^[a-z0-9_]+$/) say("--" option ": a name has small letters, digits and _ alone, unlike " plain(list[i]))
        else if (length(list[i]) > 32) say("--" option ": a name has at most 32 letters, and " plain(list[i]) " has " length(list[i]))
        else if (list[i] == "since") say("--" option ": since is the bound of an id, and no field")
        else if (list[i] in seen) say("--" option ": " list[i] " is given twice")
        seen[list[i]] = 1
    }
}

# ---- what can't be given together

function check_together(    names, n, list, m, i, k, one, other) {
    # (in the order of the table, so that the same words get the same reason on each machine)
    n = split(takes[name], names, " ")
    for (i = 1; i <= n; i++) if (names[i] in given && ((name " " names[i]) in apart)) {
        one = names[i]
        m = split(apart[name " " one], list, " ")
        for (k = 1; k <= m; k++) if (list[k] in given) {
            other = list[k]
            if (one == "memory" || other == "memory") say("--memory settles --" (other == "memory" ? one : other) ": leave one of them out")
            else say("--" one " and --" other " can't be given together: leave one of them out")
            return
        }
    }
}

# ---- memory

function number_of(option) { return option in values ? value_of(values[option]) : usual[option] }

# the bytes of a size, or -1
function bytes_of(value,    unit) {
    if (value !~ /^[0-9]+([.][0-9]+)?[KkMmGg]([Ii]?[Bb])?$/ || length(value) > 12) return -1
    unit = value ~ /[Gg]/ ? 1073741824 : value ~ /[Mm]/ ? 1048576 : 1024
    sub(/[A-Za-z]+$/, "", value)
    return int(value_of(value) * unit)
}
function bad_size(value) {
    if (value == "") return "a size is missing, as in 800M"
    if (value ~ /^[0-9]+$/ && length(value) < 12) return value " has no unit: " value "M is MiB, " value "K is KiB"
    return plain(value) " is no size; write 64M, 800M or 1G"
}

# the number of indexes: generations and the one in reserve, or parts
function indexes() { return name == "feed" ? number_of("keep") + 1 : ("parts" in given) ? number_of("parts") : 1 }

# the bytes of an index
function memory_for(s, d, t) { return 8 * (1 + s * (2 + d + 77 * t)) }

function check_memory(    s, d, t) {
    if (!has(name, "segments")) return
    if ("memory" in given) { settle(); return }
    s = number_of("segments"); d = number_of("docs"); t = number_of("terms")
    if (memory_for(s, d, t) * indexes() <= most) return
    say("this setting takes " size_of(memory_for(s, d, t) * indexes()) ", and the most is " size_of(most) ": " smaller(s, d, t))
}

# a number made smaller, so that it fits
function smaller(s, d, t,    k, room, n) {
    room = most / indexes()
    n = int((room / 8 - 1) / (2 + d + 77 * t))
    if (n >= 1) return "--segments " n
    if (d > 1024 && memory_for(1, 1024, t) <= room) return "--segments 1 --docs " int(room / 8 - 3 - 77 * t)
    if (("keep" in given) && 3 * memory_for(s, d, t) <= most) return "--keep " (int(most / memory_for(s, d, t)) - 1)
    for (k = t; k > 1024 && memory_for(1, d, k) > room; k /= 2);
    if (memory_for(1, d, k) <= room) return "--segments 1 --terms " k
    return "give --memory 1G in place of its numbers"
}

# The rule of --memory. A segment has twice as many documents as terms, and so takes 8 * (2 + 79 * terms) bytes. Twice the terms in half as
# many segments hold a tenth to two thirds more messages, since words come again; but the larger they are, the more room is left over. So of
# the powers of two it takes the one for which segments times terms, 15 % more for each doubling, is greatest. A feed has one segment in
# each generation, one generation in reserve, and the newest one half full on average.
function settle(    room, t, n, parts, worth, score, best, best_n, best_t, most_n) {
    room = bytes_of(values["memory"])
    if (room > most) { say("--memory: " plain(values["memory"]) " is more than " size_of(most) ", which indexes may take at most"); return }
    parts = name == "feed" ? 1 : indexes()
    most_n = name == "feed" ? high["keep"] + 1 : high["segments"]
    best = 0
    worth = 1
    for (t = low["terms"]; t <= 131072; t *= 2) {
        n = how_many(room, t, parts)
        if (n > most_n) n = most_n
        score = (name == "feed" ? n < low["keep"] + 1 ? 0 : n - 1.5 : n) * t * worth
        if (score > best) { best = score; best_n = n; best_t = t }
        worth *= 1.15
    }
    if (!best) { say("--memory: " plain(values["memory"]) " is too small; the least is " size_of(parts * (name == "feed" ? low["keep"] + 1 : 1) * memory_for(1, 2 * low["terms"], low["terms"]))); return }
    settled = (name == "feed" ? "--keep=" (best_n - 1) " --segments=1" : "--segments=" best_n) " --docs=" (2 * best_t) " --terms=" best_t
}
function how_many(room, t, parts) { return name == "feed" ? int(room / memory_for(1, 2 * t, t)) : int((room / parts - 8) / (8 * (2 + 79 * t))) }

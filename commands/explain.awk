# A report in plain words, and what to do: the words are those of words.tsv, from which docs/NIGHT-SHIFT.md is made too.
# A row of that file: a key, a line as an example, words, and more of them. {3} in the words stands for the third field of the line, {3th} for what it
# counts from 0 (3 is the fourth). Of each kind of line the first is told with all its words, nine more with the first of them, and the rest are counted.
BEGIN {
    if (explain) {
        while ((got = (getline row < ENVIRON["words"])) > 0) {
            count = split(row, cell, "\t")
            words[cell[1]] = cell[3]
            more[cell[1]] = count > 3 ? cell[4] : ""
        }
        if (got < 0) {
            print ENVIRON["words"] " cannot be read" | "cat >&2"
            failed = 1
            exit
        }
        split("first second third fourth fifth sixth seventh eighth ninth tenth eleventh twelfth thirteenth fourteenth fifteenth sixteenth", nth, " ")
        split("G A R", letters, " ")
        words[""] = "No such line can come."
    }
}

# ---- the lines

# The key of a line's words; none where no such line can come.
function kind(line, field) {
    if (line ~ /^[0-9]+ CLEAN$/)
        return "CLEAN"
    if (line ~ /^SCRUB v1 members [0-9]+ stripes [0-9]+$/)
        return "SCRUB"
    split(line, field, " ")
    if (line ~ /^[0-9]+ BAD [0-9]+ [0-9]+ [G-][A-][R-]$/ && field[5] != "---")
        return field[4] == 1 ? "BAD 1" : "BAD more"
    if (line ~ /^[0-9]+ UNCHECKED [0-9]+ [0-9]+$/)
        return "UNCHECKED"
    if (line ~ /^[0-9]+ TORN [0-9]+$/)
        return field[3] == 512 ? "TORN 512" : "TORN"
    if (line ~ /^TOTAL/ && verdict(line) != 3)
        return "TOTAL"
    if (line ~ /^REFUSED (1|2|10|11|12|13)$/)
        return line
    return ""
}

# Takes in a line: tells of it, unless it is CLEAN or the last, and keeps what the points ask for.
function hear(key) {
    key = kind($0)
    heard++
    if (key == "")
        strange = 1
    if (key == "SCRUB")
        first = $0
    if ($2 == "BAD") {
        if (bad && $3 != drive)
            drives_differ = 1
        bad = $0
        drive = $3
        if ($4 != 1)
            bad_more = 1
        if ($5 != "G--")
            other_letters = 1
    }
    if ($2 == "UNCHECKED")
        unchecked++
    if ($2 == "TORN")
        torn = 1
    if (key ~ /^(TOTAL|REFUSED)/)
        count_rest()
    if (key != "CLEAN")
        say(key, $0)
}

# Tells of a line, which report.awk may have printed already.
function say(key, line) {
    said[key]++
    if (said[key] > 10)
        return
    example[key] = line
    if (lines == "none")
        print line
    wrap(filled(words[key] (said[key] == 1 && more[key] != "" ? " " more[key] : ""), line), "    ", "    ")
    if (key ~ /^BAD/)
        say_letters(line)
    print ""
    if (live)
        fflush()
}

# How many lines of each kind were neither printed nor told of.
function count_rest(key) {
    for (key in said)
        if (lines == "none" && said[key] > 10) {
            print "And " (said[key] - 10) " more lines like " example[key]
            print ""
            said[key] = 10
        }
}

# What is wrong with the block of a BAD line, letter by letter.
function say_letters(line, field, i) {
    split(line, field, " ")
    for (i = 1; i <= 3; i++)
        if (substr(field[5], i, 1) == letters[i])
            wrap(letters[i] ": " words[letters[i]], "    ", "       ")
}

# ---- what to do

function tell(key) {
    count_rest()
    key = kind(last)
    print "What to do"
    print ""
    wrap(words["first"], "", "")
    if (first != "") {
        print ""
        print "Only you can see whether this point fits. If it does, stop here:"
        print ""
        point("1", first)
    }
    print ""
    print (first != "" ? "If not, this point fits:" : "This point fits:")
    print ""
    decide(key)
}

# The first point that fits.
function decide(key) {
    if (torn || bad_more || other_letters || drives_differ || bad && unchecked) {
        wrap("2. " words["2"] ":", "", "   ")
        because(torn, "2 torn")
        because(bad_more, "2 more")
        because(other_letters, "2 letters")
        because(drives_differ, "2 drives")
        because(bad && unchecked, "2 unchecked")
        wrap(more["2"], "   ", "   ")
    } else if (strange || key !~ /^(TOTAL|REFUSED)/)
        point("3", "")
    else if (key ~ /^REFUSED/)
        point("4", last)
    else if (bad)
        point("5", bad)
    else if (unchecked) {
        point("6", "")
        if (2 * unchecked > heard)
            wrap(words["6 half"] ": " more["6 half"], "   ", "   ")
        else
            wrap(more["6 less"], "   ", "   ")
    } else if (verdict(last) == 0)
        point("7", last)
    else
        point("3", "")
    if (called) {
        print ""
        wrap(words["call"], "", "")
    }
}

function because(so, key) {
    if (so)
        wrap("- " words[key], "   ", "     ")
}

function point(key, line) {
    wrap(key ". " words[key] ": " filled(more[key], line), "", "   ")
}

# ---- text

function filled(text, line, field, count, i) {
    count = split(line, field, " ")
    for (i = 1; i <= count; i++) {
        gsub("[{]" i "[}]", field[i], text)
        gsub("[{]" i "th[}]", nth[field[i] + 1], text)
    }
    return text
}

# Prints text in lines of eighty characters at most, without the marks of the page: the first line after `lead`, the others after `indent`.
function wrap(text, lead, indent, word, count, i, line) {
    gsub(/`|[*][*]/, "", text)
    if (text ~ /[^-a-z]call[^a-z]/)
        called = 1
    count = split(text, word, " ")
    line = lead word[1]
    for (i = 2; i <= count; i++)
        if (length(line) + 1 + length(word[i]) > 80) {
            print line
            line = indent word[i]
        } else
            line = line " " word[i]
    print line
}

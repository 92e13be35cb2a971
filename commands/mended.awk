# From the list of a repair, and what bad.awk makes of the report on the same image: what was rebuilt, and what is left. A stripe was rebuilt if it is bad in
# the report and not in the list. Ends with 1 where the two do not agree.
BEGIN { next_run() }

$2 == "LOST" { pass($1) }

{ note($2, $1, $1) }

END {
    pass(-1)
    count = split(total, field, " ")
    if (count != 10 || field[6] != stripes["rebuilt"] + stripes["LOST"] || field[8] != stripes["UNCHECKED"] + 0 || field[10] != stripes["TORN"] + 0)
        exit 1
    tell("rebuilt", "rebuilt", drives())
    tell("LOST", "LOST", "")
    tell("unchecked", "UNCHECKED", "")
    tell("torn", "TORN", "")
}

# Sets from, to, drive to the next run of bad stripes; after the last, to -1.
function next_run(line, field) {
    from = to = -1
    if ((getline line < ENVIRON["bad"]) <= 0)
        return
    if (line ~ /^TOTAL /) {
        total = line
        return
    }
    split(line, field, " ")
    from = field[1] + 0
    to = field[2] + 0
    drive = field[3]
}

# Notes the bad stripes before the next one that is lost as rebuilt; with -1, all that are left.
function pass(lost) {
    while (from >= 0 && (lost < 0 || to < lost)) {
        rebuilt(from, to)
        next_run()
    }
    if (from >= 0 && from <= lost) {
        if (from < lost)
            rebuilt(from, lost - 1)
        from = lost + 1
        if (from > to)
            next_run()
    }
}

function rebuilt(first, last) {
    note("rebuilt", first, last)
    mended[drive + 0] = 1
}

# The drives with a rebuilt block, as text.
function drives(one, text) {
    for (one = 0; one < 16; one++)
        if (one in mended)
            text = text (text == "" ? "" : ", ") one
    return text
}

# Adds stripes to those of a kind, of which the first ten runs are named.
function note(kind, first, last) {
    stripes[kind] += last - first + 1
    if (kind in end && end[kind] + 1 == first) {
        end[kind] = last
        return
    }
    close_run(kind)
    begin[kind] = first
    end[kind] = last
}

function close_run(kind) {
    if (!(kind in end))
        return
    runs[kind]++
    if (runs[kind] <= 10)
        named[kind] = named[kind] (runs[kind] == 1 ? "" : ", ") sprintf("%.0f", begin[kind]) (begin[kind] == end[kind] ? "" : sprintf("-%.0f", end[kind]))
    else
        named[kind, "more"] = ", ..."
}

function tell(name, kind, on) {
    close_run(kind)
    printf "%s %.0f", name, stripes[kind]
    if (stripes[kind] > 0)
        printf ": %s %s%s", (stripes[kind] == 1 ? "stripe" : "stripes"), named[kind], named[kind, "more"]
    if (on != "")
        printf ", on %s %s", (on ~ /,/ ? "drives" : "drive"), on
    printf "\n"
}

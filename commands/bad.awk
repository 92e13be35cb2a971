# Of a report, the stripes that have one bad block, in runs with the same drive: the first stripe, the last, the drive. Then the last line.
# Ends with 3 where the report has none, or is refused.
$2 == "BAD" && $4 == 1 {
    if (count && $1 == to + 1 && $3 == drive) {
        to = $1
    } else {
        put()
        from = to = $1
        drive = $3
        count++
    }
}

{ last = $0 }

END {
    put()
    print last
    exit last ~ /^TOTAL/ && verdict(last) != 3 ? 0 : 3
}

function put() {
    if (count)
        print from, to, drive
}

# Passes on the lines of a report: by `lines` all of them, those that are not CLEAN (faults), or none; each at once where `live` is set.
# Ends with 0 where all is clean, 5 where faults were found, 4 where the image is refused, 3 where the report has no last line: numbers that no mishap
# of a shell or of awk gives, but for the first.
lines == "all" || lines == "faults" && !/^[0-9]+ CLEAN$/ {
    print
    if (live)
        fflush()
}

explain { hear() }

{ last = $0 }

END {
    if (failed)
        exit 3
    if (explain)
        tell()
    exit verdict(last)
}

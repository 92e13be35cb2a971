# Passes on the list of a repair; what is no line of a list goes to standard error, or with `all` the same way.
# Ends with 0 where nothing is listed, 5 where stripes are, 4 where the image is refused, 3 where there was more to say than a list says.
/^[0-9]+ (LOST|TORN [0-9]+|UNCHECKED [0-9]+ [0-9]+)$/ && !refused {
    listed = 1
    print
    next
}

/^REFUSED [0-9]+$/ && !refused {
    refused = 1
    print
    next
}

{
    strange = 1
    if (all)
        print
    else
        print > "/dev/stderr"
}

END { exit strange ? 3 : refused ? 4 : listed ? 5 : 0 }

# What the last line of a report says: 0 all clean, 5 faults, 4 refused, 3 that it is no last line. The four counts are asked to add up, so that a line that
# was cut in the middle is none.
function verdict(line, field) {
    if (line ~ /^REFUSED [0-9]+$/)
        return 4
    if (line !~ /^TOTAL [0-9]+ clean [0-9]+ bad [0-9]+ unchecked [0-9]+ torn [0-9]+$/)
        return 3
    split(line, field, " ")
    if (field[2] != field[4] + field[6] + field[8] + field[10])
        return 3
    return field[2] == field[4] ? 0 : 5
}

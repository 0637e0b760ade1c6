# From lines `WHOSE ROW INSTRUCTIONS`, and from lines `WHOSE ROW NANOSECONDS` of the second file, to bench/run's table of
# the recordings that are written.

FILENAME == ARGV[1] { counted[$1, $2] = $3; next }
{ took[$1, $2] = $3 }

# The call and its return are 2, and the function that only returns has them too.
function a_call(whose, row) {
    return sprintf("%.1f", (counted[whose, row] - counted["nothing", row]) / writings[row] + 2)
}

function nanoseconds(whose, row) {
    return (whose, row) in took ? sprintf("%.1f", took[whose, row]) : "-"
}

function line(title, row) {
    printf "%-32s%10s%10s%14s%10s\n", title, a_call("hoofglaze", row), a_call("c", row), \
        nanoseconds("hoofglaze", row), nanoseconds("c", row)
}

END {
    writings["empty"] = writings["kilobyte"] = writings["head"] = 4096
    writings["megabyte"] = 16
    printf "\n%-32s%20s%24s\n", "a recording that is written", "instructions", "nanoseconds"
    printf "%-32s%10s%10s%14s%10s\n", "", "library", "in C", "library", "in C"
    line("no sample", "empty")
    line("1,024 bytes of samples", "kilobyte")
    line("1,048,576 bytes of samples", "megabyte")
    line("the head alone", "head")
}

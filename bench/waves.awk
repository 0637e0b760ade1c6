# From lines `WHOSE ROW INSTRUCTIONS` to bench/run's table of the recordings.

{ counted[$1, $2] = $3 }

# The call, its return and the answer's place are 3, and the function that only returns has them too.
function a_call(whose, row) {
    return sprintf("%.1f", (counted[whose, row] - counted["nothing", row]) / readings + 3)
}

function line(title, row) {
    printf "%-32s%10s%10s\n", title, a_call("hoofglaze", row), a_call("c", row)
}

END {
    readings = 4096
    printf "\n%-32s%10s%10s\n", "instructions a recording read", "library", "in C"
    line("a head of 44 bytes", "plain")
    line("100 chunks more, skipped", "chunks")
}

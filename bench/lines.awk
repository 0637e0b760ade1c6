# From lines `CRATE SECONDS`, then lines `CRATE CODE DEFINITIONS PROOFS FUNCTIONS EDITS`, to bench/run's table of the
# crates.

NF == 2 { seconds[$1] = $2; measured = 1; next }

function line(name, code, definitions, proofs, functions, edits, time) {
    printf "%-30s%6s%13s%9s%11s%17s%9s\n", name, code, definitions, proofs, functions, edits, time
}

NF == 6 {
    if (!all[0]++)
        line("lines", "code", "definitions", "proofs", "functions", "must-fail edits", "seconds")
    line($1, $2, $3, $4, $5, $6, measured ? seconds[$1] : "-")
    for (i = 2; i <= 6; i++)
        all[i] += $i
    time += seconds[$1]
}

END {
    line("all", all[2], all[3], all[4], all[5], all[6], measured ? sprintf("%.1f", time) : "-")
    if (!measured)
        print "seconds to prove each crate: bench/run seconds, which takes long"
}

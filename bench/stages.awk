# From lines `WHOSE ROW INSTRUCTIONS`, and from lines `WHOSE ROW NANOSECONDS` of the second file, to bench/run's
# tables of the stages. The variable compiler names the machine's.

FILENAME == ARGV[1] { counted[$1, $2] = $3; next }
{ took[$1, $2] = $3 }

# A step's call, its return and the answer's place are 3, and the function that only returns has them too.
function instructions(whose, row, more) {
    if (!((whose, row) in counted))
        return "-"
    return sprintf("%.1f", (counted[whose, row] - counted["nothing", row]) / samples + more)
}

function nanoseconds(whose, row) {
    return (whose, row) in took ? sprintf("%.1f", took[whose, row]) : "-"
}

function a_sample(whose, row, more) {
    return unit == "nanoseconds" ? nanoseconds(whose, row) : instructions(whose, row, more)
}

function in_c(by, row, more) {
    return sprintf("%14s%9s%10s", a_sample(by "soft", row, more), a_sample(by "musl", row, more), \
        a_sample(by "hardware", row, more))
}

function line(title, row, more, aim) {
    printf "%-27s%9s%s%s%7s\n", title, a_sample("hoofglaze", row, more), in_c("", row, more), \
        in_c("kit-", row, more), unit == "nanoseconds" ? "" : aim
}

function table() {
    heads = sprintf("%14s%9s%10s", "rendered", "musl's", "hardware")
    printf "%-27s%9s%33s%33s\n", unit " a sample", "", "in C by " compiler ", the fma", \
        "by the kit's clang, the fma"
    printf "%-27s%9s%s%s%7s\n", "", "library", heads, heads, unit == "nanoseconds" ? "" : "aim"
    line("follower, a call", "follower", 3)
    line("DC blocker, a call", "blocker", 3)
    line("gate", "gate")
    line("gate, closing on silence", "gate-silence")
    line("gate, silent for long", "gate-faint")
    line("gate, with a record", "gate-record")
    line("clipper, hard", "hard")
    line("clipper, triode", "triode")
    line("equaliser, 16 bands set", "eq", 0, 5920)
    line("equaliser, none set", "eq-flat")
    line("tone stack", "tone")
    line("saturator", "saturator")
    line("leveller, ratio 1", "leveller-1")
    line("leveller, ratio 2, loud", "leveller-2")
    line("leveller, ratio 4, loud", "leveller-4")
    line("leveller, ratio 4, soft", "leveller-soft")
    line("leveller, ratio 4, silence", "leveller-silence")
}

END {
    samples = 4 * 4096
    unit = "instructions"
    table()
    if (!(("soft", "gate") in counted))
        print "no " compiler ": this machine has none that makes x86-64 programs"
    if (!(("kit-hardware", "gate") in counted))
        print "no hardware fma: the counter offers the program no such instruction here"
    print ""
    unit = "nanoseconds"
    table()
}

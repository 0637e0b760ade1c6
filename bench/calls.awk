# From lines `WHOSE FUNCTION OPERANDS INSTRUCTIONS`, and from lines `WHOSE FUNCTION OPERANDS NANOSECONDS` of the
# second file, to bench/run's tables of the float functions.

FILENAME == ARGV[1] { counted[$1, $2, $3] = $4; next }
{ took[$1, $2, $3] = $4 }

# The call and the return are 2, and the function that only returns has them too.
function instructions(whose, f, operands) {
    if (!((whose, f, operands) in counted))
        return "-"
    return sprintf("%.1f", (counted[whose, f, operands] - counted["nothing", f, operands]) / calls + 2)
}

function nanoseconds(whose, f, operands) {
    return (whose, f, operands) in took ? sprintf("%.1f", took[whose, f, operands]) : "-"
}

function a_call(whose, f, operands) {
    return unit == "nanoseconds" ? nanoseconds(whose, f, operands) : instructions(whose, f, operands)
}

# An aim is one of instructions.
function aimed(aim) {
    return unit == "nanoseconds" ? "" : aim
}

function fused(f, operands, aim) {
    return sprintf("%9s%8s%10s%8s%5s", a_call("hoofglaze", f, operands), a_call("rendering", f, operands), \
        a_call("libm", f, operands), a_call("musl", f, operands), aimed(aim))
}

function row(title, operands, aim32, aim64) {
    printf "%-28s%s  %s\n", title, fused("fma32", operands, aim32), fused("fma64", operands, aim64)
}

function alone(f) {
    printf "%-28s%9s%8s\n", f, a_call("hoofglaze", f, "random"), a_call("rendering", f, "random")
}

function root(title, operands) {
    printf "%-28s%9s%8s%10s\n", title, a_call("hoofglaze", "root32", operands), \
        a_call("rendering", "root32", operands), a_call("libm", "root32", operands)
}

function tables() {
    heads = sprintf("%9s%8s%10s%8s%5s", "library", "in C", "soft libm", "musl", aimed("aim"))
    printf "%-28s%9s%33s%9s\n", unit " a call", "fma32", "", "fma64"
    printf "%-28s%s  %s\n", "", heads, heads
    row("from 2^-4 to 2^4", "random", 29, 106)
    row("from 2^-16 to 2^16", "spread", "", "")
    row("c = +0", "c-zero", 40, 40)
    row("c = +0, subnormal result", "c-zero-subnormal", "", "")
    row("a = +0", "a-zero", 40, 40)
    row("all three +0", "zeros", 40, 40)
    row("a = +0, c subnormal", "zero-subnormal", "", "")
    row("one subnormal", "subnormal", "", "")
    row("a subnormal result", "subnormal-result", "", "")
    row("result 2^127 (2^1023) and up", "top-result", "", "")
    row("halfway, exact", "halfway", "", "")
    row("halfway, digits lost", "halfway-lost", "", "")
    row("exponents far apart", "far", "", "")
    row("c an infinity", "c-infinity", "", "")
    row("one NaN", "nan", "", "")
    printf "\n%-28s%9s%8s%10s\n", unit ", root32", "library", "in C", "libm"
    root("from 2^-4 to 2^4", "random")
    root("from 2^-16 to 2^16", "spread")
    root("subnormal", "subnormal")
    printf "\n%-28s%9s%8s\n", unit ", 2^-4 to 2^4", "library", "in C"
    alone("size32")
    alone("size64")
    alone("truncated")
    alone("narrowed")
    print ""
}

END {
    calls = 8 * 4096
    unit = "instructions"
    tables()
    unit = "nanoseconds"
    tables()
}

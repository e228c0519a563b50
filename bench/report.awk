# The table of bench/run, from the lines of bench/measure.c and two lines of bench/run: times in nanoseconds. Of lines
# with the same section and label the least times count.
function part(x, of) { return x == 0 ? "" : sprintf(x / of < 100 ? "%.3f" : "%.0f", x / of) }
function ratio(x, of) { return x == 0 ? "" : sprintf(x / of < 10 ? "%.3f" : "%.0f", x / of) }
function whole(label, twin, library, other) {
    printf "%-36s %9s %9s %9s %9s %9s\n", label, part(twin, 1e6), part(library, 1e6), part(other, 1e6),
        ratio(library, twin), ratio(other, twin)
}
function two(label, a, b, ab, c, d, cd) {
    printf "%-30s %9s %9s %8s  %9s %9s %8s\n", label, part(a, ab), part(b, ab), ratio(b, a), part(c, cd), part(d, cd),
        ratio(d, c)
}
function head(left, first, second) {
    printf "\n%-30s %-28s  %s\n", "", first, second
    printf "%-30s %9s %9s %8s  %9s %9s %8s\n", left, "C twin", "library", "ratio", "C twin", "library", "ratio"
}
function heading(section) {
    if (section == "call") head("one row or one push", "by tree, microseconds", "by lists, microseconds")
    if (section == "growing") head("alternatives joined by |", "matching, milliseconds", "rewriting, microseconds")
    if (section == "rows") head("rows", "reading, nanoseconds a row", "matching, nanoseconds a row")
    if (section != "whole") return
    printf "%-36s %-29s %s\n", "", "milliseconds", "times the C twin"
    printf "%-36s %9s %9s %9s %9s %9s\n", "65,535 rows of 32 pins", "C twin", "library", "by hand", "library",
        "by hand"
}
function target(text, value, most) {
    printf "  %-58s %s, %s\n", text, value <= most ? "met" : "NOT met", ratio(value, 1)
}
function grown(what, small, large) {
    printf "  %-58s %s, %+.1f %%\n", what " a row, 65,535 rows within 10 % of 8,000",
        large <= 1.1 * small && small <= 1.1 * large ? "met" : "NOT met", 100 * (large / small - 1)
}
$1 == "awk" { awk = $2; next }
$1 == "program" { by_program[0] = $2; by_program[1] = $3; next }
$1 != "counts" {
    key = $1 "\t" $2
    if (!(key in seen)) { seen[key]; order[++n] = key }
    for (i = 3; i <= 6; i++) if (!((key, i) in least) || $i + 0 < least[key, i]) least[key, i] = $i + 0
}
END {
    for (k = 1; k <= n; k++) {
        split(order[k], name, "\t")
        a = least[order[k], 3]; b = least[order[k], 4]; c = least[order[k], 5]; d = least[order[k], 6]
        if (name[1] == "beyond") { whole(name[2], a, b, c); continue }
        if (name[1] != section && section == "whole") {
            whole("01 A -> 10 B & C, read too; awk", read_a + first_a, read_b + first_b, awk)
            if (by_program[0]) whole("60 patterns, dachsmond table", by_program[0], by_program[1], 0)
        }
        if (name[1] != section) heading(name[1])
        section = name[1]
        if (section == "whole") {
            whole(name[2], a, b, c)
            if (name[2] == "reading") { read_a = a; read_b = b; continue }
            if (!patterns++) { first_a = a; first_b = b }
            if (b / a > 0.12) over = over "\n    " ratio(b, a) "  " name[2]
            else under++
        } else if (section == "call") {
            two(name[2], a, b, 1e3, c, d, 1e3)
            if (name[2] ~ /^one row/ && b / d > tree) tree = b / d
        } else if (section == "growing") {
            two(name[2], a, b, 1e6, c, d, 1e3)
            if (d / c > rewriting) rewriting = d / c
        } else {
            two(name[2], a, b, name[2], c, d, name[2])
            reading[name[2]] = b / name[2]; matching[name[2]] = d / name[2]
        }
    }
    print "\ntargets"
    target("reading at most 0.6 times the twin", read_b / read_a, 0.6)
    grown("reading", reading[8000], reading[65535])
    grown("matching", matching[8000], matching[65535])
    target("rewriting at most 3 times the twin", rewriting, 3)
    target("the library's row by tree at most 20 times by lists", tree, 20)
    printf "  %-58s met by %d of %d patterns%s\n", "matching at most 0.12 times the twin", under, patterns,
        over ? "; over it:" over : ""
}

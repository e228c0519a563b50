# Reckons how much stack each function of the library can take, from its object code.
#   awk -v limit=BYTES -v frame=BYTES -v other=BYTES -v deepest=NAME -v tabled='NAME..' -v with_table=BYTES \
#       -f stack.awk TABLE MEASURED CODE
# TABLE    lines `COUNT NAME|NAME..`: of the calls of these functions at most COUNT are open at once; so they are taken
#          for a circle, whether they call one another in one or not
# MEASURED lines `NAME BYTES`: the functions asked for, and what was measured
# CODE     what `objdump -dr --no-show-raw-insn` prints
# A frame is the return address, the registers saved, the room taken, and the most that is pushed for one call.
# Functions that call one another in a circle take the table's counts times their frames; over the others the dearest
# way down is summed. It prints a line for each function asked for: what was measured, and what is reckoned. Status 1: a
# frame in a circle is over `frame`, a function in a circle is not in the table, a sum is over `limit`, or more was
# measured than is reckoned, of which 2,048 bytes may be the caller's: a queue and what a push gives, both by value, take
# over 1,400 of them.
function hex(x,  i, v) {
    for (i = 3; i <= length(x); i++) v = 16 * v + index("0123456789abcdef", substr(x, i, 1)) - 1
    return v
}
function wrong(text) { print "stack: " text; bad = 1 }
function over() { if (f != "") size[f] = 8 + 8 * saved + room + pushed }
function calls_to(t) {
    sub(/^\.text\./, "", t)
    if (t !~ /^\./ && !((f, t) in reach)) { reach[f, t] = 1; callee[f, ++many[f]] = t }
}

FNR == 1 { part++ }
part == 1 && NF { count[++rows] = $1; members[rows] = $2; next }
part == 2 { asked[++questions] = $1; measured[$1] = $2; next }
part < 3 { next }

/^[0-9a-f]+ <.*>:$/ {
    over()
    f = $2
    gsub(/^<|>:$/, "", f)
    function_[++functions] = f
    saved = room = pushed = run = inside = probes = 0
    next
}
$2 == "push" && !inside { saved++ }
$2 == "push" && inside { run += 8; if (pushed < run) pushed = run }
$2 == "call" { inside = 1; run = 0; t = $4; gsub(/[<>]/, "", t); if (t != "" && t !~ /\+0x/) calls_to(t) }
# room over a page is taken page by page, and in a loop down to %r11 where there are many pages; behind that %r11 is
# for other things
$2 == "lea" && $3 ~ /^-0x[0-9a-f]+\(%rsp\),%r11$/ { t = $3; gsub(/^-|\(.*/, "", t); room += hex(t); probes = 1 }
$2 == "sub" && !inside && $3 ~ /^\$0x[0-9a-f]+,%r11$/ { t = $3; gsub(/^\$|,.*/, "", t); room += hex(t); probes = 1 }
$2 == "sub" && $3 ~ /^\$0x[0-9a-f]+,%rsp$/ {
    inside = 1
    t = $3
    gsub(/^\$|,.*/, "", t)
    if (!probes) room += hex(t)
    probes = 0
}
$2 == "and" && $3 ~ /^\$.*,%rsp$/ { room += 64 }
$2 ~ /^R_X86_64_/ { t = $3; sub(/[-+]0x[0-9a-f]+$/, "", t); calls_to(t) }

# the dearest way down from a function; a leaf may use 128 bytes below its frame
function down(g,  i, j, most, x, own) {
    if (g in known) return known[g]
    if (!(g in size)) return known[g] = 256
    most = 128
    if (!((g, g) in reach)) own = size[g]
    for (j = 1; j <= functions; j++) {
        if (!(function_[j] == g || ((g, function_[j]) in reach && (function_[j], g) in reach))) continue
        for (i = 1; i <= many[function_[j]]; i++) {
            x = callee[function_[j], i]
            if (x == g || ((g, x) in reach && (x, g) in reach)) continue
            x = down(x)
            if (most < x) most = x
        }
    }
    if (own == "") own = circle(g)
    return known[g] = own + most
}
# the frames of the circle that a function is in, by the table
function circle(g,  i, j, m, part_, sum, most) {
    for (i = 1; i <= rows; i++) {
        m = split(members[i], part_, "|")
        most = 0
        for (j = 1; j <= m; j++)
            if (part_[j] in size && (part_[j] == g || ((g, part_[j]) in reach && (part_[j], g) in reach)))
                if (most < size[part_[j]]) most = size[part_[j]]
        sum += count[i] * most
    }
    return sum
}
END {
    over()
    for (i = 1; i <= rows; i++) { m = split(members[i], p, "|"); for (j = 1; j <= m; j++) listed[p[j]] = 1 }
    for (l = 1; l <= rows; l++) {
        m = split(members[l], p, "|")
        for (i = 1; i <= m; i++)
            for (j = 1; j <= m; j++)
                if (i != j && p[i] in size && p[j] in size) reach[p[i], p[j]] = 1
    }
    for (l = 1; l <= functions; l++)
        for (i = 1; i <= functions; i++)
            if ((function_[i], function_[l]) in reach)
                for (j = 1; j <= functions; j++)
                    if ((function_[l], function_[j]) in reach) reach[function_[i], function_[j]] = 1
    for (i = 1; i <= functions; i++) {
        f = function_[i]
        if (!((f, f) in reach)) continue
        printf "%-36s %9d bytes a call\n", f, size[f]
        if (!(f in listed)) wrong(f " calls itself, and tests/stack does not say how often")
        if (size[f] > frame) wrong(f " calls itself, and takes over " frame " bytes for each call")
    }
    printf "%-36s %9s %9s\n", "", "measured", "reckoned"
    for (i = 1; i <= questions; i++) {
        f = asked[i]
        printf "%-36s %9d %9d\n", f, measured[f], down(f)
        if (!(f in size)) wrong(f " is not in the object code")
        if (down(f) > limit) wrong(f " can take over " limit " bytes")
        if (measured[f] > limit) wrong(f " took over " limit " bytes")
        most = index(" " tabled " ", " " f " ") ? with_table : other
        if (measured[f] > most && f != deepest) wrong(f " took over " most " bytes")
        if (measured[f] > down(f) + 2048) wrong(f " took more than is reckoned")
    }
    exit bad
}

# What is done today: the rows as text, and a few lines of awk for the one pattern. Input: a row to a line, each byte
# of its record a number (2 of the mark, 4 of the time, then the states of A, B, C, ..). Checks nothing.
BEGIN {
    split("2 0 1 0 2 1 1 1", zero); split("0 2 1 2 0 1 1 1", one)
}
function lesser(x, y) { return x < y ? x : y }
$1 == 82 && NF > 6 {
    a = $7 + 1; b = $8 + 1; c = $9 + 1
    if (n == 1) count[0]++
    if (n > 1) {
        rise = lesser(zero[a2], one[a1]); fall = lesser(one[b1], zero[b]); held = lesser(one[c1], one[c])
        count[lesser(rise, lesser(fall, held))]++
    }
    a2 = a1; a1 = a; b1 = b; c1 = c; n++
}
END { print count[2] + 0, count[0] + 0, count[1] + 0 }

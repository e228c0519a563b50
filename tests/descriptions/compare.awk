# compare.awk SIMULATED OUTPUTS: two traces as `show` prints them. An output is compared with the pin of the same name
# in small letters, without what follows a `_`. From the first row on where an output is not U they are the same. How
# many outputs and rows there are is printed, or what differs.
FNR == 1 {
    files++
    for (i = 2; i <= NF && $i != "changed"; i++)
        if (files == 1) column[$i] = i
        else {
            pin = tolower($i)
            sub(/_.*/, "", pin)
            output[i] = $i
            beside[i] = column[pin]
        }
    next
}
files == 1 {
    for (i = 1; i <= NF; i++) state[FNR, i] = $i
    next
}
{
    if ($1 != state[FNR, 1]) wrong = "times"
    for (i in output) {
        if ($i != "U") assigned[i] = 1
        if (!assigned[i]) continue
        known[i] += $i != "X"
        if (!beside[i] || $i != state[FNR, beside[i]])
            wrong = output[i] " at " $1 ": " $i ", and the simulator " state[FNR, beside[i]]
    }
    rows = FNR - 1
}
END {
    for (i in output) {
        outputs++
        if (known[i] < rows / 2) wrong = output[i] ": few states are known"
    }
    if (wrong) print wrong
    else print outputs, rows
}

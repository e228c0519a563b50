# cases.awk -v to=FOLDER/ cases: each case in files of its own, and its number printed. N.description is the text and
# N.options its option. N.trace and N.outputs have the bytes of two trace files, row i at time i, in octal for printf.
BEGIN {
    RS = ""
    FS = "\n"
    for (i = 0; i < 8; i++) code[substr("01XHLWZU", i + 1, 1)] = i
}

function byte(b) {
    return sprintf("\\%03o", b)
}

# A number of four bytes, low first.
function number(n) {
    return byte(n % 256) byte(int(n / 256)) byte(0) byte(0)
}

# WORDS: names and their states, in turn.
function trace(words, made, k, word, i, r, rows) {
    k = split(words, word, " ")
    for (i = 1; i < k; i += 2) made = made "NM" byte(length(word[i])) word[i]
    rows = length(word[2])
    for (r = 0; r < rows; r++) {
        made = made "RW" number(r)
        for (i = 2; i <= k; i += 2) made = made byte(code[substr(word[i], r + 1, 1)])
    }
    return made "EN" number(rows)
}

{
    text = options = outputs = ""
    for (l = 1; l <= NF; l++) {
        if ($l ~ /^#/) continue
        if ($l ~ /^--/) options = $l
        else if ($l ~ /^on /) inputs = substr($l, 4)
        else if ($l ~ /^gives /) outputs = substr($l, 7)
        else text = text $l "\n"
    }
    if (outputs == "") next
    n++
    printf "%s", text >(to n ".description")
    print options >(to n ".options")
    print trace(inputs) >(to n ".trace")
    print trace(outputs) >(to n ".outputs")
    print n
}

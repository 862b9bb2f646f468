# Prints each byte string of Rust in these files as a line: the file and the line that it begins in, and its bytes in hex.

function value(digit) { return index("0123456789abcdef", tolower(digit)) - 1 }

# The bytes that the text of a byte string stands for.
function bytes_of(text, hex, at, char, next_char) {
    for (at = 1; at <= length(text); at++) {
        char = substr(text, at, 1)
        if (char != "\\") {
            hex = hex sprintf("%02x", code[char])
            continue
        }
        next_char = substr(text, ++at, 1)
        if (next_char == "x") {
            hex = hex sprintf("%02x", 16 * value(substr(text, at + 1, 1)) + value(substr(text, at + 2, 1)))
            at += 2
        } else {
            hex = hex escaped[next_char]
        }
    }
    return hex
}

BEGIN {
    for (number = 32; number < 127; number++) code[sprintf("%c", number)] = number
    escaped["0"] = "00"; escaped["n"] = "0a"; escaped["r"] = "0d"; escaped["t"] = "09"
    escaped["\\"] = "5c"; escaped["\""] = "22"; escaped["'"] = "27"
}

FNR == 1 { name = FILENAME; sub(/.*\//, "", name) }
/^ *\/\// { next }
# A string that goes on in the next line ends in a backslash here.
whole != "" { sub(/^ */, "") }
whole == "" { begun = FNR }
{ whole = whole $0 }
/\\$/ { sub(/\\$/, "", whole); next }
{
    while (match(whole, /b"([^"\\]|\\.)*"/)) {
        print name ":" begun " " bytes_of(substr(whole, RSTART + 2, RLENGTH - 3))
        whole = substr(whole, RSTART + RLENGTH)
    }
    whole = ""
}

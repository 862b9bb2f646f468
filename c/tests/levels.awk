# Prints documents of 40, 500 and 501 levels, each but the innermost holding the next under the empty key: a name and hex digits a line.
BEGIN {
    split("40 500 501", counts)
    for (each = 1; each in counts; each++) {
        printf "levels:%d ", counts[each]
        for (inside = counts[each] - 1; inside >= 0; inside--) {
            size = 5 + 7 * inside
            printf "%02x%02x0000%s", size % 256, int(size / 256), inside ? "0300" : "00"
        }
        for (inside = 1; inside < counts[each]; inside++) printf "00"
        print ""
    }
}

# Prints the functions for daily use that are given memory with its length, of a header, one a line.
/---- daily use/ { daily = 1 }
daily && /^[A-Za-z].*[ *]bsonraw_[a-z0-9_]*\(/ {
    name = $0
    sub(/\(.*/, "", name)
    sub(/.*[ *]/, "", name)
    text = ""
}
name != "" { text = text $0 }
name != "" && /;$/ {
    gsub(/\(\*[a-z_]*\)\([^)]*\)|, +size_t max_[a-z]+/, "", text)
    if (text ~ /\*[A-Z_ ]*[a-z_]+, +size_t [a-z_]+[,)]/) print name
    name = ""
}

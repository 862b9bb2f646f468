# Prints the inline functions of a header, one a line; where `other` names a file, those in which it differs, and - for other lines.
{ match($0, /[^ ]/) }
name == "" && (/^BSONRAW_(USE BSONRAW_)?(INLINE|LOCAL) / ||
               (FILENAME ~ /hpp$/ && /^ *[a-zA-Z~].*\).*\{/ && !/^ *(if|for|else|return|static_assert)/)) {
    name = FNR ": " $0
    column = RSTART
    if (other == "") print name
}
other != "" { getline line <other; if (line != $0) print name == "" ? "-" : name }
RSTART == column && /\}( \/\/.*)?$/ { name = "" }

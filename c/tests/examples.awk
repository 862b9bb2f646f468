# Prints each example of the header in the file as a function, and a program that calls them with the document on standard input. Those with
# the text `cast` are empty.
function close_function() {
    if (cast != "" && text ~ cast) text = ""
    print "{\n(void)bytes, (void)len;\n" text "}"
    text = ""
    inside = 0
}

BEGIN { print "#include <bsonraw.h>\n#include <stdio.h>\n#include <stdlib.h>" }
/^ \*     / && (is_behind || inside) {
    if (!inside) {
        head = "void example_" ++count "(const uint8_t *bytes, size_t len)"
        print head ";\n" head
    }
    inside = 1
    text = text substr($0, 8) "\n"
    next
}
inside { close_function() }
{ is_behind = /^ \*$/ }
END {
    print "int main(void) {\nstatic uint8_t bytes[4096];\nsize_t len = fread(bytes, 1, sizeof bytes, stdin);"
    for (n = 1; n <= count; n++) print "printf(\"" n ": \");\nexample_" n "(bytes, len);\nputchar(10);"
    print "return 0;\n}"
}

# What texts say of tests, where none of what is packed was run: bin/package --untested
s/^ \* those of that part, are tested\./ * those of that part, have no contract, and no test of them was run./
s/, and tested, not proved; elements/, of which nothing is proved, and no test was run; elements/
s/Tested, not proved, over the functions/Nothing of it is proved, and no test was run; it is over the functions/
s/^The others are tested\./Of the others nothing is proved, and no test was run./
s/The library below is proved; this package is tested\./The library below is proved; no test of this package was run./
s/, and what was proved of it;/, what was proved of it, and that no test was run;/
s/^ \* Proved, but \(bsonraw_[a-z_]*\), which is tested\./ * Proved, but \1, of which no test was run./
s/^ \* Tested\./ * Nothing of it is proved, and no test was run./
s/^ \* bsonraw_iter_value, bsonraw_value_at and bsonraw_overwrite are proved; the others, which call the first, are tested\./ * bsonraw_iter_value, bsonraw_value_at and bsonraw_overwrite are proved; the others call the first, and no test of them was run./
s/ and _cancel are proved; the others, which call these for a kind$/ and _cancel are proved; the others call these for a kind/
s/^ \* each, are tested\./ * each, and no test of them was run./
s/ a text is refused, which is tested -/ a text is refused, of which no test was run -/

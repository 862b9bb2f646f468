# What texts say of proofs and tests, where no proof of what is packed was seen: bin/package --unproved
s/by proved functions/by functions whose proof was not seen/
s/over a proved library/over a library whose proof was not seen/
s/are proved against the contracts of the crate bsonraw_c, which say/have contracts in the crate bsonraw_c, whose proof was not seen; they say/
s/^ \* those of that part, are tested\./ * those of that part, have none./
s/, and tested, not proved; elements/; elements/
s/Tested, not proved, over the functions/It is over the functions/
s/^that the header declares without a body are proved\./that the header declares without a body have contracts, whose proof was not seen./
s/^The others are tested\./The others have none./
s/ends at a proved function/ends at a function that has a contract/
s/it is proved that they are UTF-8 then/they should be UTF-8 then, but no proof of that was seen/
s/over a library whose calls are proved to return/over a library, whose proof was not seen, whose calls have to return/
s/The library below is proved; this package is tested\./No proof of the library below was seen./
s/, and what was proved of it;/, and that no proof of it was seen;/
s/PROMISES.md says what is proved and what is trusted\./PROMISES.md says what would be proved./
s/^ \* Proved, but \(bsonraw_[a-z_]*\), which is tested\./ * All but \1 have contracts, whose proof was not seen./
s/^ \* Proved\./ * It has a contract, whose proof was not seen./
s/^ \* Tested\./ * It has no contract./
s/^ \* bsonraw_iter_value, bsonraw_value_at and bsonraw_overwrite are proved; the others, which call the first, are tested\./ * bsonraw_iter_value, bsonraw_value_at and bsonraw_overwrite have contracts, whose proof was not seen; the others call the first./
s/ Each is one call that is proved,$/ Each is one call whose proof was not seen,/
s/ Each is bsonraw_overwrite, which is proved\. \*\/$/ Each is bsonraw_overwrite, whose proof was not seen. *\//
s/ and _cancel are proved; the others, which call these for a kind$/ and _cancel have contracts, whose proof was not seen; the others call these for a kind/
s/^ \* each, are tested\./ * each./
s/ one after the other: proved -/ one after the other -/
s/ from text: proved, but where and why a text is refused, which is tested -/ from text -/
s/^ \* What a call puts there is put by calls of a builder that are proved: bsonraw_append/ * What a call puts there is put by calls of a builder, whose proof was not seen: bsonraw_append/

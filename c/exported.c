/* The inline functions of bsonraw.h as functions that the library exports, for languages that see no bodies. */
#define BSONRAW_INLINE
#include "bsonraw.h"

/* What bsonraw_layout_2 stands for: with a struct of another size it needs another name. */
#define BSONRAW_HAS_SIZE(name, size) _Static_assert(sizeof(struct bsonraw_##name) == (size), #name " has another size")
BSONRAW_HAS_SIZE(error, 32);
BSONRAW_HAS_SIZE(iter, 64);
BSONRAW_HAS_SIZE(entry, 20);
BSONRAW_HAS_SIZE(value, 80);
BSONRAW_HAS_SIZE(builder, 20);
BSONRAW_HAS_SIZE(reader, 56);
BSONRAW_HAS_SIZE(resync, 24);
BSONRAW_HAS_SIZE(json_report, 40);
BSONRAW_HAS_SIZE(report, 72);
BSONRAW_HAS_SIZE(token, 28);

/* What help() says of the calls. */

PyDoc_STRVAR(decode_doc,
"decode($module, data, codec_options=None, *, type=None, pairs=False, types=None, tz_aware=None, uuid=False, object_hook=None, object_pairs_hook=None, "
"max_bytes=16777216, max_depth=500)\n--\n\n"
"The document as a dict, in the order of the bytes.\n"
"\n"
"Of a repeated key the dict has the last value, in the first place. With\n"
"pairs=True documents come as Pairs, a list of tuples of key and value,\n"
"which has all of them. With uuid=True a binary of subtype 4 is a UUID, and\n"
"with tz_aware=False a datetime has no zone and is in UTC. With types=\"bson\"\n"
"values are of the classes that MongoDB's package gives, and a datetime has\n"
"no zone unless tz_aware is True.\n"
"\n"
"A call for object_hook, given the dict of a document that is read, makes\n"
"what comes in its place, the innermost first; one for object_pairs_hook is\n"
"given the Pairs. Neither is called for a document that is refused.\n"
"\n"
"With type=Person an object of that class comes, for a dataclass, a TypedDict,\n"
"or a class of attrs or pydantic, with those in its fields. Keys that have no\n"
"field are passed over. What doesn't fit raises MismatchError, with the path.\n"
"\n"
"codec_options, of MongoDB's decode, raises TypeError unless it is None.\n"
"\n"
"Raises BsonError for the first fault at any level, depth first, and where\n"
"the document has more bytes or levels than allowed.");

PyDoc_STRVAR(encode_doc, "encode($module, document, check_keys=False, codec_options=None, *, default=None, max_bytes=None, max_depth=500)\n--\n\n"
"The bytes of a document: of a mapping, or of Pairs.\n"
"\n"
"An int is written as int32 where it fits, else as int64; an Int64 always as\n"
"int64. A datetime without a zone is taken for UTC. Classes of MongoDB's\n"
"package, numbers of numpy, uuid.UUID and patterns of re are taken, too. A\n"
"call for default, such as a Codec, makes a value that can be written of one\n"
"that can't. MongoDB's check_keys and codec_options raise TypeError unless they\n"
"are False and None.\n"
"\n"
"Raises TypeError for a value of another class, OverflowError for an int of\n"
"over 64 bits, BsonError for a 0 in a key and for more bytes or levels than\n"
"allowed (also where a value holds itself); each says the place.");

PyDoc_STRVAR(elements_doc, "elements($module, data)\n--\n\n"
"The elements of a document, one by one.\n"
"\n"
"What is nested counts as one, and no value is checked.\n"
"\n"
"Raises BsonError where the elements stop before the document's end; the\n"
"elements before that have come.");

PyDoc_STRVAR(walk_doc, "walk($module, data, *, max_bytes=16777216, max_depth=500)\n--\n\n"
"The elements of all levels, depth first, each with its path.\n"
"\n"
"They come as tuples of path and Element. A path is a tuple of keys, and of\n"
"numbers in arrays; find takes it, and of a repeated key goes to the first.\n"
"Raises BsonError as decode does, before the first one.");

PyDoc_STRVAR(get_doc, "get($module, data, key)\n--\n\n"
"The first element with this key, or None.\n"
"\n"
"Raises BsonError where the elements stop before one has the key. Nothing\n"
"else of the document is checked.");

PyDoc_STRVAR(find_doc, "find($module, data, path)\n--\n\n"
"The element at the end of a path, or None.\n"
"\n"
"A path is \"a.b.3.c\", or [\"a\", \"b\", 3, \"c\"], where a key may have a dot. A\n"
"step is a key, in a document or in the scope of a code, and in an array a\n"
"number from 0. Raises BsonError where the elements of a level stop before\n"
"the step.");

PyDoc_STRVAR(edit_doc, "edit($module, data, changes, *, default=None)\n--\n\n"
"The document with some values changed, and all other bytes as they are.\n"
"\n"
"    >>> import bsonraw\n"
"    >>> data = bsonraw.encode({\"a\": {\"b\": 1}, \"c\": 2})\n"
"    >>> bsonraw.decode(bsonraw.edit(data, {\"a.b\": \"new\", \"c\": bsonraw.REMOVE, \"d\": True}))\n"
"    {'a': {'b': 'new'}, 'd': True}\n"
"\n"
"By each path, as find takes it, changes has the value that is to be there,\n"
"or REMOVE. What isn't there is added after the others, with documents for\n"
"the steps before; in an array it is the number after the last one. Of a\n"
"repeated key the last element is changed, whose value decode gives, and all\n"
"are removed. Levels that no path goes through aren't looked at.\n"
"\n"
"Raises BsonError where the elements of a level stop and for a 0 in a step,\n"
"and ValueError for a path of over 500 steps, for one through a value that has\n"
"no elements or through another one that is changed, for a place that an array\n"
"hasn't, and for a removal from an array.");

PyDoc_STRVAR(canonical_doc, "canonical($module, data, *, max_bytes=16777216, max_depth=500)\n--\n\n"
"The canonical form of a document.\n"
"\n"
"It has each key once, in its first place with its last value; an array's\n"
"keys are 0, 1, 2 .., and a regular expression's options in ascending order.\n"
"\n"
"Two documents are of the same tree exactly where their forms are equal. A\n"
"canonical document is its own form, and comes back itself where it is of\n"
"the class bytes. Raises BsonError as decode does.");

PyDoc_STRVAR(check_doc, "check($module, data, *, max_bytes=16777216, max_depth=500)\n--\n\n"
"None where the document is canonical, else the first Breach.\n"
"\n"
"Raises BsonError where the bytes are no document at all, and where it has\n"
"more bytes or levels than allowed before a breach.");

PyDoc_STRVAR(first_fault_doc, "first_fault($module, data, *, max_bytes=16777216, max_depth=500)\n--\n\n"
"The BsonError that decode would raise, or None.\n"
"\n"
"It is returned, and not raised.");

PyDoc_STRVAR(to_json_doc,
"to_json($module, data, *, style='relaxed', indent=None, max_bytes=16777216, max_depth=500)\n--\n\n"
"The document as MongoDB Extended JSON v2, a str that json.loads reads.\n"
"\n"
"style=\"relaxed\" has numbers and dates as people read them,\n"
"style=\"canonical\" the kind of each value. With an indent each member has a\n"
"line, with this many spaces a level; True is two. Each element is printed as it is: a repeated key\n"
"as often as it is there, an array without its keys. Only quotes,\n"
"backslashes and control characters are escaped.\n"
"\n"
"Raises BsonError as decode does.");

"""Prints the keys, kinds and values of the document in hex on standard input, and whether it is canonical."""
import json
import sys

try:
    import bsonraw
except ImportError as error:
    sys.exit(f"greeting: the package bsonraw isn't there ({error}): see docs/PYTHON.md")

document = bytes.fromhex(sys.stdin.read())
try:
    for element in bsonraw.elements(document):
        print(f"{element.key}: {element.kind.name} {json.dumps(element.value, default=str)}")
    print(bsonraw.check(document) or "canonical", bsonraw.canonical(document).hex())
except bsonraw.BsonError as error:
    sys.exit(f"damaged: {error}")

/* Documents from Extended JSON. */
#include "native.h"

/* What an error says, by its reason. */
static const char *reason_text(const struct bsonraw_json_report *report) {
    static const char *const texts[] = {
        [BSONRAW_JSON_END_OF_TEXT] = "the text ends too early",
        [BSONRAW_JSON_BYTE_ORDER_MARK] = "a byte order mark in front of the text",
        [BSONRAW_JSON_EXPECTED_DOCUMENT] = "expected a document",
        [BSONRAW_JSON_EXPECTED_KEY] = "expected a key in quotes",
        [BSONRAW_JSON_EXPECTED_COLON] = "expected a colon",
        [BSONRAW_JSON_EXPECTED_COMMA] = "expected a comma or the end of the object or array",
        [BSONRAW_JSON_EXPECTED_VALUE] = "expected a value",
        [BSONRAW_JSON_TEXT_BEHIND] = "text after the document",
        [BSONRAW_JSON_BAD_NUMBER] = "not a number of JSON",
        [BSONRAW_JSON_INTEGER_TOO_LARGE] = "an integer of more than 64 bits",
        [BSONRAW_JSON_NUMBER_TOO_LARGE] = "a number beyond the greatest double",
        [BSONRAW_JSON_CONTROL_CHARACTER] = "a control character that is not escaped",
        [BSONRAW_JSON_BAD_ESCAPE] = "not an escape of JSON",
        [BSONRAW_JSON_LONE_SURROGATE] = "half a surrogate pair",
        [BSONRAW_JSON_INTERIOR_NUL] = "U+0000 in a key, a pattern or options",
        [BSONRAW_JSON_INEXACT_DECIMAL] = "a decimal that no Decimal128 is exactly",
        [BSONRAW_JSON_NOT_UTF8] = "not UTF-8",
        [BSONRAW_JSON_UNSOUND] = "the bytes written are not a document",
    };
    static const char *const wrappers[] = {
        [BSONRAW_JSON_OID] = "this is not {\"$oid\": 24 hex digits}",
        [BSONRAW_JSON_NUMBER_INT] = "this is not {\"$numberInt\": a 32-bit integer as a string}",
        [BSONRAW_JSON_NUMBER_LONG] = "this is not {\"$numberLong\": a 64-bit integer as a string}",
        [BSONRAW_JSON_NUMBER_DOUBLE] = "this is not {\"$numberDouble\": a double as a string}",
        [BSONRAW_JSON_NUMBER_DECIMAL] = "this is not {\"$numberDecimal\": a decimal as a string}",
        [BSONRAW_JSON_BINARY] = "this is not {\"$binary\": {\"base64\": a string, \"subType\": hex digits}}",
        [BSONRAW_JSON_UUID] = "this is not {\"$uuid\": hex digits with hyphens}",
        [BSONRAW_JSON_DATE] = "this is not {\"$date\": an ISO 8601 time or {\"$numberLong\": milliseconds}}",
        [BSONRAW_JSON_REGULAR_EXPRESSION] = "this is not {\"$regularExpression\": {\"pattern\": a string, \"options\": a string}}",
        [BSONRAW_JSON_TIMESTAMP] = "this is not {\"$timestamp\": {\"t\": seconds, \"i\": increment}}",
        [BSONRAW_JSON_CODE] = "this is not {\"$code\": a string} or with \"$scope\": a document",
        [BSONRAW_JSON_SCOPE] = "this is not {\"$code\": a string} or with \"$scope\": a document",
        [BSONRAW_JSON_DB_POINTER] = "this is not {\"$dbPointer\": {\"$ref\": a string, \"$id\": an object id}}",
        [BSONRAW_JSON_SYMBOL] = "this is not {\"$symbol\": a string}",
        [BSONRAW_JSON_UNDEFINED] = "this is not {\"$undefined\": true}",
        [BSONRAW_JSON_MIN_KEY] = "this is not {\"$minKey\": 1}",
        [BSONRAW_JSON_MAX_KEY] = "this is not {\"$maxKey\": 1}",
    };
    return report->json_reason == BSONRAW_JSON_MALFORMED ? wrappers[report->wrapper] : texts[report->json_reason];
}

static const char *what_is_wrong(int32_t status, const struct bsonraw_json_report *report) {
    if (status == BSONRAW_TOO_MANY_BYTES) return "more bytes than allowed";
    if (status == BSONRAW_TOO_DEEP) return "deeper than allowed";
    return reason_text(report);
}

/* Reads a text into a room, which is of just the document's size after one that was too small. */
static PyObject *document_of(const struct bytes *text, size_t max_bytes, size_t max_depth) {
    struct bsonraw_json_report report = {0, 0, 0, 0, 0, 0};
    size_t room_len = 2 * text->len + 64;
    int32_t status;
    do {
        uint8_t *room = PyMem_Malloc(room_len);
        PyObject *made = NULL;
        if (room == NULL) return PyErr_NoMemory();
        WITHOUT_LOCK(text, status = bsonraw_from_json(text->at, text->len, max_bytes, max_depth, room, room_len, &report));
        if (status == BSONRAW_OK) made = PyBytes_FromStringAndSize((const char *)room, (Py_ssize_t)report.count);
        PyMem_Free(room);
        if (status == BSONRAW_OK) return made;
        room_len = (size_t)report.count;
    } while (status == BSONRAW_SMALL_BUFFER);
    if (status == BSONRAW_NO_MEMORY) return PyErr_NoMemory();
    return Py_BuildValue("(sK)", what_is_wrong(status, &report), (unsigned long long)report.offset);
}

/* from_json(text, max_bytes, max_depth): the document that bytes of UTF-8 write; or what is wrong, and after how many bytes. */
PyObject *py_from_json(PyObject *module, PyObject *const *args, Py_ssize_t count) {
    struct bytes text;
    size_t max_bytes, max_depth;
    PyObject *made;
    if (count != 3) {
        PyErr_SetString(PyExc_TypeError, "from_json() takes a text, max_bytes and max_depth");
        return NULL;
    }
    if (limit_of(args[1], "max_bytes", &max_bytes) < 0 || limit_of(args[2], "max_depth", &max_depth) < 0) return NULL;
    if (bytes_open(state_of(module), &text, args[0]) < 0) return NULL;
    made = document_of(&text, max_bytes, max_depth);
    bytes_close(&text);
    return made;
}

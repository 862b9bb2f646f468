/* Documents from text: the bytes of texts that libbson or MongoDB's package for Python read as the same, and texts that neither reads or
 * that the specification gives no value; where what is wrong is, and why; and rooms and limits at their edges. */
#include "documents.h"

#include <stdio.h>
#include <string.h>

#define TEXT(text) (const uint8_t *)(text), strlen(text)

/* A text, and its document in hex; NULL where it is no text of one. */
static const struct row {
    const char *text, *hex;
} rows[] = {
    {"{\"a\":{\"b\":1,\"$oid\":\"56e1fc72e0c917e9c4714161\"}}", NULL},
    {"{\"a\":{\"$oid\":\"56e1fc72e0c917e9c4714161\",\"b\":1}}", NULL},
    {"{\"a\":{\"\\u0024oid\":\"56e1fc72e0c917e9c4714161\"}}",
     "1400000007610056E1FC72E0C917E9C471416100"},
    {"{\"a\":{\"$regex\":\"a\",\"$options\":\"b\"}}",
     "2B00000003610023000000022472656765780002000000610002246F7074696F6E73000200000062000000"},
    {"{\"a\":{\"$type\":\"00\",\"$binary\":\"AAAA\"}}", "10000000056100030000000000000000"},
    {"{\"a\":{\"$binary\":\"AQID\",\"$type\":\" 5\"}}", "10000000056100030000000501020300"},
    {"{\"a\":{\"$type\":\"string\",\"b\":1}}", "260000000361001E0000000224747970650007000000737472696E6700106200010000000000"},
    {"{\"a\":{\"$binary\":\"AAAA\",\"$type\":0}}", NULL},
    {"{\"a\":{\"$regex\":{\"$regularExpression\":{\"pattern\":\"a\",\"options\":\"\"}},\"$options\":\"i\"}}",
     "28000000036100200000000B2472656765780061000002246F7074696F6E73000200000069000000"},
    {"{\"a\":{\"$unknown\":1}}",
     "1B000000036100130000001024756E6B6E6F776E00010000000000"},
    {"{\"$ref\":\"c\",\"$id\":1}",
     "1A00000002247265660002000000630010246964000100000000"},
    {"{\"a\":-0}",
     "0C0000001061000000000000"},
    {"{\"a\":-0.0}",
     "10000000016100000000000000008000"},
    {"{\"a\":{\"$numberInt\":\"-0\"}}",
     "0C0000001061000000000000"},
    {"{\"a\":{\"$numberInt\":\"01\"}}",
     "0C0000001061000100000000"},
    {"{\"a\":{\"$numberInt\":\"+1\"}}",
     "0C0000001061000100000000"},
    {"{\"a\":{\"$numberInt\":\"\\t -007\"}}",
     "0C000000106100F9FFFFFF00"},
    {"{\"a\":{\"$numberInt\":\"1 \"}}", NULL},
    {"{\"a\":{\"$numberInt\":\"1_0\"}}", NULL},
    {"{\"a\":{\"$numberInt\":\"2147483648\"}}", NULL},
    {"{\"a\":{\"$numberInt\":\"1.0\"}}", NULL},
    {"{\"a\":{\"$numberLong\":\"9223372036854775807\"}}",
     "10000000126100FFFFFFFFFFFFFF7F00"},
    {"{\"a\":{\"$numberLong\":\"9223372036854775808\"}}", NULL},
    {"{\"a\":-2147483648}",
     "0C0000001061000000008000"},
    {"{\"a\":-2147483649}",
     "10000000126100FFFFFF7FFFFFFFFF00"},
    {"{\"a\":-9223372036854775808}",
     "10000000126100000000000000008000"},
    {"{\"a\":1e0}",
     "10000000016100000000000000F03F00"},
    {"{\"a\":1e-400}",
     "10000000016100000000000000000000"},
    {"{\"a\":1E400}", NULL},
    {"{\"a\":9007199254740993.0}",
     "10000000016100000000000000404300"},
    {"{\"a\":{\"$numberDouble\":\"1\"}}",
     "10000000016100000000000000F03F00"},
    {"{\"a\":{\"$numberDouble\":\" nan\\n\"}}",
     "10000000016100000000000000F87F00"},
    {"{\"a\":{\"$numberDouble\":\"-NaN\"}}",
     "10000000016100000000000000F8FF00"},
    {"{\"a\":{\"$numberDouble\":\"-inf\"}}",
     "10000000016100000000000000F0FF00"},
    {"{\"a\":{\"$numberDouble\":\"+.5\"}}",
     "10000000016100000000000000E03F00"},
    {"{\"a\":{\"$numberDouble\":\"1_0.0\"}}", NULL},
    {"{\"a\":{\"$binary\":{\"base64\":\"AQ I=\\r\\n\",\"subType\":\" 5\"}}}",
     "0F0000000561000200000005010200"},
    {"{\"a\":{\"$binary\":{\"base64\":\"AQ==\",\"subType\":\" 05\"}}}", NULL},
    {"{\"a\":{\"$numberDouble\":\"1e400\"}}", NULL},
    {"{\"a\":{\"$scope\":{},\"$code\":\"x\"}}",
     "170000000F61000F000000020000007800050000000000"},
    {"{\"a\":{\"$scope\":{\"b\":{\"$scope\":{\"c\":1},\"$code\":\"y\"}},\"$code\":\"x\"}}",
     "300000000F6100280000000200000078001E0000000F6200160000000200000079000C00000010630001000000000000"},
    {"{\"a\":{\"$scope\":{}}}", NULL},
    {"{\"a\":{\"$code\":\"x\",\"$scope\":{\"$oid\":\"56e1fc72e0c917e9c4714161\"}}}",
     "3A0000000F6100320000000200000078002800000002246F69640019000000353665316663373265306339313765396334373134313631000000"},
    {"{\"a\":{\"$date\":\"2012-12-24T12:15:30.5Z\"}}",
     "10000000096100C4D8D6CC3B01000000"},
    {"{\"a\":{\"$date\":\"2012-12-24T12:15:30.50Z\"}}",
     "10000000096100C4D8D6CC3B01000000"},
    {"{\"a\":{\"$date\":\"2012-12-24T12:15:30.5017Z\"}}", NULL},
    {"{\"a\":{\"$date\":\"2012-12-24T12:15:30.501+01:00\"}}",
     "1000000009610045EA9FCC3B01000000"},
    {"{\"a\":{\"$date\":\"2012-12-24T12:15:30.501-05:30\"}}",
     "1000000009610085F804CE3B01000000"},
    {"{\"a\":{\"$date\":\"2012-12-24T12:15:30+0100\"}}",
     "1000000009610050E89FCC3B01000000"},
    {"{\"a\":{\"$date\":\"2012-12-24T12:15:30+24:00\"}}", NULL},
    {"{\"a\":{\"$date\":\"2012-12-24T24:00:00Z\"}}", NULL},
    {"{\"a\":{\"$date\":\"2012-12-24T12:15:60Z\"}}", NULL},
    {"{\"a\":{\"$date\":\"2012-12-24t12:15:30z\"}}",
     "10000000096100D0D6D6CC3B01000000"},
    {"{\"a\":{\"$date\":1356351330501}}",
     "10000000096100C5D8D6CC3B01000000"},
    {"{\"a\":{\"$date\":-1}}",
     "10000000096100FFFFFFFFFFFFFFFF00"},
    {"{\"a\":{\"$date\":9223372036854775808}}", NULL},
    {"{\"a\":{\"$date\":1.0}}", NULL},
    {"{\"a\":{\"$date\":\"0000-01-01T00:00:00Z\"}}",
     "1000000009610000A0FB9075C7FFFF00"},
    {"{\"a\":{\"$date\":\"0000-02-29T00:00:00Z\"}}",
     "1000000009610000D4D2C076C7FFFF00"},
    {"{\"a\":{\"$date\":\"1900-02-29T00:00:00Z\"}}", NULL},
    {"{\"a\":{\"$date\":\"2000-02-29T23:59:59.999Z\"}}",
     "10000000096100FF3BCD9FDD00000000"},
    {"{\"a\":{\"$date\":\"1969-12-31T23:59:59.999Z\"}}",
     "10000000096100FFFFFFFFFFFFFFFF00"},
    {"{\"a\":{\"$timestamp\":{\"i\":1,\"t\":2}}}",
     "10000000116100010000000200000000"},
    {"{\"a\":{\"$timestamp\":{\"t\":-0,\"i\":1}}}",
     "10000000116100010000000000000000"},
    {"{\"a\":{\"$timestamp\":{\"t\":4294967296,\"i\":1}}}", NULL},
    {"{\"a\":{\"$timestamp\":{\"t\":4294967295,\"i\":4294967295}}}",
     "10000000116100FFFFFFFFFFFFFFFF00"},
    {"{\"a\":{\"$numberDecimal\":\"10E-6177\"}}",
     "180000001361000100000000000000000000000000000000"},
    {"{\"a\":{\"$numberDecimal\":\"1E-6177\"}}", NULL},
    {"{\"a\":{\"$numberDecimal\":\"10000000000000000000000000000000000\"}}",
     "18000000136100000000000A5BC138938D44C64D31423000"},
    {"{\"a\":{\"$numberDecimal\":\"12345678901234567890123456789012345\"}}", NULL},
    {"{\"a\":{\"$numberDecimal\":\"1E+6112\"}}",
     "180000001361000A00000000000000000000000000FE5F00"},
    {"{\"a\":{\"$numberDecimal\":\"100E+6143\"}}", NULL},
    {"{\"a\":{\"$numberDecimal\":\"0E+9000\"}}",
     "180000001361000000000000000000000000000000FE5F00"},
    {"{\"a\":{\"$numberDecimal\":\"-0E-9000\"}}",
     "180000001361000000000000000000000000000000008000"},
    {"{\"a\":{\"$numberDecimal\":\".5\"}}",
     "1800000013610005000000000000000000000000003E3000"},
    {"{\"a\":{\"$numberDecimal\":\"5.\"}}",
     "180000001361000500000000000000000000000000403000"},
    {"{\"a\":{\"$numberDecimal\":\"-nan\"}}",
     "180000001361000000000000000000000000000000007C00"},
    {"{\"a\":{\"$numberDecimal\":\"+Inf\"}}",
     "180000001361000000000000000000000000000000007800"},
    {"{\"a\":\"a\\/b\"}",
     "1000000002610004000000612F620000"},
    {"{\"a\":\"\\udbff\\udfff\"}",
     "1100000002610005000000F48FBFBF0000"},
    {"{\"a\":\"\\ud800\\udc00\"}",
     "1100000002610005000000F09080800000"},
    {"{\"a\":\"\\ud7ff\\ue000\"}",
     "1300000002610007000000ED9FBFEE80800000"},
    {"{\"a\":\"\\b\\f\\n\\r\\t\\\"\\\\\"}",
     "1400000002610008000000080C0A0D09225C0000"},
    {"{\"a\":\"\\u0000\"}",
     "0E00000002610002000000000000"},
    {"{\"a\":{\"$binary\":{\"base64\":\"//8\",\"subType\":\"0\"}}}", NULL},
    {"{\"a\":{\"$binary\":{\"base64\":\"//9=\",\"subType\":\"0\"}}}", NULL},
    {"{\"a\":{\"$binary\":{\"base64\":\"\",\"subType\":\"02\"}}}",
     "1100000005610004000000020000000000"},
    {"{\"a\":{\"$binary\":{\"base64\":\"_-8=\",\"subType\":\"0\"}}}", NULL},
    {"{\"a\":{\"$binary\":{\"base64\":\"//8=\",\"subType\":\"fF\"}}}",
     "0F00000005610002000000FFFFFF00"},
    {"{\"a\":{\"$binary\":{\"base64\":\"//8=\",\"subType\":\"0x\"}}}", NULL},
    {"{\"a\":{\"$binary\":{\"base64\":\"//8=\",\"subType\":\"\"}}}", NULL},
    {"{\"a\":{\"$uuid\":\"73FFD264-44b3-4c69-90e8-e7d1dfc035d4\"}}",
     "1D000000056100100000000473FFD26444B34C6990E8E7D1DFC035D400"},
    {"{\"a\":{\"$uuid\":\"73ffd26444b34c6990e8e7d1dfc035d4\"}}", NULL},
    {"{\"a\":{\"$minKey\":1.0}}", NULL},
    {"{\"a\":{\"$maxKey\":1}}",
     "080000007F610000"},
    {"{\"a\":{\"$minKey\":1}}",
     "08000000FF610000"},
    {"{\"a\":{\"$symbol\":\"s\"}}",
     "0E0000000E610002000000730000"},
    {"{\"a\":{\"$undefined\":true}}",
     "0800000006610000"},
    {"{\"a\":{\"$undefined\":false}}",
     "0800000006610000"},
    {"{\"a\":{\"$undefined\":1}}", NULL},
    {"{\"a\":{\"$dbPointer\":{\"$id\":{\"$oid\":\"56e1fc72e0c917e9c4714161\"},\"$ref\":\"b\"}}}",
     "1A0000000C610002000000620056E1FC72E0C917E9C471416100"},
    {"{\"a\":{\"$regularExpression\":{\"options\":\"xis\",\"pattern\":\"a\"}}}",
     "0E0000000B610061006973780000"},
    {"{\"a\":1,\"a\":2}",
     "13000000106100010000001061000200000000"},
    {"{\"a\":[[],{},[1,{\"b\":[2]}]]}",
     "430000000461003B000000043000050000000003310005000000000432002300000010300001000000033100140000000462000C000000103000020000000000000000"},
    {"{\"a\":{\"$regex\":\"a\"}}",
     "1B0000000361001300000002247265676578000200000061000000"},
    {"{\"i\": {\"$numberInt\": \"-2147483648\"}}",
     "0C0000001069000000008000"},
    {"{\"a\": {\"$numberLong\": \"-9223372036854775808\"}}",
     "10000000126100000000000000008000"},
    {"{\"d\": {\"$numberDouble\": \"1.0\"}}",
     "10000000016400000000000000F03F00"},
    {"{\"d\": {\"$numberDouble\": \"-0.0\"}}",
     "10000000016400000000000000008000"},
    {"{\"d\": {\"$numberDouble\": \"-Infinity\"}}",
     "10000000016400000000000000F0FF00"},
    {"{\"d\": {\"$numberDouble\": \"NaN\"}}",
     "10000000016400000000000000F87F00"},
    {"{\"i\": 2147483647}",
     "0C000000106900FFFFFF7F00"},
    {"{\"a\": 2147483648}",
     "10000000126100000000800000000000"},
    {"{\"d\": 1.2345678921232E+18}",
     "100000000164002A1BF5F41022B14300"},
    {"{\"d\": -1.0}",
     "10000000016400000000000000F0BF00"},
    {"{\"a\":9223372036854775807}",
     "10000000126100FFFFFFFFFFFFFF7F00"},
    {"{\"a\":{\"$numberInt\":\"2147483647\"}}",
     "0C000000106100FFFFFF7F00"},
    {"{\"a\":{\"$numberDouble\":\"1.5e+3\"}}",
     "10000000016100000000000070974000"},
    {"{\"d\": {\"$numberDecimal\": \"NaN\"}}",
     "180000001364000000000000000000000000000000007C00"},
    {"{\"d\": {\"$numberDecimal\": \"-infinity\"}}",
     "18000000136400000000000000000000000000000000F800"},
    {"{\"d\": {\"$numberDecimal\": \"0.1\"}}",
     "1800000013640001000000000000000000000000003E3000"},
    {"{\"d\": {\"$numberDecimal\": \"1E+6144\"}}",
     "18000000136400000000000A5BC138938D44C64D31FE5F00"},
    {"{\"d\": {\"$numberDecimal\": \"-9.999999999999999999999999999999999E+6144\"}}",
     "18000000136400FFFFFFFF638E8D37C087ADBE09EDFFDF00"},
    {"{\"d\": {\"$numberDecimal\": \"1E-6176\"}}",
     "180000001364000100000000000000000000000000000000"},
    {"{\"d\": {\"$numberDecimal\": \"0E-9000\"}}",
     "180000001364000000000000000000000000000000000000"},
    {"{\"a\":{\"$numberDecimal\":\"0E000000000000000000000000000009\"}}",
     "180000001361000000000000000000000000000000523000"},
    {"{\"a\":{\"$date\":\"9999-12-31T23:59:59.999-23:59\"}}",
     "100000000961009F4D45D777E6000000"},
    {"{\"$date\":5}",
     "10000000102464617465000500000000"},
    {"{\"b\":1,\"$oid\":\"x\"}",
     "180000001062000100000002246F69640002000000780000"},
    {"{\"a\":{\"$scope\":{\"b\":1,\"$minKey\":2},\"$code\":\"x\"}}",
     "2B0000000F610023000000020000007800190000001062000100000010246D696E4B657900020000000000"},
    {"{}",
     "0500000000"},
    {"{\"a\": \"abababababab\"}",
     "190000000261000D0000006162616261626162616261620000"},
    {"{\"\": \"\\u00e9\\ud834\\uDD1E\\n\"}",
     "13000000020008000000C3A9F09D849E0A0000"},
    {"{\"a\": [{\"$numberInt\": \"10\"}]}",
     "140000000461000C0000001030000A0000000000"},
    {"{\"x\": {\"$binary\": {\"base64\": \"//8=\", \"subType\": \"02\"}}}",
     "13000000057800060000000202000000FFFF00"},
    {"{\"x\": {\"$binary\": {\"subType\": \"0\", \"base64\": \"//8=\"}}}",
     "0F0000000578000200000000FFFF00"},
    {"{\"x\": {\"$uuid\": \"73ffd264-44b3-4c69-90e8-e7d1dfc035d4\"}}",
     "1D000000057800100000000473FFD26444B34C6990E8E7D1DFC035D400"},
    {"{\"a\": {\"$undefined\": true}}",
     "0800000006610000"},
    {"{\"a\": {\"$oid\": \"56E1FC72E0C917E9C4714161\"}}",
     "1400000007610056E1FC72E0C917E9C471416100"},
    {"{\"b\": true, \"b\": false}",
     "0D000000086200010862000000"},
    {"{\"a\": {\"$date\": \"2012-12-24T12:15:30.501Z\"}}",
     "10000000096100C5D8D6CC3B01000000"},
    {"{\"a\": {\"$date\": {\"$numberLong\": \"-284643869501\"}}}",
     "10000000096100C33CE7B9BDFFFFFF00"},
    {"{\"a\": null}",
     "080000000A610000"},
    {"{\"a\": {\"$regularExpression\": {\"pattern\": \"abc\", \"options\": \"mi\"}}}",
     "0F0000000B610061626300696D0000"},
    {"{\"a\": {\"$dbPointer\": {\"$ref\": \"b\", \"$id\": {\"$oid\": \"56e1fc72e0c917e9c4714161\"}}}}",
     "1A0000000C610002000000620056E1FC72E0C917E9C471416100"},
    {"{\"a\": {\"$code\": \"b\"}}",
     "0E0000000D610002000000620000"},
    {"{\"a\": {\"$symbol\": \"b\"}}",
     "0E0000000E610002000000620000"},
    {"{\"a\": {\"$code\": \"abcd\", \"$scope\": {\"x\": {\"$numberInt\": \"1\"}}}}",
     "210000000F6100190000000500000061626364000C000000107800010000000000"},
    {"{\"a\": {\"$scope\": {\"x\": {\"$numberInt\": \"1\"}}, \"$code\": \"abcd\"}}",
     "210000000F6100190000000500000061626364000C000000107800010000000000"},
    {"{\"a\": {\"$timestamp\": {\"t\": 123456789, \"i\": 42}}}",
     "100000001161002A00000015CD5B0700"},
    {"{\"a\": {\"$minKey\": 1}}",
     "08000000FF610000"},
    {"{\"a\": {\"\\u0024maxKey\": 1}}",
     "080000007F610000"},
    {"{\"a\": {\"$gt\": 1}}",
     "160000000361000E0000001024677400010000000000"},
};

static int is_hex(const uint8_t *bytes, size_t len, const char *hex) {
    static const char digits[] = "0123456789ABCDEF";
    size_t at = 0;
    while (at < len && hex[2 * at] == digits[bytes[at] >> 4] && hex[2 * at + 1] == digits[bytes[at] & 15]) at++;
    return at == len && hex[2 * at] == 0;
}

static void has_bytes(const struct row *row) {
    uint8_t document[256];
    struct bsonraw_json_report r;
    int32_t status = bsonraw_from_json(TEXT(row->text), 256, 10, document, sizeof document, &r);
    if (row->hex == NULL) {
        expect(status == BSONRAW_FAULT && r.count == 0 && r.json_reason != 0 && r.line == 1, row->text, "it is read");
        expect(r.column == r.offset + 1 && r.offset <= strlen(row->text), row->text, "the place isn't in the text");
    } else {
        expect(status == BSONRAW_OK && is_hex(document, (size_t)r.count, row->hex), row->text, "other bytes");
        expect(r.offset == 0 && r.line == 0 && r.column == 0 && r.json_reason == 0 && r.wrapper == 0, row->text, "a document has a place");
        status = bsonraw_from_json(TEXT(row->text), strlen(row->hex) / 2 - 1, 10, document, sizeof document, &r);
        expect(status == BSONRAW_TOO_MANY_BYTES, row->text, "a byte less is enough");
    }
}

/* What is wrong, and where: the numbers of the header, which has no others. */
static void is_refused(const char *text, uint64_t line, uint64_t column, enum bsonraw_json_reason reason, unsigned wrapper) {
    uint8_t document[256];
    struct bsonraw_json_report r;
    expect(bsonraw_from_json(TEXT(text), 256, 2, document, sizeof document, &r) == BSONRAW_FAULT, text, "it is read");
    switch (reason) {
    case BSONRAW_JSON_END_OF_TEXT: case BSONRAW_JSON_BYTE_ORDER_MARK: case BSONRAW_JSON_EXPECTED_DOCUMENT: case BSONRAW_JSON_EXPECTED_KEY:
    case BSONRAW_JSON_EXPECTED_COLON: case BSONRAW_JSON_EXPECTED_COMMA: case BSONRAW_JSON_EXPECTED_VALUE: case BSONRAW_JSON_TEXT_BEHIND:
    case BSONRAW_JSON_BAD_NUMBER: case BSONRAW_JSON_INTEGER_TOO_LARGE: case BSONRAW_JSON_NUMBER_TOO_LARGE:
    case BSONRAW_JSON_CONTROL_CHARACTER: case BSONRAW_JSON_BAD_ESCAPE: case BSONRAW_JSON_LONE_SURROGATE: case BSONRAW_JSON_INTERIOR_NUL:
    case BSONRAW_JSON_MALFORMED: case BSONRAW_JSON_INEXACT_DECIMAL: case BSONRAW_JSON_NOT_UTF8: case BSONRAW_JSON_UNSOUND:
        expect(r.json_reason == reason && r.wrapper == wrapper, text, "another reason");
    }
    expect(r.line == line && r.column == column, text, "another place");
}

static void say_reasons(void) {
    is_refused("", 1, 1, BSONRAW_JSON_END_OF_TEXT, 0);
    is_refused("\357\273\277{}", 1, 1, BSONRAW_JSON_BYTE_ORDER_MARK, 0);
    is_refused(" []", 1, 2, BSONRAW_JSON_EXPECTED_DOCUMENT, 0);
    is_refused("{a", 1, 2, BSONRAW_JSON_EXPECTED_KEY, 0);
    is_refused("{\"a\" 1}", 1, 6, BSONRAW_JSON_EXPECTED_COLON, 0);
    is_refused("{\"a\": [1 2]}", 1, 10, BSONRAW_JSON_EXPECTED_COMMA, 0);
    is_refused("{\n\"\303\251\":\n  nul}", 3, 3, BSONRAW_JSON_EXPECTED_VALUE, 0);
    is_refused("{} x", 1, 4, BSONRAW_JSON_TEXT_BEHIND, 0);
    is_refused("{\"a\": 01}", 1, 7, BSONRAW_JSON_BAD_NUMBER, 0);
    is_refused("{\"a\": 9223372036854775808}", 1, 7, BSONRAW_JSON_INTEGER_TOO_LARGE, 0);
    is_refused("{\"a\": 1e400}", 1, 7, BSONRAW_JSON_NUMBER_TOO_LARGE, 0);
    is_refused("{\"a\": \"\t\"}", 1, 8, BSONRAW_JSON_CONTROL_CHARACTER, 0);
    is_refused("{\"a\": \"\303\251\\x\"}", 1, 9, BSONRAW_JSON_BAD_ESCAPE, 0);
    is_refused("{\"a\": \"\\ud834x\"}", 1, 8, BSONRAW_JSON_LONE_SURROGATE, 0);
    is_refused("{\"a\\u0000\": 1}", 1, 2, BSONRAW_JSON_INTERIOR_NUL, 0);
    is_refused("{\"a\": {\"$numberDecimal\": \"1E-6177\"}}", 1, 26, BSONRAW_JSON_INEXACT_DECIMAL, 0);
    is_refused("{\"\303\251\": \"\377\"}", 1, 8, BSONRAW_JSON_NOT_UTF8, 0);
}

/* The wrapper whose key this is, with a value that it doesn't have. */
static void say_wrappers(void) {
    static const char *const keys[] = {"oid", "numberInt", "numberLong", "numberDouble", "numberDecimal", "binary", "uuid", "date",
                                       "regularExpression", "timestamp", "code", "scope", "dbPointer", "symbol", "undefined", "minKey", "maxKey"};
    static const enum bsonraw_json_wrapper numbers[] = {
        BSONRAW_JSON_OID, BSONRAW_JSON_NUMBER_INT, BSONRAW_JSON_NUMBER_LONG, BSONRAW_JSON_NUMBER_DOUBLE, BSONRAW_JSON_NUMBER_DECIMAL,
        BSONRAW_JSON_BINARY, BSONRAW_JSON_UUID, BSONRAW_JSON_DATE, BSONRAW_JSON_REGULAR_EXPRESSION, BSONRAW_JSON_TIMESTAMP,
        BSONRAW_JSON_CODE, BSONRAW_JSON_SCOPE, BSONRAW_JSON_DB_POINTER, BSONRAW_JSON_SYMBOL, BSONRAW_JSON_UNDEFINED, BSONRAW_JSON_MIN_KEY,
        BSONRAW_JSON_MAX_KEY};
    for (size_t at = 0; at < sizeof keys / sizeof *keys; at++) {
        char text[64];
        uint8_t document[256];
        struct bsonraw_json_report r;
        snprintf(text, sizeof text, "{\"a\": {\"$%s\": null}}", keys[at]);
        expect(bsonraw_from_json(TEXT(text), 256, 2, document, sizeof document, &r) == BSONRAW_FAULT && r.json_reason == BSONRAW_JSON_MALFORMED &&
                   r.wrapper == (uint32_t)numbers[at] && (size_t)numbers[at] == at + 1,
               text, "another wrapper");
    }
}

/* Texts, where what is wrong in them is, and what it is. */
static const struct refusal {
    const char *text;
    uint64_t line, column;
    enum bsonraw_json_reason reason;
    unsigned wrapper;
} refusals[] = {
    {"", 1, 1, BSONRAW_JSON_END_OF_TEXT, 0},
    {" []", 1, 2, BSONRAW_JSON_EXPECTED_DOCUMENT, 0},
    {"{a", 1, 2, BSONRAW_JSON_EXPECTED_KEY, 0},
    {"{\"a\" 1}", 1, 6, BSONRAW_JSON_EXPECTED_COLON, 0},
    {"{\012\"\303\251\":\012  nul}", 3, 3, BSONRAW_JSON_EXPECTED_VALUE, 0},
    {"{\"a\": 1,}", 1, 9, BSONRAW_JSON_EXPECTED_KEY, 0},
    {"{\"a\": [1 2]}", 1, 10, BSONRAW_JSON_EXPECTED_COMMA, 0},
    {"{\"a\": 1", 1, 8, BSONRAW_JSON_END_OF_TEXT, 0},
    {"{} x", 1, 4, BSONRAW_JSON_TEXT_BEHIND, 0},
    {"{\"a\": 01}", 1, 7, BSONRAW_JSON_BAD_NUMBER, 0},
    {"{\"a\": 1.}", 1, 7, BSONRAW_JSON_BAD_NUMBER, 0},
    {"{\"a\": 1e400}", 1, 7, BSONRAW_JSON_NUMBER_TOO_LARGE, 0},
    {"{\"a\": \"\011\"}", 1, 8, BSONRAW_JSON_CONTROL_CHARACTER, 0},
    {"{\"a\": \"\303\251\\x\"}", 1, 9, BSONRAW_JSON_BAD_ESCAPE, 0},
    {"{\"a\": \"\\ud834x\"}", 1, 8, BSONRAW_JSON_LONE_SURROGATE, 0},
    {"{\"a\": \"\\udd1e\"}", 1, 8, BSONRAW_JSON_LONE_SURROGATE, 0},
    {"{\"a\\u0000\": 1}", 1, 2, BSONRAW_JSON_INTERIOR_NUL, 0},
    {"\357\273\277{}", 1, 1, BSONRAW_JSON_BYTE_ORDER_MARK, 0},
    {"{\"a\":9223372036854775808}", 1, 6, BSONRAW_JSON_INTEGER_TOO_LARGE, 0},
    {"{\"a\":-9223372036854775809}", 1, 6, BSONRAW_JSON_INTEGER_TOO_LARGE, 0},
    {"{\"a\":[1,]}", 1, 9, BSONRAW_JSON_EXPECTED_VALUE, 0},
    {"{\"a\":[,1]}", 1, 7, BSONRAW_JSON_EXPECTED_VALUE, 0},
    {"{\"a\":[\"b\":1]}", 1, 10, BSONRAW_JSON_EXPECTED_COMMA, 0},
    {"{\"a\":[1}", 1, 8, BSONRAW_JSON_EXPECTED_COMMA, 0},
    {"{\"a\":}", 1, 6, BSONRAW_JSON_EXPECTED_VALUE, 0},
    {"{1:2}", 1, 2, BSONRAW_JSON_EXPECTED_KEY, 0},
    {"{\"a\"}", 1, 5, BSONRAW_JSON_EXPECTED_COLON, 0},
    {"{},", 1, 3, BSONRAW_JSON_TEXT_BEHIND, 0},
    {"{\"a\":1 \"b\":2}", 1, 8, BSONRAW_JSON_EXPECTED_COMMA, 0},
    {"{\"a\":1x}", 1, 6, BSONRAW_JSON_BAD_NUMBER, 0},
    {"{\"a\":\"\\u12g4\"}", 1, 7, BSONRAW_JSON_BAD_ESCAPE, 0},
    {"{\"a\":\"\\ud834\\u12\"}", 1, 13, BSONRAW_JSON_BAD_ESCAPE, 0},
    {"{\"a\":\"\\ud834\\u0041\"}", 1, 7, BSONRAW_JSON_LONE_SURROGATE, 0},
    {"{\"a\": {\"$oid\": \"56\"}}", 1, 16, BSONRAW_JSON_MALFORMED, BSONRAW_JSON_OID},
    {"{\"a\": {\"$numberInt\": 1}}", 1, 22, BSONRAW_JSON_MALFORMED, BSONRAW_JSON_NUMBER_INT},
    {"{\"a\": {\"$numberInt\": \"2147483648\"}}", 1, 22, BSONRAW_JSON_MALFORMED, BSONRAW_JSON_NUMBER_INT},
    {"{\"a\": {\"$numberLong\": \"1\", \"b\": 1}}", 1, 26, BSONRAW_JSON_MALFORMED, BSONRAW_JSON_NUMBER_LONG},
    {"{\"a\": {\"$numberDecimal\": \"1e\"}}", 1, 26, BSONRAW_JSON_MALFORMED, BSONRAW_JSON_NUMBER_DECIMAL},
    {"{\"a\": {\"$numberDecimal\": \"1E+6145\"}}", 1, 26, BSONRAW_JSON_INEXACT_DECIMAL, 0},
    {"{\"a\": {\"$binary\": \"\", \"$type\": \"0z\"}}", 1, 32, BSONRAW_JSON_MALFORMED, BSONRAW_JSON_BINARY},
    {"{\"a\": {\"$binary\": \"A\", \"$type\": \"00\"}}", 1, 19, BSONRAW_JSON_MALFORMED, BSONRAW_JSON_BINARY},
    {"{\"a\": {\"$type\": \"00\", \"$binary\": \"\", \"b\": 1}}", 1, 36, BSONRAW_JSON_MALFORMED, BSONRAW_JSON_BINARY},
    {"{\"a\": {\"$type\": 0, \"$binary\": \"\"}}", 1, 20, BSONRAW_JSON_MALFORMED, BSONRAW_JSON_BINARY},
    {"{\"a\": {\"$type\": \"\", \"$binary\": \"\"}}", 1, 21, BSONRAW_JSON_MALFORMED, BSONRAW_JSON_BINARY},
    {"{\"a\": {\"$date\": 0.5}}", 1, 17, BSONRAW_JSON_MALFORMED, BSONRAW_JSON_DATE},
    {"{\"a\": {\"$date\": \"2023-02-29T00:00:00Z\"}}", 1, 17, BSONRAW_JSON_MALFORMED, BSONRAW_JSON_DATE},
    {"{\"a\": {\"$undefined\": 1}}", 1, 22, BSONRAW_JSON_MALFORMED, BSONRAW_JSON_UNDEFINED},
    {"{\"a\": {\"$minKey\": 2}}", 1, 19, BSONRAW_JSON_MALFORMED, BSONRAW_JSON_MIN_KEY},
    {"{\"a\": {\"$code\": \"\", \"$scope\": 1}}", 1, 31, BSONRAW_JSON_MALFORMED, BSONRAW_JSON_CODE},
    {"{\"a\": {\"$timestamp\": {\"t\": 1, \"t\": 1}}}", 1, 31, BSONRAW_JSON_MALFORMED, BSONRAW_JSON_TIMESTAMP},
    {"{\"a\":{\"$numberInt\":\"0x1\"}}", 1, 20, BSONRAW_JSON_MALFORMED, BSONRAW_JSON_NUMBER_INT},
    {"{\"a\":{\"$numberInt\":\"--1\"}}", 1, 20, BSONRAW_JSON_MALFORMED, BSONRAW_JSON_NUMBER_INT},
    {"{\"a\":{\"$numberInt\":\"1.0\"}}", 1, 20, BSONRAW_JSON_MALFORMED, BSONRAW_JSON_NUMBER_INT},
    {"{\"a\":{\"$numberInt\":\"\"}}", 1, 20, BSONRAW_JSON_MALFORMED, BSONRAW_JSON_NUMBER_INT},
    {"{\"a\":{\"$numberInt\":\"-2147483649\"}}", 1, 20, BSONRAW_JSON_MALFORMED, BSONRAW_JSON_NUMBER_INT},
    {"{\"a\":{\"$numberLong\":\"9223372036854775808\"}}", 1, 21, BSONRAW_JSON_MALFORMED, BSONRAW_JSON_NUMBER_LONG},
    {"{\"a\":{\"$numberLong\":1}}", 1, 21, BSONRAW_JSON_MALFORMED, BSONRAW_JSON_NUMBER_LONG},
    {"{\"a\":{\"$numberLong\":\"-9223372036854775809\"}}", 1, 21, BSONRAW_JSON_MALFORMED, BSONRAW_JSON_NUMBER_LONG},
    {"{\"a\":{\"$numberDouble\":\"1.0x\"}}", 1, 23, BSONRAW_JSON_MALFORMED, BSONRAW_JSON_NUMBER_DOUBLE},
    {"{\"a\":{\"$numberDouble\":\"nan()\"}}", 1, 23, BSONRAW_JSON_MALFORMED, BSONRAW_JSON_NUMBER_DOUBLE},
    {"{\"a\":{\"$numberDouble\":\"infi\"}}", 1, 23, BSONRAW_JSON_MALFORMED, BSONRAW_JSON_NUMBER_DOUBLE},
    {"{\"a\":{\"$numberDouble\":\"1e400\"}}", 1, 23, BSONRAW_JSON_MALFORMED, BSONRAW_JSON_NUMBER_DOUBLE},
    {"{\"a\":{\"$numberDouble\":1.0}}", 1, 23, BSONRAW_JSON_MALFORMED, BSONRAW_JSON_NUMBER_DOUBLE},
    {"{\"a\":{\"$numberDouble\":\"\"}}", 1, 23, BSONRAW_JSON_MALFORMED, BSONRAW_JSON_NUMBER_DOUBLE},
    {"{\"a\":{\"$date\":\"2012-12-24T12:15:30.5017Z\"}}", 1, 15, BSONRAW_JSON_MALFORMED, BSONRAW_JSON_DATE},
    {"{\"a\":{\"$date\":\"2012-12-24T12:15:30.Z\"}}", 1, 15, BSONRAW_JSON_MALFORMED, BSONRAW_JSON_DATE},
    {"{\"a\":{\"$date\":\"2012-12-24T12:15:30+24:00\"}}", 1, 15, BSONRAW_JSON_MALFORMED, BSONRAW_JSON_DATE},
    {"{\"a\":{\"$date\":\"2012-12-24T12:15:30+01\"}}", 1, 15, BSONRAW_JSON_MALFORMED, BSONRAW_JSON_DATE},
    {"{\"a\":{\"$date\":\"2012-12-24T12:15:30+01:60\"}}", 1, 15, BSONRAW_JSON_MALFORMED, BSONRAW_JSON_DATE},
    {"{\"a\":{\"$date\":\"2012-12-24T24:00:00Z\"}}", 1, 15, BSONRAW_JSON_MALFORMED, BSONRAW_JSON_DATE},
    {"{\"a\":{\"$date\":\"2012-12-24T12:15:60Z\"}}", 1, 15, BSONRAW_JSON_MALFORMED, BSONRAW_JSON_DATE},
    {"{\"a\":{\"$date\":\"2012-12-24s12:15:30Z\"}}", 1, 15, BSONRAW_JSON_MALFORMED, BSONRAW_JSON_DATE},
    {"{\"a\":{\"$date\":\"2012-12-24T12:15:30zz\"}}", 1, 15, BSONRAW_JSON_MALFORMED, BSONRAW_JSON_DATE},
    {"{\"a\":{\"$date\":\"1900-02-29T00:00:00Z\"}}", 1, 15, BSONRAW_JSON_MALFORMED, BSONRAW_JSON_DATE},
    {"{\"a\":{\"$date\":\"2012-13-24T12:15:30Z\"}}", 1, 15, BSONRAW_JSON_MALFORMED, BSONRAW_JSON_DATE},
    {"{\"a\":{\"$date\":\"2012-12-24T12:15:30\"}}", 1, 15, BSONRAW_JSON_MALFORMED, BSONRAW_JSON_DATE},
    {"{\"a\":{\"$numberDecimal\":\"1E-6177\"}}", 1, 24, BSONRAW_JSON_INEXACT_DECIMAL, 0},
    {"{\"a\":{\"$numberDecimal\":\"12345678901234567890123456789012345\"}}", 1, 24, BSONRAW_JSON_INEXACT_DECIMAL, 0},
    {"{\"a\":{\"$numberDecimal\":\"100E+6143\"}}", 1, 24, BSONRAW_JSON_INEXACT_DECIMAL, 0},
    {"{\"a\":{\"$numberDecimal\":\"1E+6145\"}}", 1, 24, BSONRAW_JSON_INEXACT_DECIMAL, 0},
    {"{\"a\":{\"$numberDecimal\":\"1E999999999999999999999999999999\"}}", 1, 24, BSONRAW_JSON_INEXACT_DECIMAL, 0},
    {"{\"a\":{\"$numberDecimal\":\".\"}}", 1, 24, BSONRAW_JSON_MALFORMED, BSONRAW_JSON_NUMBER_DECIMAL},
    {"{\"a\":{\"$numberDecimal\":\"1e\"}}", 1, 24, BSONRAW_JSON_MALFORMED, BSONRAW_JSON_NUMBER_DECIMAL},
    {"{\"a\":{\"$numberDecimal\":\"+-1\"}}", 1, 24, BSONRAW_JSON_MALFORMED, BSONRAW_JSON_NUMBER_DECIMAL},
    {"{\"a\":{\"$numberDecimal\":\"NaNx\"}}", 1, 24, BSONRAW_JSON_MALFORMED, BSONRAW_JSON_NUMBER_DECIMAL},
    {"{\"a\":{\"$numberDecimal\":\"\"}}", 1, 24, BSONRAW_JSON_MALFORMED, BSONRAW_JSON_NUMBER_DECIMAL},
    {"{\"a\":{\"$binary\":{\"base64\":\"!\",\"subType\":5}}}", 1, 27, BSONRAW_JSON_MALFORMED, BSONRAW_JSON_BINARY},
    {"{\"a\":{\"$binary\":{\"base64\":\"//8\",\"subType\":5}}}", 1, 27, BSONRAW_JSON_MALFORMED, BSONRAW_JSON_BINARY},
    {"{\"a\":{\"$binary\":{\"base64\":\"//9=\",\"subType\":5}}}", 1, 27, BSONRAW_JSON_MALFORMED, BSONRAW_JSON_BINARY},
    {"{\"a\":{\"$binary\":{\"base64\":\"_-8=\",\"subType\":5}}}", 1, 27, BSONRAW_JSON_MALFORMED, BSONRAW_JSON_BINARY},
    {"{\"a\":{\"$binary\":{\"subType\":\"0x\",\"base64\":\"!\"}}}", 1, 28, BSONRAW_JSON_MALFORMED, BSONRAW_JSON_BINARY},
    {"{\"a\":{\"$binary\":{\"subType\":\"\",\"base64\":\"!\"}}}", 1, 28, BSONRAW_JSON_MALFORMED, BSONRAW_JSON_BINARY},
    {"{\"a\":{\"$binary\":{\"subType\":\"000\",\"base64\":\"!\"}}}", 1, 28, BSONRAW_JSON_MALFORMED, BSONRAW_JSON_BINARY},
    {"{\"a\":{\"$binary\":{\"subType\":5,\"base64\":\"!\"}}}", 1, 28, BSONRAW_JSON_MALFORMED, BSONRAW_JSON_BINARY},
    {"{\"a\":{\"$uuid\":\"73ffd26444b34c6990e8e7d1dfc035d4\"}}", 1, 15, BSONRAW_JSON_MALFORMED, BSONRAW_JSON_UUID},
    {"{\"a\":{\"$minKey\":1.0}}", 1, 17, BSONRAW_JSON_MALFORMED, BSONRAW_JSON_MIN_KEY},
    {"{\"a\":{\"$minKey\":\"1\"}}", 1, 17, BSONRAW_JSON_MALFORMED, BSONRAW_JSON_MIN_KEY},
    {"{\"a\":{\"$minKey\":true}}", 1, 17, BSONRAW_JSON_MALFORMED, BSONRAW_JSON_MIN_KEY},
    {"{\"a\":{\"$minKey\":nul}}", 1, 17, BSONRAW_JSON_MALFORMED, BSONRAW_JSON_MIN_KEY},
    {"{\"a\":{\"$timestamp\":{\"t\":4294967296,\"i\":1}}}", 1, 25, BSONRAW_JSON_MALFORMED, BSONRAW_JSON_TIMESTAMP},
    {"{\"a\":{\"$timestamp\":{\"t\":-1,\"i\":1}}}", 1, 25, BSONRAW_JSON_MALFORMED, BSONRAW_JSON_TIMESTAMP},
    {"{\"a\":{\"$timestamp\":{\"t\":1.0,\"i\":1}}}", 1, 25, BSONRAW_JSON_MALFORMED, BSONRAW_JSON_TIMESTAMP},
    {"{\"a\":{\"$timestamp\":{\"t\":\"1\",\"i\":1}}}", 1, 25, BSONRAW_JSON_MALFORMED, BSONRAW_JSON_TIMESTAMP},
    {"{\"a\":{\"$regularExpression\":{\"pattern\":\"a\\u0000\",\"options\":\"i\"}}}", 1, 39, BSONRAW_JSON_INTERIOR_NUL, 0},
    {"{\"a\":{\"$regularExpression\":{\"options\":\"a\\u0000\",\"pattern\":\"i\"}}}", 1, 39, BSONRAW_JSON_INTERIOR_NUL, 0},
    {"{\"a\":{\"$dbPointer\":{\"$id\":{\"$oid\":\"5\"},\"$ref\":\"b\"}}}", 1, 35, BSONRAW_JSON_MALFORMED, BSONRAW_JSON_OID},
    {"{\"a\":{\"$dbPointer\":{\"$id\":1,\"$ref\":\"b\"}}}", 1, 27, BSONRAW_JSON_MALFORMED, BSONRAW_JSON_DB_POINTER},
    {"{\"a\":{\"$scope\":{}}}", 1, 18, BSONRAW_JSON_MALFORMED, BSONRAW_JSON_SCOPE},
    {"{\"a\":{\"$code\":\"b\",\"c\":1}}", 1, 19, BSONRAW_JSON_MALFORMED, BSONRAW_JSON_CODE},
    {"{\"a\":{\"$binary\":\"AQ==\",\"$kind\":\"00\"}}", 1, 24, BSONRAW_JSON_MALFORMED, BSONRAW_JSON_BINARY},
};

/* Texts that end too early. */
static const char *const cut[] = {
    "{\"a\":\"\\u12",
    "{\"a\":\"\\ud834",
    "{\"a\":\"\\ud834\\",
    "{\"a\":\"\\",
    "{\"a\":\"b",
    "{\"a",
    "{\"a\"",
    "{\"a\":",
    "{\"a\":tru",
    "{\"a\":-",
    "{\"a\":1.",
    "{\"a\":1e",
    "{\"a\":1e+",
    "{\"a\":[",
    "{\"a\":1,",
    "{\"x\":{\"$minKey\":",
    "{\"x\":{\"$minKey\":1",
    "{\"x\":{\"$code\":\"a\",",
    "{\"x\":{\"$undefined\":t",
    "{\"x\":{\"$timestamp\":{\"t\":",
};

/* Wrappers with another member after or before theirs. */
static const struct {
    const char *text;
    unsigned wrapper;
} mixed[] = {
    {"{\"a\":{\"$oid\":\"56e1fc72e0c917e9c4714161\",\"b\":1}}", BSONRAW_JSON_OID},
    {"{\"a\":{\"b\":1,\"$oid\":\"56e1fc72e0c917e9c4714161\"}}", BSONRAW_JSON_OID},
    {"{\"a\":{\"b\":1,\"\\u0024oid\":1}}", BSONRAW_JSON_OID},
    {"{\"a\":{\"$numberInt\":\"1\",\"b\":1}}", BSONRAW_JSON_NUMBER_INT},
    {"{\"a\":{\"b\":1,\"$numberInt\":\"1\"}}", BSONRAW_JSON_NUMBER_INT},
    {"{\"a\":{\"b\":1,\"\\u0024numberInt\":1}}", BSONRAW_JSON_NUMBER_INT},
    {"{\"a\":{\"$numberLong\":\"1\",\"b\":1}}", BSONRAW_JSON_NUMBER_LONG},
    {"{\"a\":{\"b\":1,\"$numberLong\":\"1\"}}", BSONRAW_JSON_NUMBER_LONG},
    {"{\"a\":{\"b\":1,\"\\u0024numberLong\":1}}", BSONRAW_JSON_NUMBER_LONG},
    {"{\"a\":{\"$numberDouble\":\"1\",\"b\":1}}", BSONRAW_JSON_NUMBER_DOUBLE},
    {"{\"a\":{\"b\":1,\"$numberDouble\":\"1\"}}", BSONRAW_JSON_NUMBER_DOUBLE},
    {"{\"a\":{\"b\":1,\"\\u0024numberDouble\":1}}", BSONRAW_JSON_NUMBER_DOUBLE},
    {"{\"a\":{\"$numberDecimal\":\"1\",\"b\":1}}", BSONRAW_JSON_NUMBER_DECIMAL},
    {"{\"a\":{\"b\":1,\"$numberDecimal\":\"1\"}}", BSONRAW_JSON_NUMBER_DECIMAL},
    {"{\"a\":{\"b\":1,\"\\u0024numberDecimal\":1}}", BSONRAW_JSON_NUMBER_DECIMAL},
    {"{\"a\":{\"$binary\":{\"base64\":\"\",\"subType\":\"0\"},\"b\":1}}", BSONRAW_JSON_BINARY},
    {"{\"a\":{\"b\":1,\"$binary\":{\"base64\":\"\",\"subType\":\"0\"}}}", BSONRAW_JSON_BINARY},
    {"{\"a\":{\"b\":1,\"\\u0024binary\":1}}", BSONRAW_JSON_BINARY},
    {"{\"a\":{\"$uuid\":\"73ffd264-44b3-4c69-90e8-e7d1dfc035d4\",\"b\":1}}", BSONRAW_JSON_UUID},
    {"{\"a\":{\"b\":1,\"$uuid\":\"73ffd264-44b3-4c69-90e8-e7d1dfc035d4\"}}", BSONRAW_JSON_UUID},
    {"{\"a\":{\"b\":1,\"\\u0024uuid\":1}}", BSONRAW_JSON_UUID},
    {"{\"a\":{\"$date\":{\"$numberLong\":\"1\"},\"b\":1}}", BSONRAW_JSON_DATE},
    {"{\"a\":{\"b\":1,\"$date\":{\"$numberLong\":\"1\"}}}", BSONRAW_JSON_DATE},
    {"{\"a\":{\"b\":1,\"\\u0024date\":1}}", BSONRAW_JSON_DATE},
    {"{\"a\":{\"$regularExpression\":{\"pattern\":\"\",\"options\":\"\"},\"b\":1}}", BSONRAW_JSON_REGULAR_EXPRESSION},
    {"{\"a\":{\"b\":1,\"$regularExpression\":{\"pattern\":\"\",\"options\":\"\"}}}", BSONRAW_JSON_REGULAR_EXPRESSION},
    {"{\"a\":{\"b\":1,\"\\u0024regularExpression\":1}}", BSONRAW_JSON_REGULAR_EXPRESSION},
    {"{\"a\":{\"$timestamp\":{\"t\":1,\"i\":1},\"b\":1}}", BSONRAW_JSON_TIMESTAMP},
    {"{\"a\":{\"b\":1,\"$timestamp\":{\"t\":1,\"i\":1}}}", BSONRAW_JSON_TIMESTAMP},
    {"{\"a\":{\"b\":1,\"\\u0024timestamp\":1}}", BSONRAW_JSON_TIMESTAMP},
    {"{\"a\":{\"$code\":\"\",\"b\":1}}", BSONRAW_JSON_CODE},
    {"{\"a\":{\"b\":1,\"$code\":\"\"}}", BSONRAW_JSON_CODE},
    {"{\"a\":{\"b\":1,\"\\u0024code\":1}}", BSONRAW_JSON_CODE},
    {"{\"a\":{\"$code\":\"\",\"$scope\":{},\"b\":1}}", BSONRAW_JSON_CODE},
    {"{\"a\":{\"b\":1,\"$code\":\"\",\"$scope\":{}}}", BSONRAW_JSON_CODE},
    {"{\"a\":{\"$scope\":{},\"$code\":\"\",\"b\":1}}", BSONRAW_JSON_SCOPE},
    {"{\"a\":{\"b\":1,\"$scope\":{},\"$code\":\"\"}}", BSONRAW_JSON_SCOPE},
    {"{\"a\":{\"b\":1,\"\\u0024scope\":1}}", BSONRAW_JSON_SCOPE},
    {"{\"a\":{\"$dbPointer\":{\"$ref\":\"\",\"$id\":{\"$oid\":\"56e1fc72e0c917e9c4714161\"}},\"b\":1}}", BSONRAW_JSON_DB_POINTER},
    {"{\"a\":{\"b\":1,\"$dbPointer\":{\"$ref\":\"\",\"$id\":{\"$oid\":\"56e1fc72e0c917e9c4714161\"}}}}", BSONRAW_JSON_DB_POINTER},
    {"{\"a\":{\"b\":1,\"\\u0024dbPointer\":1}}", BSONRAW_JSON_DB_POINTER},
    {"{\"a\":{\"$symbol\":\"\",\"b\":1}}", BSONRAW_JSON_SYMBOL},
    {"{\"a\":{\"b\":1,\"$symbol\":\"\"}}", BSONRAW_JSON_SYMBOL},
    {"{\"a\":{\"b\":1,\"\\u0024symbol\":1}}", BSONRAW_JSON_SYMBOL},
    {"{\"a\":{\"$undefined\":true,\"b\":1}}", BSONRAW_JSON_UNDEFINED},
    {"{\"a\":{\"b\":1,\"$undefined\":true}}", BSONRAW_JSON_UNDEFINED},
    {"{\"a\":{\"b\":1,\"\\u0024undefined\":1}}", BSONRAW_JSON_UNDEFINED},
    {"{\"a\":{\"$minKey\":1,\"b\":1}}", BSONRAW_JSON_MIN_KEY},
    {"{\"a\":{\"b\":1,\"$minKey\":1}}", BSONRAW_JSON_MIN_KEY},
    {"{\"a\":{\"b\":1,\"\\u0024minKey\":1}}", BSONRAW_JSON_MIN_KEY},
    {"{\"a\":{\"$maxKey\":1,\"b\":1}}", BSONRAW_JSON_MAX_KEY},
    {"{\"a\":{\"b\":1,\"$maxKey\":1}}", BSONRAW_JSON_MAX_KEY},
    {"{\"a\":{\"b\":1,\"\\u0024maxKey\":1}}", BSONRAW_JSON_MAX_KEY},
};

/* The same members in the whole text, which is a document. */
static const char *const tops[] = {
    "{\"b\":1,\"$oid\":\"56e1fc72e0c917e9c4714161\"}",
    "{\"b\":1,\"$numberInt\":\"1\"}",
    "{\"b\":1,\"$numberLong\":\"1\"}",
    "{\"b\":1,\"$numberDouble\":\"1\"}",
    "{\"b\":1,\"$numberDecimal\":\"1\"}",
    "{\"b\":1,\"$binary\":{\"base64\":\"\",\"subType\":\"0\"}}",
    "{\"b\":1,\"$uuid\":\"73ffd264-44b3-4c69-90e8-e7d1dfc035d4\"}",
    "{\"b\":1,\"$date\":{\"$numberLong\":\"1\"}}",
    "{\"b\":1,\"$regularExpression\":{\"pattern\":\"\",\"options\":\"\"}}",
    "{\"b\":1,\"$timestamp\":{\"t\":1,\"i\":1}}",
    "{\"b\":1,\"$code\":\"\"}",
    "{\"b\":1,\"$code\":\"\",\"$scope\":{}}",
    "{\"b\":1,\"$scope\":{},\"$code\":\"\"}",
    "{\"b\":1,\"$dbPointer\":{\"$ref\":\"\",\"$id\":{\"$oid\":\"56e1fc72e0c917e9c4714161\"}}}",
    "{\"b\":1,\"$symbol\":\"\"}",
    "{\"b\":1,\"$undefined\":true}",
    "{\"b\":1,\"$minKey\":1}",
    "{\"b\":1,\"$maxKey\":1}",
};

/* The texts of these tables. */
static void say_places(void) {
    uint8_t document[256];
    struct bsonraw_json_report r;
    size_t at;
    for (at = 0; at < sizeof refusals / sizeof *refusals; at++)
        is_refused(refusals[at].text, refusals[at].line, refusals[at].column, refusals[at].reason, refusals[at].wrapper);
    for (at = 0; at < sizeof cut / sizeof *cut; at++) {
        expect(bsonraw_from_json(TEXT(cut[at]), 256, 2, document, sizeof document, &r) == BSONRAW_FAULT, cut[at], "it is read");
        expect(r.json_reason == BSONRAW_JSON_END_OF_TEXT && r.offset == strlen(cut[at]), cut[at], "it doesn't end there");
    }
    for (at = 0; at < sizeof mixed / sizeof *mixed; at++) {
        expect(bsonraw_from_json(TEXT(mixed[at].text), 256, 2, document, sizeof document, &r) == BSONRAW_FAULT, mixed[at].text, "it is read");
        expect(r.json_reason == BSONRAW_JSON_MALFORMED && r.wrapper == mixed[at].wrapper, mixed[at].text, "another wrapper");
    }
    for (at = 0; at < sizeof tops / sizeof *tops; at++)
        expect(bsonraw_from_json(TEXT(tops[at]), 256, 9, document, sizeof document, &r) == BSONRAW_OK, tops[at], "it isn't read");
}

/* A room of just the document's size, one byte less, and none; and limits likewise. */
static void fits(void) {
    static const char text[] = "{\"a\": [1, {}]}";
    uint8_t document[40], again[40];
    struct bsonraw_json_report r;
    size_t len, room;
    expect(BSONRAW_FROM_JSON("{\"a\": [1, {}]}", document, &r) == BSONRAW_OK, text, "it isn't read");
    len = (size_t)r.count;
    for (room = 0; room < len + 2; room++) {
        int32_t status;
        size_t at;
        memset(again, 0xa5, sizeof again);
        status = bsonraw_from_json(TEXT(text), len, 3, again, room, &r);
        expect(status == (room < len ? BSONRAW_SMALL_BUFFER : BSONRAW_OK) && r.count == len, text, "another status with other room");
        expect(room < len || memcmp(document, again, len) == 0, text, "another document with other room");
        for (at = room < len ? 0 : len; at < sizeof again; at++) expect(again[at] == 0xa5, text, "a byte is written that isn't to be written");
    }
    expect(bsonraw_from_json(TEXT(text), len - 1, 3, again, sizeof again, &r) == BSONRAW_TOO_MANY_BYTES && r.json_reason == 0 && r.line == 1, text,
           "a byte less is no limit");
    expect(bsonraw_from_json(TEXT(text), len, 2, again, sizeof again, &r) == BSONRAW_TOO_DEEP && r.json_reason == 0 && r.column == 11, text,
           "a level less is no limit");
}

int main(void) {
    for (size_t at = 0; at < sizeof rows / sizeof *rows; at++) has_bytes(&rows[at]);
    say_reasons();
    say_wrappers();
    say_places();
    fits();
    return result("from_json");
}

// bsonraw.hpp: views, elements, results and the buffer, beside a document written by hand.
#include <bsonraw.hpp>

#include <algorithm>
#include <cstdio>
#include <limits>

static int wrong;

static void expect(bool is_so, const char *what) {
    if (!is_so) wrong++, std::fprintf(stderr, "hpp: %s\n", what);
}

// Whether a view is made of a value of this type.
template <class T>
inline constexpr bool is_viewed = std::is_constructible_v<bsonraw::view, T>;

static_assert(is_viewed<std::vector<uint8_t> &> && is_viewed<const std::vector<uint8_t> &> && is_viewed<std::string_view> && is_viewed<std::string &>);
static_assert(!is_viewed<std::vector<uint8_t>> && !is_viewed<const std::vector<uint8_t>> && !is_viewed<std::string>);

// Whether a buffer takes a value of this type.
template <class T, class = void>
struct takes : std::false_type {};
template <class T>
struct takes<T, std::void_t<decltype(std::declval<bsonraw::buffer &>().append("k", std::declval<T>()))>> : std::true_type {};

static_assert(takes<bool>::value && takes<const char *>::value && takes<char *>::value && takes<std::string>::value && takes<std::nullptr_t>::value);
static_assert(takes<char>::value && takes<unsigned short>::value && takes<unsigned long>::value && takes<long long>::value && takes<float>::value);
static_assert(takes<std::chrono::system_clock::time_point>::value && takes<bsonraw::timestamp>::value && takes<bsonraw::decimal128>::value && takes<bsonraw::regex>::value);
static_assert(!takes<const unsigned char *>::value && !takes<void *>::value && !takes<int *>::value && !takes<std::vector<bool>>::value);

// Whether an element is set to a value of this type.
template <class T, class = void>
struct is_set : std::false_type {};
template <class T>
struct is_set<T, std::void_t<decltype(std::declval<bsonraw::edits &>().set("k", std::declval<T>()))>> : std::true_type {};

static_assert(is_set<bool>::value && is_set<char>::value && is_set<unsigned>::value && is_set<long long>::value && is_set<size_t>::value && is_set<float>::value);
static_assert(is_set<bsonraw::oid>::value && is_set<bsonraw::binary>::value && is_set<std::vector<uint8_t> &>::value && is_set<std::string>::value);
static_assert(!is_set<const unsigned char *>::value && !is_set<void *>::value && !is_set<int *>::value && !is_set<std::vector<uint8_t>>::value);

// {"a": 7, "l": [true, "x"], "n": {"i": an ObjectId}}
static const unsigned char sample[] = "\70\0\0\0\20a\0\7\0\0\0\4l\0\22\0\0\0\0100\0\1\0021\0\2\0\0\0x\0\0\3n\0\24\0\0\0\7i\0abcdefghijkl\0";

// Values of the other kinds, there and back; the text is that of Extended JSON.
static void look_at_kinds() {
    const auto time = std::chrono::system_clock::time_point(std::chrono::milliseconds(1356351330501));
    const std::string_view key = std::string_view("timestamp").substr(0, 4), pattern = std::string_view("^a.*").substr(0, 2);
    auto half = bsonraw::decimal128::of("0.5"), none = bsonraw::decimal128::of("half");
    bsonraw::buffer b;
    b.append(key, time).append("ts", bsonraw::timestamp{7, 8}).append("d", *half).append("r", bsonraw::regex{pattern, "i"}).append(std::string("s"), "text");
    auto doc = b.finish();
    expect(half && !none && none.status() == BSONRAW_FAULT && *half->text() == "0.5", "a decimal");
    expect(doc && *doc->json() == "{\"time\":{\"$date\":\"2012-12-24T12:15:30.501Z\"},\"ts\":{\"$timestamp\":{\"t\":7,\"i\":8}},\"d\":{\"$numberDecimal\":\"0.5\"},"
                                "\"r\":{\"$regularExpression\":{\"pattern\":\"^a\",\"options\":\"i\"}},\"s\":\"text\"}", "values of other kinds");
    expect(doc->get<std::chrono::system_clock::time_point>("time").value_or({}) == time, "a time of the clock");
    expect(!doc->get<std::chrono::system_clock::time_point>("s") && !doc->get<bsonraw::timestamp>("s") && !doc->get<bsonraw::decimal128>("s") && !doc->get<bsonraw::regex>("s"), "a text as another kind");
    expect(doc->get<bsonraw::timestamp>("ts").value_or({}) == bsonraw::timestamp{7, 8} && bsonraw::timestamp{7, 8} != bsonraw::timestamp{8, 8} && bsonraw::timestamp{7, 8} != bsonraw::timestamp{7, 7}, "a timestamp");
    expect(doc->get<bsonraw::decimal128>("d").value_or({}) == *half && *half != bsonraw::decimal128(), "a decimal that is read");
    expect(doc->get<bsonraw::regex>("r").value_or({}) == bsonraw::regex{"^a", "i"} && bsonraw::regex{"^a", "i"} != bsonraw::regex{"^a", ""}, "a regular expression");
    expect(doc->get<std::string>("s").value_or("") == "text" && doc->get<std::string>("d").status() == BSONRAW_OTHER_KIND, "a text of its own");
    auto far = bsonraw::from_json("{\"t\": {\"$date\": {\"$numberLong\": \"9223372036854775807\"}}}");
    expect(bsonraw::view(*far).get<bsonraw::date_time>("t").value_or({}).time_since_epoch().count() == INT64_MAX, "a far time");
    if (std::chrono::system_clock::period::den > 1000)
        expect(bsonraw::view(*far).get<std::chrono::system_clock::time_point>("t").status() == BSONRAW_OTHER_KIND, "a time that no clock reaches");
    b.reset().append(std::string_view("a\0b", 3), 1);
    expect(b.status() == BSONRAW_FAULT, "a key with a 0");
}

// Views that are compared, several paths, changes, and a level that isn't ended.
static void look_at_changes() {
    auto one = bsonraw::from_json("{\"a\": 1, \"n\": {\"s\": \"x\", \"l\": [1, 2]}}"), again = bsonraw::from_json("{\"a\": 7, \"n\": {\"s\": \"x\", \"l\": [1, 2]}, \"a\": 1}");
    bsonraw::view doc(*one), other(*again);
    expect(doc == bsonraw::view(*one) && doc != other && bsonraw::view() == bsonraw::view(), "views");
    expect(doc.is_same_tree(doc).value_or(false) && !doc.is_same_tree(doc.get<bsonraw::view>("n").value_or({})).value_or(true) && !doc.is_same_tree({}), "trees");
    bsonraw::edits back;
    bsonraw::buffer b;
    auto same = b.edit(other, back.set("a", 1)).finish();
    expect(same && same->is_same_tree(doc).value_or(false) && *same != doc && back.count(0) == 2, "one tree of other bytes");
    auto found = doc.find_many({"n.s", "a", "x"});
    expect(found.size() == 3 && found[0] && doc.text(*found[0]) == "x" && found[1] && found[1]->integer == 1 && found[2].status() == BSONRAW_NONE, "several paths");
    bsonraw::edits changes;
    changes.remove("a").rename("n.s", "name").set("n.l.0", "first").set("t", true).set("i", int64_t{5}).set("d", 0.5).set("z", nullptr);
    changes.set("w", bsonraw::date_time(std::chrono::milliseconds(1))).set("v", *doc.get<bsonraw::view>("n.l")).set("e", *doc.find("n.s"));
    auto edited = b.reset().edit(doc, changes).finish();
    expect(edited && *edited->json() == "{\"n\":{\"name\":\"x\",\"l\":[\"first\",2]},\"t\":true,\"i\":5,\"d\":0.5,\"z\":null,"
                                      "\"w\":{\"$date\":\"1970-01-01T00:00:00.001Z\"},\"v\":[1,2],\"e\":\"x\"}", "changes");
    expect(changes.size() == 10 && changes.count(0) == 1 && changes.data()->count == 1, "how many were changed");
    expect(b.reset().begin_array("l").append(nullptr, 1).finish().status() == BSONRAW_MISUSE && !b.document(), "a level that isn't ended");
}

// Elements that are set to values of each kind; paths with a 0 in them.
static void look_at_sets() {
    auto one = bsonraw::from_json("{\"a\": 1, \"b\": 2}");
    bsonraw::view doc(*one);
    const auto time = std::chrono::system_clock::time_point(std::chrono::milliseconds(-1)) - std::chrono::system_clock::duration(1);
    const uint8_t two[] = {1, 2}, other[] = {1, 3};
    const bsonraw::binary part{128, two, 2};
    expect(part == bsonraw::binary{128, two, 2} && bsonraw::binary() == bsonraw::binary(), "equal binaries");
    expect(part != bsonraw::binary{128, other, 2} && part != bsonraw::binary{0, two, 2} && part != bsonraw::binary{128, two, 1}, "other binaries");
    bsonraw::buffer b;
    bsonraw::edits each;
    each.set("a", 4000000000u).set("b", -5LL).set("h", short{-2}).set("t", time).set("s", bsonraw::timestamp{7, 8});
    each.set("d", *bsonraw::decimal128::of("0.5")).set("i", bsonraw::oid{1, 2}).set("r", bsonraw::regex{"^a", "i"}).set("e", bsonraw::regex{}).set("v", std::string("t\0x", 3)).set("p", part);
    auto set = b.edit(doc, each).finish();
    expect(set && *set->json(true) == "{\"a\":{\"$numberLong\":\"4000000000\"},\"b\":{\"$numberLong\":\"-5\"},\"h\":{\"$numberInt\":\"-2\"},"
                                    "\"t\":{\"$date\":{\"$numberLong\":\"-2\"}},\"s\":{\"$timestamp\":{\"t\":7,\"i\":8}},\"d\":{\"$numberDecimal\":\"0.5\"},"
                                    "\"i\":{\"$oid\":\"010200000000000000000000\"},\"r\":{\"$regularExpression\":{\"pattern\":\"^a\",\"options\":\"i\"}},"
                                    "\"e\":{\"$regularExpression\":{\"pattern\":\"\",\"options\":\"\"}},\"v\":\"t\\u0000x\",\"p\":{\"$binary\":{\"base64\":\"AQI=\",\"subType\":\"80\"}}}",
           "values of each kind are set");
    bsonraw::edits most, over, none, cut, renamed;
    expect(b.reset().edit(doc, most.set("a", std::numeric_limits<uint64_t>::max() / 2)).finish()->get<int64_t>("a").value_or(0) == INT64_MAX, "the greatest int64 is set");
    expect(b.reset().edit(doc, over.set("a", std::numeric_limits<uint64_t>::max())).status() == BSONRAW_OTHER_KIND, "a number is set that no int64 is");
    expect(b.reset().edit(doc, none.set("a", static_cast<const char *>(nullptr))).status() == BSONRAW_NULL, "no text is set");
    expect(b.reset().edit(doc, cut.remove(std::string_view("a\0b", 3))).finish().value_or({}) == doc && cut.count(0) == 0, "what a path with a 0 removes");
    expect(b.reset().edit(doc, renamed.rename("a", std::string_view("x\0y", 3))).status() == BSONRAW_FAULT, "a new key with a 0");
    expect(doc.find_many({std::string("a\0b", 3), "a"})[0].status() == BSONRAW_NONE, "what is found at a path with a 0");
    expect(doc.find(std::string_view("a\0b", 3)).status() == BSONRAW_NONE, "an element at a path with a 0");
}

// Documents of a file, of which one is damaged.
static void look_at_stream() {
    auto one = bsonraw::from_json("{\"a\": 1}");
    std::FILE *file = std::tmpfile();
    for (int i = 0; i < 3; i++) std::fwrite(one->data(), 1, one->size(), file), i == 0 ? (void)std::fwrite("\3\0\0\0", 1, 4, file) : (void)0;
    for (int by_file = 0; by_file < 2; by_file++) {
        std::rewind(file);
        bsonraw::stream s(file);
        if (by_file == 0) s.max_bytes(100);
        int read = 0, damaged = 0;
        for (;;) {
            auto doc = s.read();
            if (doc) read++, expect(*doc == bsonraw::view(*one), "a document of a file");
            else if (doc.status() == BSONRAW_NO_DOCUMENT) damaged += s.error().reason == BSONRAW_LENGTH_INCORRECT && s.offset() == one->size() && s.resync(100) == BSONRAW_OK;
            else break;
        }
        expect(read == 3 && damaged == 1, "a damaged file");
    }
    std::rewind(file);
    bsonraw::stream small(fileno(file));
    auto doc = small.read();
    expect(doc && *doc == bsonraw::view(*one), "a document by a descriptor");
    std::rewind(file);
    bsonraw::stream smaller(file);
    smaller.max_bytes(11);
    expect(smaller.read().status() == BSONRAW_TOO_MANY_BYTES, "a limit");
    std::fclose(file);
}

int main() {
    look_at_kinds();
    look_at_changes();
    look_at_sets();
    look_at_stream();
    const bsonraw::oid id = {'a', 'b', 'c', 'd', 'e', 'f', 'g', 'h', 'i', 'j', 'k', 'l'};
    bsonraw::buffer b;
    b.append("a", 7).begin_array("l").append(nullptr, true).append(nullptr, "x").end().begin_document("n").append("i", id).end();
    expect(b.document().status() == BSONRAW_MISUSE, "a document that isn't finished");
    auto built = b.finish();
    expect(built && built->size() == sizeof sample && std::memcmp(built->data(), sample, sizeof sample) == 0, "another document is built");
    bsonraw::view doc(sample, sizeof sample);
    std::string keys;
    for (auto e : doc) keys += e.key(), expect(e.status() == BSONRAW_OK, "an element");
    expect(keys == "aln", "other keys");
    expect(doc.get<int32_t>("a").value_or(0) == 7 && doc.get<int64_t>("a").value_or(0) == 7, "a");
    expect(doc.get<double>("a").value_or(0) > 6, "a as a double");
    expect(doc.get<bool>("l.0").value_or(false), "l.0");
    expect(doc.get<std::string_view>("l.1").value_or("") == "x", "l.1");
    expect(doc.get<std::string_view>("a").status() == BSONRAW_OTHER_KIND, "a as a text");
    expect(doc.get<bsonraw::oid>("n.i").value_or({}) == id, "n.i");
    auto list = doc.get<bsonraw::view>("l");
    expect(list && (*(*list).begin()).tag() == BSONRAW_TAG_BOOLEAN && !doc.get<bsonraw::view>("a"), "l");
    expect(doc.get<bool>("x").status() == BSONRAW_NONE && !doc.has("x") && doc.has("n"), "x");
    expect((*doc.find("n")).value()->text_len == 20, "the value of n");
    expect(*doc.json() == "{\"a\":7,\"l\":[true,\"x\"],\"n\":{\"i\":{\"$oid\":\"6162636465666768696a6b6c\"}}}", "a text");
    expect(doc.json(true, true)->size() > 80, "a long text");
    expect(doc.json(true)->find("\"a\":{\"$numberInt\":\"7\"}") == 1 && doc.json(true)->find('\n') == std::string::npos, "a canonical text");
    expect((*doc.find("a")).json(true).value_or("") == "{\"$numberInt\":\"7\"}" && (*doc.find("l")).json(false, true)->find('\n') == 1, "a text of each form");
    expect(*(*doc.find("l")).json() == "[true,\"x\"]" && *(*doc.find("l.0")).json() == "true", "the text of l");
    expect(*(*doc.find("n")).json(true, true) == "{\n  \"i\": {\"$oid\":\"6162636465666768696a6b6c\"}\n}", "the text of n");
    expect(*doc.canonical() == std::vector<uint8_t>(sample, sample + sizeof sample), "a form");
    keys.clear();
    for (auto e : *doc.get<bsonraw::view>("l")) keys += e.key();
    for (const auto &e : *b.document()) keys += e.key();
    expect(keys == "01aln", "the keys of what a call returns");
    const std::string &kept = *doc.json();
    expect(kept == doc.json().value_or("") && kept.size() > 60, "a text that a call returns");
    expect(std::distance(doc.begin(), doc.end()) == 3 && std::distance(list->begin(), list->end()) == 2, "how many there are");
    expect(std::find_if(doc.begin(), doc.end(), [](const bsonraw::element &e) { return e.key() == "n"; }) != doc.end(), "an element by its key");
    auto here = doc.begin(), before = here++;
    expect(before == doc.begin() && here != before && (*before).key() == "a" && (*here).key() == "l" && ++before == here, "two places");
    int stops = 0, steps = 0;
    for (auto e : bsonraw::view(reinterpret_cast<const uint8_t *>("\11\0\0\0\12x\0\5"), 9))
        steps++, stops += e.status() == BSONRAW_FAULT && e.error().kind == BSONRAW_MALFORMED && e.error().offset == 7;
    expect(steps == 2 && stops == 1, "a stop");
    for (auto e : bsonraw::view()) expect(e.status() == BSONRAW_NO_DOCUMENT, "no document"), steps++;
    expect(steps == 3, "no document");
    expect(bsonraw::view(sample, 5).first_fault().status() == BSONRAW_NO_DOCUMENT, "a fault");
    const std::vector<uint8_t> form = *doc.canonical();
    expect(bsonraw::view(form).size() == sizeof sample, "a vector");
    bsonraw::view empty(std::string_view("\5\0\0\0", 5));
    expect(empty.first_fault() && !(empty.begin() != empty.end()), "an empty document");
    bsonraw::buffer kinds;
    kinds.append("l", int64_t{6}).append("d", 1.5).append("z", nullptr).append("v", empty).append_date_time("t", 1);
    kinds.append_binary("b", 128, "xy", 2).append("s", std::string(99, 'x')).concat(doc);
    auto whole = kinds.finish();
    expect((*(*whole).find("s")).json()->size() == 101, "a text that is longer than most");
    expect(whole->json(true)->find("{\"l\":{\"$numberLong\":\"6\"},\"d\":{\"$numberDouble\":\"1.5\"},\"z\":null,\"v\":{},\"t\":{\"$date\":"
                                   "{\"$numberLong\":\"1\"}},\"b\":{\"$binary\":{\"base64\":\"eHk=\",\"subType\":\"80\"}},\"s\":\"xxx") == 0 && whole->has("n.i"),
           "a document of each kind");
    bsonraw::buffer copy;
    for (auto e : doc) copy.append(e);
    (void)copy.finish();
    bsonraw::buffer moved(std::move(copy));
    expect(moved.document() && moved.document()->size() == sizeof sample && copy.document().status() == BSONRAW_MISUSE, "a copy that was moved");
    (void)copy.append("x", 1).begin_document("y").end().finish();
    expect(copy.status() == BSONRAW_BAD_OFFSET && copy.reset().finish(), "a buffer that was moved from");
    (void)copy.reset().append("d", doc).append("l", *list).append("e", *doc.get<bsonraw::view>("n")).finish();
    expect(list->tag() == BSONRAW_TAG_ARRAY && doc.tag() == BSONRAW_TAG_DOCUMENT && copy.document()->get<bsonraw::view>("l")->tag() == BSONRAW_TAG_ARRAY &&
               copy.document()->get<bsonraw::view>("e")->tag() == BSONRAW_TAG_DOCUMENT && copy.document()->json()->find("\"l\":[true,\"x\"],\"e\":{\"i\"") != std::string::npos,
           "an array");
    copy.reset().append(std::string("i"), short{-1}).append("u", 4000000000u).append("z", sizeof sample).append("n", -5LL).append("f", 2.5f);
    (void)copy.finish();
    expect(copy.document()->json(true)->find("{\"i\":{\"$numberInt\":\"-1\"},\"u\":{\"$numberLong\":\"4000000000\"},\"z\":{\"$numberLong\":\"56\"},"
                                             "\"n\":{\"$numberLong\":\"-5\"},\"f\":{\"$numberDouble\":\"2.5\"}") == 0,
           "numbers of each type");
    expect(copy.reset().append("m", std::numeric_limits<uint64_t>::max() / 2).status() == BSONRAW_OK, "the greatest int64");
    expect(copy.append("m", std::numeric_limits<uint64_t>::max() / 2 + 1).status() == BSONRAW_OTHER_KIND, "a number that no int64 is");
    expect(copy.reset().append(std::string("a\0b", 3), 1).status() == BSONRAW_FAULT, "a key with a 0");
    copy = std::move(moved);
    expect(copy.document() && copy.document()->size() == sizeof sample, "a buffer that was moved to");
    (void)copy.reset().append("x", std::string_view("\xff")).finish();
    expect(copy.status() == BSONRAW_FAULT && std::string_view(copy.document().text()) == "a fault", "a text that isn't UTF-8");
    const bsonraw::date_time second{std::chrono::milliseconds(1000)};
    auto read = bsonraw::from_json("{\"t\": {\"$date\": \"1970-01-01T00:00:01Z\"}, \"b\": {\"$binary\": {\"base64\": \"AQI=\", \"subType\": \"80\"}}}");
    bsonraw::view dated(*read);
    auto part = dated.get<bsonraw::binary>("b");
    expect(read && dated.get<bsonraw::date_time>("t").value_or({}) == second && !dated.get<bsonraw::date_time>("b"), "a date");
    expect(part && part->subtype == 128 && part->size == 2 && part->data[0] == 1 && part->data[1] == 2 && !dated.get<bsonraw::binary>("t"), "a binary");
    (void)copy.reset().append("t", second).append("b", *part).finish();
    expect(copy.document() && std::equal(read->begin(), read->end(), copy.document()->data(), copy.document()->data() + copy.document()->size()), "both again");
    bsonraw_json_report why = {};
    expect(bsonraw::from_json("{\"a\": [1, true],\n \"b\": tru}", &why).status() == BSONRAW_FAULT && why.line == 2, "where a text is wrong");
    std::string zeros = "{\"d\":[0";
    for (int count = 1; count < 100; count++) zeros += ",0";
    auto large = bsonraw::from_json(zeros + "]}"); // of 207 bytes, with elements of seven bytes and of eight
    expect(large && large->size() == 803 && bsonraw::view(*large).get<int32_t>("d.99").value_or(1) == 0, "a document that is longer than its text");
    std::printf("hpp: %d wrong\n", wrong);
    return wrong != 0;
}

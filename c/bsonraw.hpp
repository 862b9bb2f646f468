// bsonraw.hpp: bsonraw.h for C++17. Views don't own the bytes that they name; a buffer owns the document that it builds. Nothing here
// throws but what takes memory of std::string: a call that may find nothing returns a result, which is a value or the status that says why
// there is none. Tested, not proved, over the functions of bsonraw.h. A view of a vector or a text that is a temporary doesn't compile.
#ifndef BSONRAW_HPP
#define BSONRAW_HPP

#include <bsonraw.h>

#include <array>
#include <chrono>
#include <cstddef>
#include <cstdio>
#include <cstring>
#include <iterator>
#include <limits>
#include <list>
#include <string>
#include <string_view>
#include <type_traits>
#include <utility>
#include <vector>

namespace bsonraw {

// A value, or the status that says why there is none, of enum bsonraw_status.
template <class T>
class [[nodiscard]] result {
public:
    result(int32_t status, T value) : status_(status), value_(std::move(value)) {}
    explicit operator bool() const noexcept { return status_ == BSONRAW_OK; }
    int32_t status() const noexcept { return status_; }
    const char *text() const noexcept { return bsonraw_status_text(status_); }
    // A result that is kept shows its value; one that isn't kept gives it away, as to a loop over what a call returns.
    const T &operator*() const & noexcept { return value_; }
    T operator*() && { return std::move(value_); }
    const T *operator->() const noexcept { return &value_; }
    T value_or(T other) const { return *this ? value_ : other; }

private:
    int32_t status_;
    T value_;
};

using oid = std::array<uint8_t, 12>;

// Milliseconds from 1970 on.
using date_time = std::chrono::time_point<std::chrono::system_clock, std::chrono::milliseconds>;

// The bytes of a binary, which somebody else owns, and its subtype.
struct binary {
    uint8_t subtype = 0;
    const uint8_t *data = nullptr;
    size_t size = 0;
    bool operator==(const binary &other) const noexcept {
        return subtype == other.subtype && size == other.size && (size == 0 || std::memcmp(data, other.data, size) == 0);
    }
    bool operator!=(const binary &other) const noexcept { return !(*this == other); }
};

// Seconds from 1970 on, and a number among those of one second.
struct timestamp {
    uint32_t time = 0;
    uint32_t increment = 0;
    bool operator==(const timestamp &other) const noexcept { return time == other.time && increment == other.increment; }
    bool operator!=(const timestamp &other) const noexcept { return !(*this == other); }
};

// The sixteen bytes of a Decimal128.
struct decimal128 {
    std::array<uint8_t, 16> bytes = {};
    // As 1.50 or NaN.
    result<std::string> text() const {
        char room[BSONRAW_DECIMAL128_TEXT] = "";
        int32_t status = bsonraw_decimal128_to_text(bytes.data(), room);
        return {status, room};
    }
    // What such a text writes; it has no 0.
    static result<decimal128> of(const std::string &text) noexcept {
        decimal128 own;
        int32_t status = bsonraw_decimal128_from_text(text.c_str(), own.bytes.data());
        return {status, own};
    }
    bool operator==(const decimal128 &other) const noexcept { return bytes == other.bytes; }
    bool operator!=(const decimal128 &other) const noexcept { return !(*this == other); }
};

// The pattern and the options of a regular expression, which somebody else owns.
struct regex {
    std::string_view pattern = {};
    std::string_view options = {};
    bool operator==(const regex &other) const noexcept { return pattern == other.pattern && options == other.options; }
    bool operator!=(const regex &other) const noexcept { return !(*this == other); }
};

class view;

// What C takes for a key or a path: the text; for one with a 0 in it, a text that no element has and that is refused as a key.
template <class Text>
const char *without_nul(const Text &text, const char *kept) noexcept {
    return text.find('\0') == Text::npos ? kept : "\xff";
}

// Whether a type is an integer, which a bool isn't; and the kind that it is written as, where it fits.
template <class T>
inline constexpr bool is_integer = std::is_integral_v<T> && !std::is_same_v<T, bool>;
template <class T>
using integer_kind = std::conditional_t<std::numeric_limits<T>::digits <= 31, int32_t, int64_t>;
template <class T>
constexpr bool fits(T number) noexcept {
    if constexpr (std::numeric_limits<T>::digits > 63) return number <= static_cast<T>(std::numeric_limits<int64_t>::max());
    else return (void)number, true;
}

inline uint32_t json_flags(bool canonical, bool indented) noexcept {
    return (canonical ? static_cast<uint32_t>(BSONRAW_JSON_CANONICAL) : 0u) | (indented ? static_cast<uint32_t>(BSONRAW_JSON_INDENTED) : 0u);
}

// An element of a document, where it is in the bytes; or a stop, whose status is BSONRAW_FAULT.
class element {
public:
    element() = default;
    element(const uint8_t *bytes, size_t len, const bsonraw_iter &it, int32_t status) : bytes_(bytes), len_(len), it_(it), status_(status) {}
    int32_t status() const noexcept { return status_; }
    uint32_t tag() const noexcept { return it_.tag; }
    const bsonraw_error &error() const noexcept { return it_.error; }
    const bsonraw_iter &iter() const noexcept { return it_; }
    const uint8_t *bytes() const noexcept { return bytes_; }
    size_t len() const noexcept { return len_; }
    std::string_view key() const noexcept {
        return it_.key_at < len_ ? std::string_view(reinterpret_cast<const char *>(bytes_) + it_.key_at, it_.key_len) : std::string_view();
    }
    result<bsonraw_value> value() const noexcept {
        bsonraw_value value = {};
        int32_t status = bsonraw_iter_value(&it_, bytes_, len_, &value);
        return {status, value};
    }
    // The value as Extended JSON.
    result<std::string> json(bool canonical = false, bool indented = false, size_t max_depth = 500) const {
        std::string text(64, '\0');
        bsonraw_report report = {};
        int32_t status = BSONRAW_SMALL_BUFFER;
        for (int turn = 0; turn < 2 && status == BSONRAW_SMALL_BUFFER; turn++) {
            text.resize(text.size() + report.count);
            status = bsonraw_iter_json(&it_, bytes_, len_, max_depth, json_flags(canonical, indented), text.data(), text.size(), &report);
        }
        text.resize(status == BSONRAW_OK ? report.count : 0);
        return {status, std::move(text)};
    }
    // The value where it is of the kind of T: int32_t, int64_t and long long (an int32 too), double (an int32 or an int64 too), bool,
    // std::string_view, std::string, oid, date_time and std::chrono::system_clock::time_point, timestamp, decimal128, binary, regex, or view
    // of a document or an array.
    template <class T>
    result<T> as() const;

private:
    const uint8_t *bytes_ = nullptr;
    size_t len_ = 0;
    bsonraw_iter it_ = {};
    int32_t status_ = BSONRAW_NONE;
};

// The bytes of a document, or of an array that was taken from one, whatever they are, which somebody else owns. json prints an array's
// elements as those of a document; that of its element prints an array.
class view {
public:
    class iterator {
    public:
        using iterator_category = std::input_iterator_tag;
        using value_type = element;
        using difference_type = std::ptrdiff_t;
        using pointer = void;
        using reference = element;

        iterator() = default;
        iterator(const uint8_t *bytes, size_t len) : bytes_(bytes), len_(len), status_(bsonraw_iter_init(&it_, bytes, len)) {
            if (status_ == BSONRAW_OK) step();
        }
        element operator*() const noexcept { return {bytes_, len_, it_, status_}; }
        iterator &operator++() noexcept {
            if (status_ == BSONRAW_OK) step();
            else status_ = BSONRAW_NONE;
            return *this;
        }
        iterator operator++(int) noexcept {
            iterator before = *this;
            ++*this;
            return before;
        }
        bool operator==(const iterator &other) const noexcept {
            if (status_ == BSONRAW_NONE || other.status_ == BSONRAW_NONE) return status_ == other.status_; // the end
            return bytes_ == other.bytes_ && it_.next == other.it_.next && status_ == other.status_;
        }
        bool operator!=(const iterator &other) const noexcept { return !(*this == other); }

    private:
        void step() noexcept { status_ = bsonraw_iter_next(&it_, bytes_, len_); }
        const uint8_t *bytes_ = nullptr;
        size_t len_ = 0;
        bsonraw_iter it_ = {};
        int32_t status_ = BSONRAW_NONE;
    };

    view() = default;
    view(const uint8_t *data, size_t size, uint32_t tag = BSONRAW_TAG_DOCUMENT) noexcept : data_(data), size_(size), tag_(tag) {}
    view(const std::vector<uint8_t> &bytes) noexcept : view(bytes.data(), bytes.size()) {}
    view(const std::vector<uint8_t> &&) = delete; // the bytes are gone before the view is used
    explicit view(std::string &&) = delete;
    explicit view(std::string_view bytes) noexcept : view(reinterpret_cast<const uint8_t *>(bytes.data()), bytes.size()) {}
    const uint8_t *data() const noexcept { return data_; }
    size_t size() const noexcept { return size_; }
    uint32_t tag() const noexcept { return tag_; } // BSONRAW_TAG_DOCUMENT or BSONRAW_TAG_ARRAY

    // The elements. Where they end with a stop, or the bytes are no document, the last one has its status.
    iterator begin() const noexcept { return {data_, size_}; }
    iterator end() const noexcept { return {}; }

    // The element at a path, as authors.0.name.
    result<element> find(std::string_view path) const noexcept {
        bsonraw_iter it = {};
        int32_t status = bsonraw_iter_init(&it, data_, size_);
        if (status == BSONRAW_OK)
            status = bsonraw_iter_find_descendant(&it, data_, size_, reinterpret_cast<const uint8_t *>(path.data()), path.size(), '.');
        return {status, element(data_, size_, it, status)};
    }
    // The value at a path, as element::as has it.
    template <class T>
    result<T> get(std::string_view path) const {
        result<element> found = find(path);
        return found ? found->template as<T>() : result<T>(found.status(), T());
    }
    bool has(std::string_view path) const noexcept { return bool(find(path)); }
    // The values at several paths, in one walk: of each path its value, or the status that says why there is none.
    std::vector<result<bsonraw_value>> find_many(const std::vector<std::string> &paths) const {
        std::vector<bsonraw_field> fields(paths.size());
        for (size_t i = 0; i < paths.size(); i++) fields[i].path = without_nul(paths[i], paths[i].c_str());
        (void)!bsonraw_find_many(data_, size_, fields.data(), fields.size());
        std::vector<result<bsonraw_value>> values;
        for (const bsonraw_field &field : fields) values.emplace_back(field.status, field.value);
        return values;
    }
    // The text of a value that find_many gave.
    std::string_view text(const bsonraw_value &value) const noexcept {
        return value.text_at < size_ ? std::string_view(reinterpret_cast<const char *>(data_) + value.text_at, value.text_len) : std::string_view();
    }
    // Whether both are the same bytes; is_same_tree also takes what differs in bytes alone.
    bool operator==(const view &other) const noexcept {
        return size_ == other.size_ && (size_ == 0 || std::memcmp(data_, other.data_, size_) == 0);
    }
    bool operator!=(const view &other) const noexcept { return !(*this == other); }
    // Whether both have one canonical form; else the status that says why one of them has none.
    result<bool> is_same_tree(view other) const noexcept {
        int32_t is_equal = 0, status = bsonraw_equal(data_, size_, other.data_, other.size_, &is_equal);
        return {status, is_equal != 0};
    }

    // The first fault, at any level.
    result<bsonraw_report> first_fault(size_t max_depth = 500) const noexcept {
        bsonraw_report report = {};
        int32_t status = bsonraw_first_fault(data_, size_, SIZE_MAX, max_depth, &report, nullptr, 0);
        return {status, report};
    }
    result<std::vector<uint8_t>> canonical(size_t max_depth = 500) const {
        return filled<std::vector<uint8_t>>(0, [&](uint8_t *room, size_t len, bsonraw_report *report) {
            return bsonraw_canonical(data_, size_, SIZE_MAX, max_depth, room, len, report, nullptr, 0);
        });
    }
    result<std::string> json(bool canonical = false, bool indented = false, size_t max_depth = 500) const {
        return filled<std::string>(1, [&](uint8_t *room, size_t len, bsonraw_report *report) {
            return bsonraw_json(data_, size_, SIZE_MAX, max_depth, canonical, indented, room, len, report, nullptr, 0);
        });
    }

private:
    // What a call puts into room, which grows where the call needs more. It has `extra` bytes after that, which are left out again.
    template <class T, class Call>
    result<T> filled(size_t extra, Call call) const {
        T room(size_ + 64, 0);
        bsonraw_report report = {};
        int32_t status = call(reinterpret_cast<uint8_t *>(room.data()), room.size(), &report);
        if (status == BSONRAW_SMALL_BUFFER) {
            room.resize(report.count + extra);
            status = call(reinterpret_cast<uint8_t *>(room.data()), room.size(), &report);
        }
        room.resize(status == BSONRAW_OK ? report.count : 0);
        return {status, std::move(room)};
    }
    const uint8_t *data_ = nullptr;
    size_t size_ = 0;
    uint32_t tag_ = BSONRAW_TAG_DOCUMENT;
};

template <class T>
result<T> element::as() const {
    int32_t status;
    if constexpr (std::is_same_v<T, int32_t>) {
        int32_t number;
        status = bsonraw_iter_int32(&it_, bytes_, len_, &number);
        return {status, number};
    } else if constexpr (std::is_same_v<T, int64_t> || std::is_same_v<T, long long> || std::is_same_v<T, long>) {
        static_assert(sizeof(T) == sizeof(int64_t), "no kind of BSON is this type");
        int64_t number;
        status = bsonraw_iter_as_int64(&it_, bytes_, len_, &number);
        return {status, number};
    } else if constexpr (std::is_same_v<T, double>) {
        double number;
        status = bsonraw_iter_as_double(&it_, bytes_, len_, &number);
        return {status, number};
    } else if constexpr (std::is_same_v<T, bool>) {
        int32_t is_true;
        status = bsonraw_iter_bool(&it_, bytes_, len_, &is_true);
        return {status, is_true != 0};
    } else if constexpr (std::is_same_v<T, std::string_view>) {
        const char *text;
        size_t size;
        status = bsonraw_iter_utf8(&it_, bytes_, len_, &text, &size);
        return {status, text == nullptr ? std::string_view() : std::string_view(text, size)};
    } else if constexpr (std::is_same_v<T, std::string>) {
        auto text = as<std::string_view>();
        return {text.status(), std::string(*text)};
    } else if constexpr (std::is_same_v<T, timestamp>) {
        timestamp own;
        status = bsonraw_iter_timestamp(&it_, bytes_, len_, &own.time, &own.increment);
        return {status, own};
    } else if constexpr (std::is_same_v<T, decimal128>) {
        const uint8_t *bytes;
        decimal128 own;
        status = bsonraw_iter_decimal128(&it_, bytes_, len_, &bytes);
        if (bytes != nullptr) std::memcpy(own.bytes.data(), bytes, own.bytes.size());
        return {status, own};
    } else if constexpr (std::is_same_v<T, regex>) {
        const char *pattern, *options;
        status = bsonraw_iter_regex(&it_, bytes_, len_, &pattern, &options);
        return {status, pattern == nullptr ? regex() : regex{pattern, options}};
    } else if constexpr (std::is_same_v<T, oid>) {
        const uint8_t *id;
        oid own = {};
        status = bsonraw_iter_oid(&it_, bytes_, len_, &id);
        if (id != nullptr) std::memcpy(own.data(), id, own.size());
        return {status, own};
    } else if constexpr (std::is_same_v<T, date_time>) {
        int64_t millis;
        status = bsonraw_iter_date_time(&it_, bytes_, len_, &millis);
        return {status, date_time(std::chrono::milliseconds(millis))};
    } else if constexpr (std::is_same_v<T, std::chrono::system_clock::time_point>) {
        auto time = as<date_time>();
        // a clock may count in smaller parts of a second, and reach less far
        constexpr auto most = std::chrono::duration_cast<std::chrono::milliseconds>(T::duration::max()).count();
        const auto millis = (*time).time_since_epoch().count();
        if (millis > most || millis < -most) return {BSONRAW_OTHER_KIND, T()};
        return {time.status(), std::chrono::time_point_cast<typename T::duration>(*time)};
    } else if constexpr (std::is_same_v<T, binary>) {
        uint32_t subtype;
        binary own;
        status = bsonraw_iter_binary(&it_, bytes_, len_, &subtype, &own.data, &own.size);
        own.subtype = static_cast<uint8_t>(subtype);
        return {status, own};
    } else {
        static_assert(std::is_same_v<T, view>, "no kind of BSON is this type");
        const uint8_t *part;
        size_t size;
        status = bsonraw_iter_document(&it_, bytes_, len_, &part, &size);
        if (status == BSONRAW_OTHER_KIND) status = bsonraw_iter_array(&it_, bytes_, len_, &part, &size);
        return {status, view(part, size, it_.tag == BSONRAW_TAG_ARRAY ? BSONRAW_TAG_ARRAY : BSONRAW_TAG_DOCUMENT)};
    }
}

// A key or a path, which a 0 ends: nullptr for a key in an array. A text with a 0 in it is none, and is passed on as one that is refused
// with BSONRAW_FAULT. What has no 0 after it is copied.
class key_text {
public:
    key_text(const char *text) noexcept : own_(), text_(text) {}
    key_text(const std::string &text) noexcept : own_(), text_(without_nul(text, text.c_str())) {}
    key_text(std::string_view text) : own_(text), text_(without_nul(own_, own_.c_str())) {}
    key_text(const key_text &) = delete;
    key_text &operator=(const key_text &) = delete;
    const char *text() const noexcept { return text_; }

private:
    std::string own_;
    const char *text_;
};

// Changes of elements by path, for buffer::edit; as bsonraw_buffer_edit. Paths, keys, texts and numbers are kept here. Values are of the
// types that buffer::append takes.
class edits {
public:
    edits() : texts_(), changes_() {}
    edits &remove(std::string_view path) { return add(bsonraw_change_remove(keep_path(path))); }
    edits &rename(std::string_view path, std::string_view key) {
        const char *kept = keep_path(path);
        return add(bsonraw_change_rename(kept, keep_path(key)));
    }
    edits &set(std::string_view path, int32_t number) { return add(bsonraw_change_int32(keep_path(path), number)); }
    edits &set(std::string_view path, int64_t number) { return add(bsonraw_change_int64(keep_path(path), number)); }
    template <class T, std::enable_if_t<is_integer<T>, int> = 0>
    edits &set(std::string_view path, T number) {
        if (!fits(number)) return add(bsonraw_change_value(keep_path(path), BSONRAW_TAG_INT64, nullptr, 0, nullptr, 0));
        return set(path, static_cast<integer_kind<T>>(number));
    }
    edits &set(std::string_view path, double number) { return add(bsonraw_change_double(keep_path(path), number)); }
    template <class T, std::enable_if_t<std::is_same_v<T, bool>, int> = 0>
    edits &set(std::string_view path, T is_true) { return add(bsonraw_change_bool(keep_path(path), is_true)); }
    edits &set(std::string_view path, std::nullptr_t) { return add(bsonraw_change_null(keep_path(path))); }
    edits &set(std::string_view path, date_time time) { return add(bsonraw_change_date_time(keep_path(path), time.time_since_epoch().count())); }
    edits &set(std::string_view path, std::chrono::system_clock::time_point time) {
        return set(path, std::chrono::floor<std::chrono::milliseconds>(time));
    }
    edits &set(std::string_view path, const timestamp &time) {
        const bsonraw_number number = bsonraw_number_of(uint64_t{time.time} << 32 | time.increment);
        return set_kept(path, BSONRAW_TAG_TIMESTAMP, number.bytes, 8);
    }
    edits &set(std::string_view path, const decimal128 &number) {
        return set_kept(path, BSONRAW_TAG_DECIMAL128, number.bytes.data(), number.bytes.size());
    }
    edits &set(std::string_view path, const oid &id) { return set_kept(path, BSONRAW_TAG_OBJECT_ID, id.data(), id.size()); }
    edits &set(std::string_view path, const regex &expression) {
        const std::string &options = keep(expression.options);
        return set_kept(path, BSONRAW_TAG_REGEX, expression.pattern.data(), expression.pattern.size(), options.data(), options.size());
    }
    edits &set(std::string_view path, const char *text) { return add(bsonraw_change_utf8(keep_path(path), text == nullptr ? nullptr : keep(text).c_str())); }
    edits &set(std::string_view path, std::string_view text) { return set_kept(path, BSONRAW_TAG_STRING, text.data(), text.size()); }
    // A document, an array, a binary, and the value of an element, which are pointed to.
    edits &set(std::string_view path, view part) {
        return add(bsonraw_change_value(keep_path(path), part.tag(), part.data(), part.size(), nullptr, 0));
    }
    edits &set(std::string_view path, const binary &part) {
        const std::string &subtype = keep(std::string_view(reinterpret_cast<const char *>(&part.subtype), 1));
        return add(bsonraw_change_value(keep_path(path), BSONRAW_TAG_BINARY, part.data, part.size, subtype.data(), 1));
    }
    edits &set(std::string_view path, const element &e) { return add(bsonraw_change_iter(keep_path(path), &e.iter(), e.bytes(), e.len())); }

    bsonraw_change *data() noexcept { return changes_.data(); }
    size_t size() const noexcept { return changes_.size(); }
    // How many elements the change of this number changed.
    uint64_t count(size_t number) const { return changes_.at(number).count; }

private:
    const std::string &keep(std::string_view text) { return texts_.emplace_back(text); }
    const char *keep_path(std::string_view text) {
        const std::string &kept = keep(text);
        return without_nul(kept, kept.c_str());
    }
    edits &set_kept(std::string_view path, uint32_t tag, const void *one, size_t one_len, const void *two = nullptr, size_t two_len = 0) {
        const std::string &kept = keep(one_len == 0 ? std::string_view() : std::string_view(static_cast<const char *>(one), one_len));
        return add(bsonraw_change_value(keep_path(path), tag, kept.data(), kept.size(), two, two_len));
    }
    edits &add(const bsonraw_change &change) {
        changes_.push_back(change);
        return *this;
    }
    std::list<std::string> texts_;
    std::vector<bsonraw_change> changes_;
};

// A document that is built, and its memory. An error stays: one look at the end is enough. A key is nullptr in an array. A buffer that was
// moved from refuses what is appended with BSONRAW_BAD_OFFSET, up to reset.
class buffer {
public:
    buffer() noexcept : buffer_() { (void)bsonraw_buffer_init(&buffer_); }
    ~buffer() { bsonraw_buffer_free(&buffer_); }
    buffer(buffer &&other) noexcept : buffer_(std::exchange(other.buffer_, bsonraw_buffer())) {}
    buffer &operator=(buffer &&other) noexcept {
        std::swap(buffer_, other.buffer_);
        return *this;
    }
    buffer(const buffer &) = delete;
    buffer &operator=(const buffer &) = delete;

    // An integer is an int32 where its type has at most 32 bits with a sign, and else an int64; one that no int64 is, is refused with
    // BSONRAW_OTHER_KIND. Of pointers only a text is taken.
    buffer &append(const key_text &key, int32_t number) noexcept { return said(bsonraw_buffer_int32(&buffer_, key.text(), number)); }
    buffer &append(const key_text &key, int64_t number) noexcept { return said(bsonraw_buffer_int64(&buffer_, key.text(), number)); }
    template <class T, std::enable_if_t<is_integer<T>, int> = 0>
    buffer &append(const key_text &key, T number) noexcept {
        if (!fits(number)) return said(bsonraw_buffer_append(&buffer_, BSONRAW_TAG_INT64, key.text(), nullptr, 0, nullptr, 0));
        return append(key, static_cast<integer_kind<T>>(number));
    }
    template <class T, std::enable_if_t<std::is_same_v<T, bool>, int> = 0>
    buffer &append(const key_text &key, T is_true) noexcept { return said(bsonraw_buffer_bool(&buffer_, key.text(), is_true)); }
    buffer &append(const key_text &key, double number) noexcept { return said(bsonraw_buffer_double(&buffer_, key.text(), number)); }
    buffer &append(const key_text &key, std::nullptr_t) noexcept { return said(bsonraw_buffer_null(&buffer_, key.text())); }
    buffer &append(const key_text &key, const char *text) noexcept { return said(bsonraw_buffer_utf8(&buffer_, key.text(), text)); }
    buffer &append(const key_text &key, std::string_view text) noexcept {
        return said(bsonraw_buffer_text(&buffer_, key.text(), text.data(), text.size()));
    }
    buffer &append(const key_text &key, const oid &id) noexcept { return said(bsonraw_buffer_oid(&buffer_, key.text(), id.data())); }
    // A document; or an array, as the view has it.
    buffer &append(const key_text &key, view part) noexcept {
        if (part.tag() == BSONRAW_TAG_ARRAY) return said(bsonraw_buffer_array(&buffer_, key.text(), part.data(), part.size()));
        return said(bsonraw_buffer_document(&buffer_, key.text(), part.data(), part.size()));
    }
    buffer &append(const key_text &key, date_time time) noexcept { return append_date_time(key, time.time_since_epoch().count()); }
    buffer &append(const key_text &key, std::chrono::system_clock::time_point time) noexcept {
        return append_date_time(key, std::chrono::floor<std::chrono::milliseconds>(time).time_since_epoch().count());
    }
    buffer &append(const key_text &key, const timestamp &time) noexcept {
        return said(bsonraw_buffer_timestamp(&buffer_, key.text(), time.time, time.increment));
    }
    buffer &append(const key_text &key, const decimal128 &number) noexcept {
        return said(bsonraw_buffer_decimal128(&buffer_, key.text(), number.bytes.data()));
    }
    buffer &append(const key_text &key, const regex &expression) noexcept {
        return said(bsonraw_buffer_append(&buffer_, BSONRAW_TAG_REGEX, key.text(), expression.pattern.data(), expression.pattern.size(),
                                          expression.options.data(), expression.options.size()));
    }
    buffer &append(const key_text &key, const binary &part) noexcept { return append_binary(key, part.subtype, part.data, part.size); }
    buffer &append(const element &e) noexcept { return said(bsonraw_buffer_iter(&buffer_, &e.iter(), e.bytes(), e.len())); }
    buffer &append_date_time(const key_text &key, int64_t millis) noexcept { return said(bsonraw_buffer_date_time(&buffer_, key.text(), millis)); }
    buffer &append_binary(const key_text &key, uint8_t subtype, const void *data, size_t size) noexcept {
        return said(bsonraw_buffer_binary(&buffer_, key.text(), subtype, data, size));
    }
    buffer &concat(view document) noexcept { return said(bsonraw_buffer_concat(&buffer_, document.data(), document.size())); }
    buffer &begin_document(const key_text &key) noexcept { return said(bsonraw_buffer_begin_document(&buffer_, key.text())); }
    buffer &begin_array(const key_text &key) noexcept { return said(bsonraw_buffer_begin_array(&buffer_, key.text())); }
    // Ends the innermost level.
    buffer &end() noexcept { return said(bsonraw_buffer_end(&buffer_)); }
    // The elements of a document with changes.
    buffer &edit(view document, edits &changes) noexcept {
        return said(bsonraw_buffer_edit(&buffer_, document.data(), document.size(), changes.data(), changes.size()));
    }
    // Finishes the document, where no level is open: a view of it, up to the next call; or the first status that isn't BSONRAW_OK.
    result<view> finish() & noexcept {
        int32_t status = bsonraw_buffer_finish(&buffer_);
        return {status, status == BSONRAW_OK ? view(buffer_.bytes, buffer_.len) : view()};
    }
    // Begins another document, in the same memory if there is some.
    buffer &reset() noexcept {
        return said(buffer_.resize == nullptr ? bsonraw_buffer_init(&buffer_) : bsonraw_buffer_reset(&buffer_));
    }

    int32_t status() const noexcept { return buffer_.status; }
    // The document, once it is finished.
    result<view> document() const & noexcept {
        int32_t status = buffer_.status == BSONRAW_OK && !buffer_.is_ended ? BSONRAW_MISUSE : buffer_.status;
        return {status, status == BSONRAW_OK ? view(buffer_.bytes, buffer_.len) : view()};
    }

private:
    buffer &said(int32_t) noexcept { return *this; }
    bsonraw_buffer buffer_;
};

// Documents one after the other from a file, which somebody else owns: see struct bsonraw_stream.
class stream {
public:
    explicit stream(std::FILE *file) noexcept { (void)bsonraw_stream_from_file(&stream_, file); }
    explicit stream(int fd) noexcept { (void)bsonraw_stream_from_fd(&stream_, fd); }
    ~stream() { bsonraw_stream_free(&stream_); }
    stream(const stream &) = delete;
    stream &operator=(const stream &) = delete;
    // The next document, up to the next call; BSONRAW_NONE at the end.
    result<view> read() noexcept {
        int32_t status = bsonraw_stream_read(&stream_);
        return {status, view(stream_.bytes, stream_.len)};
    }
    // Goes on after damage: see bsonraw_stream_resync.
    [[nodiscard]] int32_t resync(size_t max_bytes, size_t max_depth = 500) noexcept { return bsonraw_stream_resync(&stream_, max_bytes, max_depth); }
    void max_bytes(size_t most) noexcept { stream_.max_bytes = most; }
    uint64_t offset() const noexcept { return stream_.offset; }
    const bsonraw_error &error() const noexcept { return stream_.error; }

private:
    bsonraw_stream stream_ = {};
};

// The document that a text of Extended JSON writes, of any length; else the status and, where that is BSONRAW_FAULT, in *why the line, the
// column and the reason.
inline result<std::vector<uint8_t>> from_json(std::string_view text, bsonraw_json_report *why = nullptr, size_t max_depth = 500) {
    std::vector<uint8_t> room(text.size() + 16);
    bsonraw_json_report report = {};
    int32_t status = BSONRAW_SMALL_BUFFER;
    for (int turn = 0; turn < 2 && status == BSONRAW_SMALL_BUFFER; turn++) {
        if (room.size() < report.count) room.resize(report.count);
        status = bsonraw_from_json(reinterpret_cast<const uint8_t *>(text.data()), text.size(), 2147483647, max_depth, room.data(), room.size(), &report);
    }
    room.resize(status == BSONRAW_OK ? report.count : 0);
    if (why != nullptr) *why = report;
    return {status, std::move(room)};
}

} // namespace bsonraw

#endif

/* Texts that aren't ASCII, by their letters, which takes Python less time than their UTF-8. What isn't UTF-8 is left to Python's
 * decoder. */
#include "native.h"

#include <wchar.h>

#if WCHAR_MAX >= 0x10ffff

#define ROOM 4096
#define BLOCK BLOCK_OF_LETTERS

/* ---- by runs ---- */

static inline uint32_t le_u16(const uint8_t *at) {
    uint16_t number;
    memcpy(&number, at, 2);
    return number;
}

/* Puts letters: the place after them; NULL where something isn't UTF-8. Letters of one script come in runs, each of which has a loop of
 * its own. */
static wchar_t *by_runs(wchar_t *to, const uint8_t *at, const uint8_t *end) {
    const uint8_t *before = NULL;
    uint32_t letter, wrong = 0; /* whether a letter has too many bytes, or is none */
    while (at < end && at != before) {
        before = at;
        for (; at < end && *at < 0x80; at++) *to++ = *at;
        for (; end - at >= 2 && (le_u16(at) & 0xc0e0) == 0x80c0; at += 2) {
            *to++ = (wchar_t)(letter = (at[0] & 0x1fu) << 6 | (at[1] & 0x3fu));
            wrong |= letter < 0x80;
        }
        for (; end - at >= 3 && (*at & 0xf0) == 0xe0 && (le_u16(at + 1) & 0xc0c0) == 0x8080; at += 3) {
            *to++ = (wchar_t)(letter = (at[0] & 0x0fu) << 12 | (at[1] & 0x3fu) << 6 | (at[2] & 0x3fu));
            wrong |= letter < 0x800 || letter >> 11 == 0x1b; /* the latter are halves of pairs */
        }
        for (; end - at >= 4 && *at >> 3 == 0x1e && (le_u16(at + 1) & 0xc0c0) == 0x8080 && at[3] >> 6 == 2; at += 4) {
            *to++ = (wchar_t)(letter = (at[0] & 0x07u) << 18 | (at[1] & 0x3fu) << 12 | (at[2] & 0x3fu) << 6 | (at[3] & 0x3fu));
            wrong |= letter < 0x10000 || letter > 0x10ffff;
        }
    }
    return at == end && !wrong ? to : NULL;
}

/* ---- by blocks of 16 bytes, on processors that can choose among the bytes of a block ---- */

#if defined(__x86_64__) && defined(__GNUC__) && !defined(NO_BLOCKS)
#include <tmmintrin.h>
#define WITH_BLOCKS __attribute__((target("ssse3")))

void letters_init(struct letters *letters) {
    unsigned set, bit;
    letters->has_blocks = __builtin_cpu_supports("ssse3") != 0;
    for (set = 0; set < 256; set++) {
        unsigned count = 0;
        for (bit = 0; bit < 8; bit++) {
            if ((set >> bit & 1) == 0) continue;
            letters->places[set][2 * count] = (uint8_t)(2 * bit);
            letters->places[set][2 * count++ + 1] = (uint8_t)(2 * bit + 1);
        }
        letters->counts[set] = (uint8_t)count;
    }
}

WITH_BLOCKS static inline __m128i block_at(const uint8_t *at) { return _mm_loadu_si128((const __m128i *)at); }

WITH_BLOCKS static inline __m128i all_bytes(int byte) { return _mm_set1_epi8((char)byte); }

WITH_BLOCKS static inline __m128i is_at_least(__m128i bytes, int least) {
    return _mm_cmpeq_epi8(_mm_max_epu8(bytes, all_bytes(least)), bytes);
}

WITH_BLOCKS static inline __m128i is_one(__m128i bytes, int byte) { return _mm_cmpeq_epi8(bytes, all_bytes(byte)); }

WITH_BLOCKS static inline __m128i either(__m128i a, __m128i b) { return _mm_or_si128(a, b); }

WITH_BLOCKS static inline __m128i chosen(__m128i is, __m128i a, __m128i b) {
    return either(_mm_and_si128(is, a), _mm_andnot_si128(is, b));
}

/* Which bytes continue a letter. */
WITH_BLOCKS static inline __m128i is_inner(__m128i bytes) { return _mm_cmplt_epi8(bytes, all_bytes(0xc0)); }

/* Which of the bytes that begin here can't be there in letters of one to three bytes: those that continue none or don't continue one,
 * begin one of four bytes or one that needs fewer bytes, or are of half a pair. */
WITH_BLOCKS static inline __m128i is_wrong(const uint8_t *at) {
    const __m128i here = block_at(at), before = block_at(at - 1), second = is_at_least(here, 0xa0);
    const __m128i must_be_inner = either(is_at_least(before, 0xc0), is_at_least(block_at(at - 2), 0xe0));
    const __m128i no_first = either(is_at_least(here, 0xf0), is_one(_mm_and_si128(here, all_bytes(0xfe)), 0xc0));
    const __m128i no_second = chosen(second, is_one(before, 0xed), is_one(before, 0xe0));
    return either(either(_mm_xor_si128(is_inner(here), must_be_inner), no_first), no_second);
}

/* The letters that begin at eight bytes, each of which is given in 16 bits, as are the two after each. */
WITH_BLOCKS static inline __m128i letters_of(__m128i first, __m128i second, __m128i third) {
    const __m128i six = _mm_set1_epi16(0x3f), middle = _mm_slli_epi16(_mm_and_si128(second, six), 6);
    const __m128i of_two = either(_mm_slli_epi16(_mm_and_si128(first, _mm_set1_epi16(0x1f)), 6), _mm_and_si128(second, six));
    const __m128i of_three = either(either(_mm_slli_epi16(first, 12), middle), _mm_and_si128(third, six));
    const __m128i longer = chosen(_mm_cmpgt_epi16(first, _mm_set1_epi16(0xdf)), of_three, of_two);
    return chosen(_mm_cmpgt_epi16(first, _mm_set1_epi16(0x7f)), longer, first);
}

/* Puts those of eight letters whose bits are set. */
WITH_BLOCKS static inline wchar_t *put_letters(const struct letters *how, wchar_t *to, __m128i letters, unsigned set) {
    const __m128i zero = _mm_setzero_si128(), kept = _mm_shuffle_epi8(letters, block_at(how->places[set]));
    _mm_storeu_si128((__m128i *)to, _mm_unpacklo_epi16(kept, zero));
    _mm_storeu_si128((__m128i *)(to + 4), _mm_unpackhi_epi16(kept, zero));
    return to + how->counts[set];
}

/* Puts the letters of a text: the place after them. Done is how many bytes they are: all, or those before the first block with a
 * letter of four bytes or something that isn't UTF-8, and of the letter that ends in it. */
WITH_BLOCKS static wchar_t *by_blocks(const struct letters *how, wchar_t *wide, const uint8_t *text, size_t len, size_t *done) {
    uint8_t copy[BLOCK + ROOM + 3 * BLOCK]; /* zeros are before and after the text */
    const __m128i zero = _mm_setzero_si128();
    const uint8_t *at = copy + BLOCK, *begin = at, *end = at + len;
    wchar_t *to = wide;
    memset(copy, 0, BLOCK);
    memcpy(copy + BLOCK, text, len);
    memset(copy + BLOCK + len, 0, 2 * BLOCK);
    for (; at <= end; at += BLOCK) {
        const __m128i first = block_at(at), second = block_at(at + 1), third = block_at(at + 2);
        const unsigned set = ~(unsigned)_mm_movemask_epi8(is_inner(first));
        if (_mm_movemask_epi8(is_wrong(at)) != 0) break;
        to = put_letters(how, to, letters_of(_mm_unpacklo_epi8(first, zero), _mm_unpacklo_epi8(second, zero), _mm_unpacklo_epi8(third, zero)), set & 0xff);
        to = put_letters(how, to, letters_of(_mm_unpackhi_epi8(first, zero), _mm_unpackhi_epi8(second, zero), _mm_unpackhi_epi8(third, zero)), set >> 8 & 0xff);
    }
    if (at > end) {
        *done = len;
        return to - (at - end);
    }
    if (at > begin) {
        do at--;
        while (*at >> 6 == 2);
        to--;
    }
    *done = (size_t)(at - begin);
    return to;
}
#else
#define by_blocks(how, wide, at, len, done) (wide)
void letters_init(struct letters *letters) { letters->has_blocks = 0; }
#endif

/* ---- which way ---- */

#define SHORT 48

/* How many of the first SHORT bytes aren't ASCII. */
static unsigned beyond_ascii(const uint8_t *at) {
    uint64_t sums = 0; /* in each byte one */
    size_t done;
    for (done = 0; done < SHORT; done += 8) sums += (uint64_t)le_i64(at + done) >> 7 & ONES;
    return (unsigned)(sums * ONES >> 56);
}

/* Whether a text takes less time by its letters: a short one, and a longer one which doesn't begin with few that aren't ASCII; nor, by runs,
 * after what is ASCII, with three letters of three bytes, as Chinese does: of a run of either Python's decoder is the faster one. */
static int is_for_letters(const struct letters *letters, const uint8_t *at, size_t len) {
    const uint8_t *end = at + len;
    if (len <= SHORT || len > ROOM) return len <= SHORT;
    if (letters->has_blocks) return beyond_ascii(at) >= SHORT / 8;
    if (beyond_ascii(at) < SHORT / 4) return 0;
    while (*at < 0x80) at++;
    return end - at < 9 || at[0] >> 4 != 14 || at[3] >> 4 != 14 || at[6] >> 4 != 14;
}

NOT_INLINE PyObject *by_letters(const struct letters *letters, const uint8_t *at, size_t len) {
    wchar_t wide[ROOM + 2 * BLOCK], *to;
    size_t done = 0;
    to = letters->has_blocks ? by_blocks(letters, wide, at, len, &done) : wide;
    if (done < len) to = by_runs(to, at + done, at + len);
    return to == NULL ? PyUnicode_DecodeUTF8((const char *)at, (Py_ssize_t)len, "strict") : PyUnicode_FromWideChar(wide, to - wide);
}

PyObject *letters_text(const struct letters *letters, const uint8_t *at, size_t len) {
    if (is_for_letters(letters, at, len)) return by_letters(letters, at, len);
    return PyUnicode_DecodeUTF8((const char *)at, (Py_ssize_t)len, "strict");
}
#else
void letters_init(struct letters *letters) { letters->has_blocks = 0; }

PyObject *letters_text(const struct letters *letters, const uint8_t *at, size_t len) {
    (void)letters;
    return PyUnicode_DecodeUTF8((const char *)at, (Py_ssize_t)len, "strict");
}
#endif

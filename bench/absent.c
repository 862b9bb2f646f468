/* Weak definitions of every operation, for an implementation that does not have all of them: their cells stay empty.
 * An implementation in an archive must then be linked with --whole-archive, since a weak definition hides an archive's. */
#include "calls.h"

#define NONE(NAME, ...)                                                                                                       \
    __attribute__((weak)) void bb_##NAME(__VA_ARGS__, bb_answer *out) {                                                       \
        out->status = BB_UNSUPPORTED;                                                                                         \
    }
#define READ(NAME) NONE(NAME, const uint8_t *doc __attribute__((unused)), size_t doc_len __attribute__((unused)))
#define FIND(NAME)                                                                                                            \
    NONE(NAME, const uint8_t *doc __attribute__((unused)), size_t doc_len __attribute__((unused)),                            \
         const uint8_t *key __attribute__((unused)), size_t key_len __attribute__((unused)))
#define MAKE(NAME)                                                                                                            \
    NONE(NAME, const uint8_t *doc __attribute__((unused)), size_t doc_len __attribute__((unused)),                            \
         uint8_t *buf __attribute__((unused)), size_t buf_len __attribute__((unused)))

READ(frames)
READ(values)
READ(visit)
READ(values_noutf8)
READ(visit_noutf8)
FIND(get)
FIND(get_str)
READ(validate)
READ(tree)
MAKE(round)
MAKE(rebuild)
MAKE(append)
NONE(push, uint64_t n __attribute__((unused)), uint8_t *buf __attribute__((unused)), size_t buf_len __attribute__((unused)))

/* The operations of rows of bits as plain loops, for measure.py to hold beside those of sh_rows. */
#include <stddef.h>
#include <stdint.h>

void meet_words(uint64_t *words, const uint64_t *other, size_t length) {
    for (size_t at = 0; at < length; at++)
        words[at] &= other[at];
}

void remove_words(uint64_t *words, const uint64_t *other, size_t length) {
    for (size_t at = 0; at < length; at++)
        words[at] &= ~other[at];
}

int within_words(const uint64_t *words, const uint64_t *other, size_t length) {
    for (size_t at = 0; at < length; at++)
        if (words[at] & ~other[at])
            return 0;
    return 1;
}

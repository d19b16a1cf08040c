/* What the program rows_timer does, over the loops of kernels.c. */
#include <stddef.h>
#include <stdint.h>
#include <stdio.h>
#include <stdlib.h>
#include <string.h>

#define WORDS 64

void meet_words(uint64_t *words, const uint64_t *other, size_t length);
void remove_words(uint64_t *words, const uint64_t *other, size_t length);
int within_words(const uint64_t *words, const uint64_t *other, size_t length);

int main(int count, char **given) {
    if (count != 3)
        return 2;
    uint64_t words[WORDS], other[WORDS];
    uint32_t rounds = (uint32_t)strtoul(given[2], NULL, 10), sum = 0;
    int meets = !strcmp(given[1], "meet"), removes = !strcmp(given[1], "remove");
    for (size_t at = 0; at < WORDS; at++)
        words[at] = other[at] = 0x5555555555555555u;
    for (uint32_t round = 0; round < rounds; round++) {
        words[round % WORDS] = other[round % WORDS] >> (round % 2 * 2);
        if (meets)
            meet_words(words, other, WORDS);
        else if (removes)
            remove_words(words, other, WORDS);
        else
            sum += (uint32_t)within_words(words, other, WORDS);
    }
    for (size_t at = 0; at < WORDS; at++)
        sum += (uint32_t)__builtin_popcountll(words[at]);
    printf("%u\n", (unsigned)sum);
    return 0;
}

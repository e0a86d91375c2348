/* Writes names of eight bytes that fall into one place of a table whose hash has a fixed key, one a line: names as somebody
 * chooses them who knows the default hash of the maps that this project uses, and wants a source to be slow. The hash begins with
 * a constant; the length of a name and then its bytes are mixed in one after the other, each by a product of 128 bits whose
 * halves are joined; the halves of the result make 32 bits, and the lowest of these choose the place.
 *
 * usage: same_hash COUNT */

#include <stdint.h>
#include <stdio.h>
#include <stdlib.h>

enum { LENGTH = 8, PLACE_BITS = 13 };

static const uint64_t BEGINNING = 0x243f6a8885a308d3;
static const uint64_t MULTIPLIER = 0x9e3779b97f4a7c15;
static const char LETTERS[] = "abcdefghijklmnopqrstuvwxyz0123456789";

static uint64_t mix(uint64_t state, uint64_t word, uint64_t bytes)
{
    unsigned __int128 product = (unsigned __int128)(state ^ word) * (MULTIPLIER ^ 2 * bytes);
    return (uint64_t)product ^ (uint64_t)(product >> 64);
}

static uint64_t mix_letter(uint64_t state, unsigned char letter)
{
    return mix(state, letter * UINT64_C(0x010101), 1);
}

static uint32_t place_of(uint64_t state)
{
    return (uint32_t)(state ^ state >> 32) & ((UINT32_C(1) << PLACE_BITS) - 1);
}

struct search {
    char name[LENGTH + 1];
    uint32_t wanted;
    long left;
};

/* Writes the names that begin with the first letters of `name`, after which the hash has this state. */
static void extend(struct search *search, int letters, uint64_t state)
{
    if (letters == LENGTH) {
        if (place_of(state) == search->wanted) {
            puts(search->name);
            search->left--;
        }
        return;
    }
    /* A name begins with a letter. */
    size_t count = letters == 0 ? 26 : sizeof LETTERS - 1;
    for (size_t at = 0; at < count && search->left > 0; at++) {
        search->name[letters] = LETTERS[at];
        extend(search, letters + 1, mix_letter(state, (unsigned char)LETTERS[at]));
    }
}

int main(int count, char **words)
{
    struct search search = {.wanted = 0, .left = count == 2 ? atol(words[1]) : 0};
    extend(&search, 0, mix(BEGINNING, LENGTH, 8));
    return 0;
}

/* Multiplies two words so many times, and then the limits of a word and of its pieces, and numbers as they come, each by each; prints how many
 * products differ from those of the compiler's own 128 bits.
 *
 *     c_product ROUNDS
 */
#include <inttypes.h>
#include <stdio.h>
#include <stdlib.h>

__extension__ typedef unsigned __int128 both_words;

/* the port's product, which a scratch crate of bench/product hands on */
void word_product(uint64_t a, uint64_t b, uint64_t words[2]);

#define NUMBERS 1200

/* 0, the limits of each bit from both sides, and numbers of every size by a rule */
static uint64_t number(unsigned i)
{
    static uint64_t last = 88172645463325252u;
    if (i < 192)
        return ((uint64_t)1 << (i / 3)) + i % 3 - 1;
    if (i == 192)
        return UINT64_MAX;
    last ^= last << 13;
    last ^= last >> 7;
    last ^= last << 17;
    return last >> (i % 64);
}

int main(int argc, char **argv)
{
    static uint64_t numbers[NUMBERS];
    uint64_t words[2], left;
    unsigned i, j, differ = 0;
    if (argc != 2) {
        fprintf(stderr, "usage: c_product ROUNDS\n");
        return 2;
    }
    for (left = strtoull(argv[1], NULL, 10); left > 0; left--)
        word_product(60, 500000000000000000u, words);
    for (i = 0; i < NUMBERS; i++)
        numbers[i] = number(i);
    for (i = 0; i < NUMBERS; i++)
        for (j = 0; j < NUMBERS; j++) {
            both_words product = (both_words)numbers[i] * numbers[j];
            word_product(numbers[i], numbers[j], words);
            differ += words[0] != (uint64_t)product || words[1] != (uint64_t)(product >> 64);
        }
    printf("%u products, %u differ\n", NUMBERS * NUMBERS, differ);
    return differ != 0;
}

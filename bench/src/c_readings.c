/* Reads one text so many times as C does, the card checked in each call, and prints sign, seconds and nanoseconds, or that it is refused.
 * The numerals beside card A are none (0), or `five` (1), and the line's own units none (0), or `jaw` (1).
 *
 *     c_readings ROUNDS NUMERALS LINE TEXT
 */
#include <inttypes.h>
#include <stdio.h>
#include <stdlib.h>
#include <string.h>

#include "card_a.h"
#include "herovinga.h"

int main(int argc, char **argv)
{
    card_a a;
    herovinga_card card;
    uint8_t five[HEROVINGA_ROW_SIZE], jaw[HEROVINGA_ROW_SIZE];
    herovinga_answer answer;
    uint8_t number = 0;
    uint64_t left;
    size_t size;
    if (argc != 5) {
        fprintf(stderr, "usage: c_readings ROUNDS NUMERALS LINE TEXT\n");
        return 2;
    }
    make_card_a(&a);
    card = lent(&a);
    put_row(five, "five", HEROVINGA_SECOND, 5, 0);
    put_row(jaw, "jaw", HEROVINGA_MILLISECOND, 40, 0);
    card.numerals = five;
    card.numerals_size = strcmp(argv[2], "0") == 0 ? 0 : sizeof five;
    card.line = jaw;
    card.line_size = strcmp(argv[3], "0") == 0 ? 0 : sizeof jaw;
    size = strlen(argv[4]);
    for (left = strtoull(argv[1], NULL, 10); left > 0; left--)
        number = herovinga_card_read_total(&card, (const uint8_t *)argv[4], size, &answer);
    if (number != 0)
        puts("refused");
    else
        printf("%c %" PRIu64 " %" PRIu64 "\n", answer.length.negative ? '-' : '+', answer.length.seconds, answer.length.nanoseconds);
    return 0;
}

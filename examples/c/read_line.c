/* Reads one line under card A, the line's own unit `jaw` and the numeral `five`, its argument or the first line of standard input, and
 * prints number, position, sign, seconds and nanoseconds. What was read is then written back, and added to a shift total that stands at one
 * second.
 *
 *     $ read_line 61.7ms
 *     0 6 + 0 61700000
 *     written +0.0617
 *     total + 1 61700000
 */
#include <inttypes.h>
#include <stdio.h>
#include <string.h>

#include "card_a.h"
#include "herovinga.h"

/* The first line of standard input. Of a line that is too long one byte more than a text may have is kept, so that it is refused. */
static size_t read_text(uint8_t *text)
{
    size_t size = 0;
    int c;
    while ((c = getchar()) != EOF && c != '\n')
        if (size <= HEROVINGA_LONGEST_TEXT)
            text[size++] = (uint8_t)c;
    return size;
}

static void print_length(herovinga_length length)
{
    printf("%c %" PRIu64 " %" PRIu64 "\n", length.negative ? '-' : '+', length.seconds, length.nanoseconds);
}

int main(int argc, char **argv)
{
    uint8_t typed[HEROVINGA_LONGEST_TEXT + 1];
    const uint8_t *text = argc > 1 ? (const uint8_t *)argv[1] : typed;
    const size_t size = argc > 1 ? strlen(argv[1]) : read_text(typed);
    uint8_t written[HEROVINGA_LONGEST_FORM], jaw[HEROVINGA_ROW_SIZE], five[HEROVINGA_ROW_SIZE];
    herovinga_length total = {0, 1, 0};
    herovinga_answer read, answer;
    uint8_t number;
    card_a a;
    herovinga_card card;

    make_card_a(&a);
    card = lent(&a);
    put_row(jaw, "jaw", HEROVINGA_MILLISECOND, 40, 0);
    card.line = jaw;
    card.line_size = sizeof jaw;
    put_row(five, "five", HEROVINGA_SECOND, 5, 0);
    card.numerals = five;
    card.numerals_size = sizeof five;
    number = herovinga_card_read_total(&card, text, size, &read);
    printf("%d %" PRIu64 " ", number, read.position);
    print_length(read.length);
    if (number != HEROVINGA_DONE)
        return 0;

    /* Neither is refused: what was read is a length, the longest fits the buffer, and the text reads again as it did. */
    herovinga_write(&read.length, written, sizeof written, 0, &answer);
    printf("written %.*s\n", (int)answer.position, (const char *)written);
    herovinga_card_add_total(&total, &card, text, size, &answer);
    printf("total ");
    print_length(total);
    return 0;
}

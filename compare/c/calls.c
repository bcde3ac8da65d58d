/* Calls the entries as C calls them, with what only C can pass (null, odd switches, counts that no byte holds, words that are no length) and
 * with every number that is handed back, and holds each answer, the buffer, the total, the table, the index and the target to what must be
 * there. Those that take a card are called by their own parameters and by the card's functions, without indexes and through them. Prints how
 * many answers were held so, and each that is wrong; exits 1 if one is. */
#include <inttypes.h>
#include <stdint.h>
#include <stdio.h>
#include <string.h>

#include "card_a.h"
#include "herovinga.h"

#define LARGEST UINT64_MAX
#define NUMBERS 26

/* What was one number for syntax. */
#define NOT_GIVEN 2

/* The longest name, of letters, and sixteen letters of two bytes each. */
#define LONGEST "abcdefghijklmnopqrstuvwxyzABCDEF"
#define CYRILLIC "\320\260\320\261\320\262\320\263\320\264\320\265\320\266\320\267\320\270\320\271\320\272\320\273\320\274\320\275\320\276\320\277"

static unsigned long checks, wrong, answers[NUMBERS];

static const herovinga_length zero = {0, 0, 0};

/* The line's table that is passed wherever no other is: a unit that card A has not. */
static uint8_t own[HEROVINGA_ROW_SIZE];

/* The numerals that are passed wherever no others are: numbers, products that leave their range, and the name of a unit. */
static uint8_t words[8 * HEROVINGA_ROW_SIZE];

static void make_tables(void)
{
    put_row(own, "jaw", HEROVINGA_MILLISECOND, 40, 0);
    put_row(words, "five", HEROVINGA_SECOND, 5, 0);
    put_row(words + HEROVINGA_ROW_SIZE, "half", HEROVINGA_SECOND, 5, -1);
    put_row(words + 2 * HEROVINGA_ROW_SIZE, "less", HEROVINGA_SECOND, -2, 0);
    put_row(words + 3 * HEROVINGA_ROW_SIZE, "most", HEROVINGA_SECOND, INT64_MAX, 0);
    put_row(words + 4 * HEROVINGA_ROW_SIZE, "huge", HEROVINGA_SECOND, INT64_MAX / 2 + 1, 0);
    put_row(words + 5 * HEROVINGA_ROW_SIZE, "vast", HEROVINGA_SECOND, 1, INT16_MAX);
    put_row(words + 6 * HEROVINGA_ROW_SIZE, "tiny", HEROVINGA_SECOND, 1, INT16_MIN);
    put_row(words + 7 * HEROVINGA_ROW_SIZE, "min", HEROVINGA_SECOND, 7, 0);
}

static void check(const char *what, int holds)
{
    checks++;
    if (!holds) {
        wrong++;
        printf("wrong: %s\n", what);
    }
}

static int same_length(herovinga_length a, herovinga_length b)
{
    return a.negative == b.negative && a.seconds == b.seconds && a.nanoseconds == b.nanoseconds;
}

/* An answer in which no word is right by chance. */
static herovinga_answer unwritten(void)
{
    herovinga_answer answer;
    memset(&answer, 0xa5, sizeof answer);
    return answer;
}

static void check_answer(const char *what, uint8_t number, herovinga_answer answer, uint8_t wanted, uint64_t position, herovinga_length length)
{
    if (number < NUMBERS)
        answers[number]++;
    check(what, number == wanted && answer.position == position && same_length(answer.length, length));
}

/* ---- the entries that take a card, by their own parameters and by the card's functions, without indexes and through them */

enum way { BY_PARAMETERS, BY_CARD, BY_INDEXES, BY_INDEXED_CARD, WAYS };

static uint8_t read_part_indexed(int way, const herovinga_indexed_card *i, const char *text, size_t size, size_t place, herovinga_answer *answer)
{
    const herovinga_card *c = &i->card;
    const uint8_t *bytes = (const uint8_t *)text;
    *answer = unwritten();
    return way == BY_INDEXED_CARD
               ? herovinga_indexed_card_read_part(i, bytes, size, place, answer)
               : herovinga_read_part_indexed(&c->settings, c->hall, c->hall_size, i->hall_index, i->hall_index_size, c->line, c->line_size,
                                             i->line_index, i->line_index_size, c->numerals, c->numerals_size, bytes, size, place, answer);
}

static uint8_t read_total_indexed(int way, const herovinga_indexed_card *i, const char *text, size_t size, herovinga_answer *answer)
{
    const herovinga_card *c = &i->card;
    const uint8_t *bytes = (const uint8_t *)text;
    *answer = unwritten();
    return way == BY_INDEXED_CARD
               ? herovinga_indexed_card_read_total(i, bytes, size, answer)
               : herovinga_read_total_indexed(&c->settings, c->hall, c->hall_size, i->hall_index, i->hall_index_size, c->line, c->line_size,
                                              i->line_index, i->line_index_size, c->numerals, c->numerals_size, bytes, size, answer);
}

static uint8_t add_total_indexed(int way, herovinga_length *total, const herovinga_indexed_card *i, const char *text, size_t size,
                                 herovinga_answer *answer)
{
    const herovinga_card *c = &i->card;
    const uint8_t *bytes = (const uint8_t *)text;
    *answer = unwritten();
    return way == BY_INDEXED_CARD
               ? herovinga_indexed_card_add_total(total, i, bytes, size, answer)
               : herovinga_add_total_indexed(total, &c->settings, c->hall, c->hall_size, i->hall_index, i->hall_index_size, c->line,
                                             c->line_size, i->line_index, i->line_index_size, c->numerals, c->numerals_size, bytes, size,
                                             answer);
}

/* The index of a table, made for it, and its size. One beside a table that is refused is not made, and has any bytes: the table is looked at
 * first. That of an empty table is null. */
static const uint8_t *index_of(const herovinga_settings *settings, const uint8_t *table, size_t table_size, uint8_t *room, size_t *size)
{
    herovinga_answer answer;
    *size = table_size / HEROVINGA_ROW_SIZE;
    if (*size > HEROVINGA_MOST_ROWS)
        *size = HEROVINGA_MOST_ROWS;
    herovinga_make_index(settings, table, table_size, room, *size, &answer);
    return *size == 0 ? NULL : room;
}

/* A card with its indexes, of which there is one at a time. */
static herovinga_indexed_card indexed(const herovinga_card *c)
{
    static uint8_t of_the_hall[HEROVINGA_MOST_ROWS], of_the_line[HEROVINGA_MOST_ROWS];
    herovinga_indexed_card i;
    i.card = *c;
    i.hall_index = index_of(&c->settings, c->hall, c->hall_size, of_the_hall, &i.hall_index_size);
    i.line_index = index_of(&c->settings, c->line, c->line_size, of_the_line, &i.line_index_size);
    return i;
}

static uint8_t read_part(int way, const herovinga_card *c, const char *text, size_t size, size_t place, herovinga_answer *answer)
{
    const uint8_t *bytes = (const uint8_t *)text;
    const herovinga_indexed_card i = indexed(c);
    *answer = unwritten();
    switch (way) {
    case BY_PARAMETERS:
        return herovinga_read_part(&c->settings, c->hall, c->hall_size, c->line, c->line_size, c->numerals, c->numerals_size, bytes, size, place,
                                   answer);
    case BY_CARD:
        return herovinga_card_read_part(c, bytes, size, place, answer);
    default:
        return read_part_indexed(way, &i, text, size, place, answer);
    }
}

static uint8_t read_total(int way, const herovinga_card *c, const char *text, size_t size, herovinga_answer *answer)
{
    const uint8_t *bytes = (const uint8_t *)text;
    const herovinga_indexed_card i = indexed(c);
    *answer = unwritten();
    switch (way) {
    case BY_PARAMETERS:
        return herovinga_read_total(&c->settings, c->hall, c->hall_size, c->line, c->line_size, c->numerals, c->numerals_size, bytes, size,
                                    answer);
    case BY_CARD:
        return herovinga_card_read_total(c, bytes, size, answer);
    default:
        return read_total_indexed(way, &i, text, size, answer);
    }
}

static uint8_t add_total(int way, herovinga_length *total, const herovinga_card *c, const char *text, size_t size, herovinga_answer *answer)
{
    const uint8_t *bytes = (const uint8_t *)text;
    const herovinga_indexed_card i = indexed(c);
    *answer = unwritten();
    switch (way) {
    case BY_PARAMETERS:
        return herovinga_add_total(total, &c->settings, c->hall, c->hall_size, c->line, c->line_size, c->numerals, c->numerals_size, bytes, size,
                                   answer);
    case BY_CARD:
        return herovinga_card_add_total(total, c, bytes, size, answer);
    default:
        return add_total_indexed(way, total, &i, text, size, answer);
    }
}

/* A card with the first rows of the hall's table, and what is passed beside it wherever nothing else is. */
static herovinga_card with_rows(const card_a *a, size_t rows)
{
    herovinga_card c = lent(a);
    c.hall_size = rows * HEROVINGA_ROW_SIZE;
    c.line = own;
    c.line_size = sizeof own;
    c.numerals = words;
    c.numerals_size = sizeof words;
    return c;
}

static herovinga_card of(const card_a *a)
{
    return with_rows(a, 6);
}

static herovinga_card with_hall(herovinga_card c, const uint8_t *hall, size_t size)
{
    c.hall = hall;
    c.hall_size = size;
    return c;
}

static herovinga_card with_line(herovinga_card c, const uint8_t *line, size_t size)
{
    c.line = line;
    c.line_size = size;
    return c;
}

static herovinga_card with_numerals(herovinga_card c, const uint8_t *numerals, size_t size)
{
    c.numerals = numerals;
    c.numerals_size = size;
    return c;
}

/* ---- a text under a card: its total, that total added to a shift total, and a part of it */

static void check_total(herovinga_card c, const char *what, const char *text, size_t size, uint8_t number, uint64_t position,
                        herovinga_length length)
{
    const herovinga_length odd = {5, 7, 0};
    int way;
    for (way = 0; way < WAYS; way++) {
        herovinga_answer answer;
        herovinga_length total = zero;
        uint8_t got = read_total(way, &c, text, size, &answer);
        check_answer(what, got, answer, number, position, length);
        got = add_total(way, &total, &c, text, size, &answer);
        check_answer(what, got, answer, number, position, length);
        check(what, same_length(total, length));
        if (number != HEROVINGA_DONE) {
            total = odd;
            got = add_total(way, &total, &c, text, size, &answer);
            check_answer(what, got, answer, number, position, zero);
            check("a refusal leaves the total", same_length(total, odd));
        }
    }
}

/* A text that is read under a card to whole seconds and milliseconds, or refused. */
static void reads_under(herovinga_card c, const char *text, uint64_t milliseconds)
{
    herovinga_length length = {0, 0, 0};
    length.seconds = milliseconds / 1000;
    length.nanoseconds = milliseconds % 1000 * 1000000;
    check_total(c, text, text, strlen(text), HEROVINGA_DONE, strlen(text), length);
}

static void fails_under(herovinga_card c, const char *text, uint8_t number, uint64_t position)
{
    check_total(c, text, text, strlen(text), number, position, zero);
}

/* A part of a text from a place on, of whole seconds. */
static void part_under(herovinga_card c, const char *text, size_t place, uint8_t number, uint64_t position, uint64_t seconds)
{
    herovinga_length length = {0, 0, 0};
    int way;
    length.seconds = seconds;
    for (way = 0; way < WAYS; way++) {
        herovinga_answer answer;
        uint8_t got = read_part(way, &c, text, strlen(text), place, &answer);
        check_answer(text, got, answer, number, position, length);
    }
}

/* A card that every entry refuses, whatever text, place and total are. */
static void refused(herovinga_card c, uint64_t position)
{
    const herovinga_length minus_zero = {1, 0, 0};
    static const char text[HEROVINGA_LONGEST_TEXT + 1];
    int way;
    for (way = 0; way < WAYS; way++) {
        herovinga_length total = minus_zero;
        herovinga_answer answer;
        uint8_t got = add_total(way, &total, &c, text, sizeof text, &answer);
        check_answer("the card_a before total and text", got, answer, HEROVINGA_CARD, position, zero);
        check("a wrong card leaves the total", same_length(total, minus_zero));
    }
    fails_under(c, "1s", HEROVINGA_CARD, position);
    part_under(c, "1s", SIZE_MAX, HEROVINGA_CARD, position, 0);
}

static void reads(const card_a *c, const char *text, uint64_t negative, uint64_t seconds, uint64_t nanoseconds)
{
    herovinga_length length;
    length.negative = negative;
    length.seconds = seconds;
    length.nanoseconds = nanoseconds;
    check_total(of(c), text, text, strlen(text), HEROVINGA_DONE, strlen(text), length);
}

static void fails(const card_a *c, const char *text, uint8_t number, uint64_t position)
{
    fails_under(of(c), text, number, position);
}

static void part(const card_a *c, const char *text, size_t place, uint8_t number, uint64_t position, uint64_t seconds)
{
    part_under(of(c), text, place, number, position, seconds);
}

/* ---- the tests */

static void layout(void)
{
    check("settings are 25 words", sizeof(herovinga_settings) == 25 * sizeof(uint64_t));
    check("inner at word 7", offsetof(herovinga_settings, inner) == 7 * sizeof(uint64_t));
    check("outer at word 11", offsetof(herovinga_settings, outer) == 11 * sizeof(uint64_t));
    check("conjunctions at word 15", offsetof(herovinga_settings, conjunctions) == 15 * sizeof(uint64_t));
    check("conjunction at word 16", offsetof(herovinga_settings, conjunction) == 16 * sizeof(uint64_t));
    check("default kind at word 24", offsetof(herovinga_settings, default_kind) == 24 * sizeof(uint64_t));
    check("a length is 3 words", sizeof(herovinga_length) == 3 * sizeof(uint64_t));
    check("an answer is 4 words", sizeof(herovinga_answer) == 4 * sizeof(uint64_t));
    check("what is found is 4 words", sizeof(herovinga_found) == 4 * sizeof(uint64_t));
    check("the table at word 1", offsetof(herovinga_found, table) == 1 * sizeof(uint64_t));
    check("the row at word 2", offsetof(herovinga_found, row) == 2 * sizeof(uint64_t));
    check("compared at word 3", offsetof(herovinga_found, compared) == 3 * sizeof(uint64_t));
    check("a size is a word", sizeof(size_t) == sizeof(uint64_t));
}

static void readings(const card_a *a)
{
    card_a forbidden = *a;
    char text[HEROVINGA_LONGEST_TEXT + 2];

    reads(a, "61.7ms", 0, 0, 61700000);
    reads(a, "3turn", 0, 0, 36900000);
    reads(a, "1.9e-18block", 0, 0, 10);
    reads(a, "+1.5-2+0", 1, 0, 500000000);
    reads(a, "18446744073709551616s", 0, LARGEST, 999999999);
    reads(a, "-inf", 1, LARGEST, 999999999);
    fails(a, "", HEROVINGA_NOTHING, 0);
    fails(a, ".", HEROVINGA_FRACTION, 0);
    fails(a, "1s and", HEROVINGA_CONJUNCTION, 3);
    fails(a, "1 and 2", HEROVINGA_NO_NUMBER, 2);
    forbidden.settings.negatives = 0;
    fails(&forbidden, "1s -1s", HEROVINGA_NEGATIVE, 0);

    memset(text, '0', sizeof text);
    check_total(of(a), "the longest text", text, HEROVINGA_LONGEST_TEXT, HEROVINGA_DONE, HEROVINGA_LONGEST_TEXT, zero);
    check_total(of(a), "a longer text", text, HEROVINGA_LONGEST_TEXT + 1, HEROVINGA_TEXT_TOO_LONG, 4096, zero);
}

static void parts(const card_a *a)
{
    card_a worse = *a;
    part(a, "1s and 2s", 0, HEROVINGA_DONE, 7, 1);
    part(a, "1s and 2s", 7, HEROVINGA_DONE, 9, 2);
    part(a, "1s and 2s", 9, HEROVINGA_NOTHING, 9, 0);
    part(a, "1s and 2s", 10, HEROVINGA_BEYOND, 10, 0);
    part(a, "1s and 2s", SIZE_MAX, HEROVINGA_BEYOND, SIZE_MAX, 0);
    part(a, "1s and 2s", 3, HEROVINGA_NO_NUMBER, 3, 0);
    worse.settings.default_kind = 8;
    part(&worse, "1s and 2s", SIZE_MAX, HEROVINGA_CARD, HEROVINGA_WRONG_DEFAULT_KIND, 0);
}

/* An exponent out of range is refused at the digit that passes it, counted in the whole text: by a total, a shift total and a part. */
static void exponents(const card_a *a)
{
    const size_t last = HEROVINGA_LONGEST_TEXT - 1;
    char text[HEROVINGA_LONGEST_TEXT + 1] = "";

    reads(a, "1e-32768", 0, 0, 0);
    fails(a, "1e-32769", HEROVINGA_EXPONENT_BELOW, 7);
    fails(a, "1e32768", HEROVINGA_EXPONENT_ABOVE, 6);
    fails(a, "1e-0032769", HEROVINGA_EXPONENT_BELOW, 9);
    fails(a, "1e99999s", HEROVINGA_EXPONENT_ABOVE, 6);
    fails(a, "1s 1e32768", HEROVINGA_EXPONENT_ABOVE, 9);
    part(a, "1e32768", 0, HEROVINGA_EXPONENT_ABOVE, 6, 0);
    part(a, "1e-0032769", 0, HEROVINGA_EXPONENT_BELOW, 9, 0);
    part(a, "1e99999s", 0, HEROVINGA_EXPONENT_ABOVE, 6, 0);
    part(a, "1s 1e32768", 3, HEROVINGA_EXPONENT_ABOVE, 9, 0);
    part(a, "1s 1e32768", 0, HEROVINGA_DONE, 3, 1);

    /* The last byte of the longest text is that digit. */
    memset(text, '0', HEROVINGA_LONGEST_TEXT);
    memcpy(text, "1e-", 3);
    memcpy(text + last - 4, "32768", 5);
    reads(a, text, 0, 0, 0);
    text[last] = '9';
    fails(a, text, HEROVINGA_EXPONENT_BELOW, last);
    part(a, text, 0, HEROVINGA_EXPONENT_BELOW, last, 0);
}

/* ---- the six slips: each of their causes in a first part and in a later one, and beside it a text that has none or another */

static void texts_that_end(const card_a *a)
{
    reads(a, "+1", 0, 1, 0);
    fails(a, "+", HEROVINGA_TEXT_ENDS, 1);
    fails(a, "-", HEROVINGA_TEXT_ENDS, 1);
    fails(a, "1s-", HEROVINGA_TEXT_ENDS, 3);
    fails(a, "1s and +", HEROVINGA_TEXT_ENDS, 8);
    fails(a, "five min -", HEROVINGA_TEXT_ENDS, 10);
    fails(a, "+x", HEROVINGA_NO_NUMBER, 1);
    part(a, "1s +", 3, HEROVINGA_TEXT_ENDS, 4, 0);

    reads(a, "1e0", 0, 1, 0);
    fails(a, "1e", HEROVINGA_TEXT_ENDS, 2);
    fails(a, "1E", HEROVINGA_TEXT_ENDS, 2);
    fails(a, "1e+", HEROVINGA_TEXT_ENDS, 3);
    fails(a, "1.5E-", HEROVINGA_TEXT_ENDS, 5);
    fails(a, "1s 1e-", HEROVINGA_TEXT_ENDS, 6);
    part(a, "1s 1e", 3, HEROVINGA_TEXT_ENDS, 5, 0);
    part(a, "1s 1e", 0, HEROVINGA_DONE, 3, 1);
}

/* After a sign, before a unit, before "ago" and behind it, behind a numeral, of a connection and behind a conjunction. */
static void delimiters_at_the_end(const card_a *a)
{
    card_a c = *a;
    fails(a, "1 ", HEROVINGA_DELIMITERS_END, 1);
    fails(a, "1s ", HEROVINGA_DELIMITERS_END, 2);
    fails(a, "1s  ", HEROVINGA_DELIMITERS_END, 2);
    fails(a, "1s ago ", HEROVINGA_DELIMITERS_END, 6);
    fails(a, "-five  ", HEROVINGA_DELIMITERS_END, 5);
    fails(a, "inf ", HEROVINGA_DELIMITERS_END, 3);
    fails(a, "1s and ", HEROVINGA_DELIMITERS_END, 6);
    fails(a, "1s and 2s ", HEROVINGA_DELIMITERS_END, 9);
    part(a, "1s and 2s ", 7, HEROVINGA_DELIMITERS_END, 9, 0);
    part(a, "1s and 2s ", 0, HEROVINGA_DONE, 7, 1);
    fails(a, " ", HEROVINGA_NO_NUMBER, 0);
    fails(a, "+ ", HEROVINGA_NO_NUMBER, 1);
    c.settings.after_sign = 1;
    fails(&c, "+ ", HEROVINGA_DELIMITERS_END, 1);
    c.settings.ago = c.settings.before_unit = 0;
    fails(&c, "1 ", HEROVINGA_DELIMITERS_END, 1);
    fails(&c, "1s ", HEROVINGA_DELIMITERS_END, 2);
}

static void conjunction_slips(const card_a *a)
{
    card_a c = *a;
    reads(a, "1s and1s", 0, 2, 0);
    fails(a, "1s AND", HEROVINGA_CONJUNCTION, 3);
    fails(a, "inf and", HEROVINGA_CONJUNCTION, 4);
    fails(a, "five min and", HEROVINGA_CONJUNCTION, 9);
    fails(a, "1s and 2s and", HEROVINGA_CONJUNCTION, 10);
    fails(a, "1s android", HEROVINGA_CONJUNCTION, 6);
    fails(a, "1s and.5", HEROVINGA_CONJUNCTION, 6);
    fails(a, "1s and 2s andx", HEROVINGA_CONJUNCTION, 13);
    fails(a, "1s an", HEROVINGA_NO_NUMBER, 3);
    part(a, "1s and 2s and", 7, HEROVINGA_CONJUNCTION, 10, 0);
    part(a, "1s and 2s andx", 7, HEROVINGA_CONJUNCTION, 13, 0);
    c.settings.conjunctions = 0;
    fails(&c, "1s and", HEROVINGA_NO_NUMBER, 3);
}

static void fraction_slips(const card_a *a)
{
    card_a c = *a;
    reads(a, ".5", 0, 0, 500000000);
    reads(a, "1.", 0, 1, 0);
    fails(a, ".s", HEROVINGA_FRACTION, 0);
    fails(a, "-.", HEROVINGA_FRACTION, 1);
    fails(a, "1s and .", HEROVINGA_FRACTION, 7);
    part(a, "1s .", 3, HEROVINGA_FRACTION, 3, 0);
    c.settings.fractions = 0;
    reads(&c, "15", 0, 15, 0);
    fails(&c, "1.", HEROVINGA_FRACTION, 1);
    fails(&c, ".5", HEROVINGA_FRACTION, 0);
    fails(&c, "1s -1.5", HEROVINGA_FRACTION, 5);
    part(&c, "1s -1.5", 3, HEROVINGA_FRACTION, 5, 0);
}

static void exponent_slips(const card_a *a)
{
    card_a c = *a;
    reads(a, "1E+1", 0, 10, 0);
    fails(a, "1ex", HEROVINGA_EXPONENT, 2);
    fails(a, "1E ", HEROVINGA_EXPONENT, 2);
    fails(a, "1e+x", HEROVINGA_EXPONENT, 3);
    fails(a, "1e--1", HEROVINGA_EXPONENT, 3);
    fails(a, "1s 1ex", HEROVINGA_EXPONENT, 5);
    part(a, "1s 1e+x", 3, HEROVINGA_EXPONENT, 6, 0);
    c.settings.exponents = 0;
    reads(&c, "1", 0, 1, 0);
    fails(&c, "1e", HEROVINGA_EXPONENT, 1);
    fails(&c, "1.5E5", HEROVINGA_EXPONENT, 3);
    fails(&c, "1s 1e5", HEROVINGA_EXPONENT, 4);
    part(&c, "1s 1e5", 3, HEROVINGA_EXPONENT, 4, 0);
}

static void infinity_slips(const card_a *a)
{
    card_a c = *a;
    reads(a, "InFiNiTy", 0, LARGEST, 999999999);
    fails(a, "infi", HEROVINGA_INFINITY, 0);
    fails(a, "-INFINIT", HEROVINGA_INFINITY, 1);
    fails(a, "infx", HEROVINGA_INFINITY, 3);
    fails(a, "infix", HEROVINGA_INFINITY, 4);
    fails(a, "infinitx", HEROVINGA_INFINITY, 7);
    fails(a, "inf+1", HEROVINGA_INFINITY, 3);
    fails(a, "infinityx", HEROVINGA_INFINITY, 8);
    fails(a, "1s infi", HEROVINGA_INFINITY, 3);
    fails(a, "in", HEROVINGA_NO_NUMBER, 0);
    part(a, "1s infi", 3, HEROVINGA_INFINITY, 3, 0);
    part(a, "1s infx", 3, HEROVINGA_INFINITY, 6, 0);
    part(a, "1s infinity1", 3, HEROVINGA_INFINITY, 11, 0);
    c.settings.infinity = 0;
    fails(&c, "infi", HEROVINGA_NO_NUMBER, 0);
}

/* They are found from left to right, and in their part before 5. */
static void order_of_slips(const card_a *a)
{
    card_a forbidden = *a;
    fails(a, "1ex infi", HEROVINGA_EXPONENT, 2);
    fails(a, "infx 1ex", HEROVINGA_INFINITY, 3);
    fails(a, ". 1s and", HEROVINGA_FRACTION, 0);
    fails(a, "1e99999 .", HEROVINGA_EXPONENT_ABOVE, 6);
    fails(a, "five x ", HEROVINGA_NO_UNIT, 5);
    forbidden.settings.negatives = 0;
    fails(&forbidden, "-1s and", HEROVINGA_CONJUNCTION, 4);
    fails(&forbidden, "-1s 1e", HEROVINGA_NEGATIVE, 0);
}

/* Null with size 0 is an empty table, text or buffer, or no numerals. */
static void nothing_there(const card_a *a)
{
    const herovinga_length second = {0, 1, 0};
    const herovinga_card all = of(a), no_hall = with_hall(all, NULL, 0), no_line = with_line(all, NULL, 0);
    const herovinga_card no_numerals = with_numerals(all, NULL, 0), none = with_numerals(with_line(no_hall, NULL, 0), NULL, 0);
    herovinga_answer answer = unwritten();
    uint8_t got;
    int way;
    reads_under(no_hall, "1", 1000);
    reads_under(no_hall, "1jaw", 40);
    fails_under(no_hall, "1s", HEROVINGA_NO_NUMBER, 1);
    reads_under(no_line, "1s", 1000);
    reads_under(no_line, "10turn", 123);
    fails_under(no_line, "1jaw", HEROVINGA_NO_NUMBER, 1);
    part_under(no_line, "1s and 2s", 7, HEROVINGA_DONE, 9, 2);
    part_under(no_line, "1s 1jaw", 4, HEROVINGA_NO_NUMBER, 4, 0);
    reads_under(no_numerals, "1s", 1000);
    fails_under(no_numerals, "five min", HEROVINGA_NO_NUMBER, 0);
    part_under(no_numerals, "1s and 2s", 7, HEROVINGA_DONE, 9, 2);
    part_under(no_numerals, "1s five min", 3, HEROVINGA_NO_NUMBER, 3, 0);
    reads_under(none, "1", 1000);
    fails_under(none, "1jaw", HEROVINGA_NO_NUMBER, 1);
    check_total(all, "null text", NULL, 0, HEROVINGA_NOTHING, 0, zero);
    check_total(none, "null everywhere", NULL, 0, HEROVINGA_NOTHING, 0, zero);
    for (way = 0; way < WAYS; way++) {
        got = read_part(way, &none, NULL, 0, 0, &answer);
        check_answer("part of null", got, answer, HEROVINGA_NOTHING, 0, zero);
        got = read_part(way, &none, NULL, 0, 1, &answer);
        check_answer("part beyond null", got, answer, HEROVINGA_BEYOND, 1, zero);
    }
    answer = unwritten();
    got = herovinga_write(&second, NULL, 0, 0, &answer);
    check_answer("null buffer", got, answer, HEROVINGA_NO_ROOM, 0, zero);
    answer = unwritten();
    got = herovinga_write(&second, NULL, 0, 1, &answer);
    check_answer("beyond a null buffer", got, answer, HEROVINGA_BEYOND, 1, zero);
}

/* The words of the settings by number: the switches are the first seven. */
static void set_word(card_a *c, size_t i, uint64_t word)
{
    memcpy((unsigned char *)&c->settings + i * sizeof word, &word, sizeof word);
}

/* A switch is on for every word but 0. Each has a text that is read while it is on, and refused while it is off. */
static void switches(const card_a *a)
{
    static const uint64_t on[] = {1, 2, 256, (uint64_t)1 << 32, (uint64_t)1 << 63, LARGEST};
    static const struct {
        const char *text;
        uint64_t negative, seconds, nanoseconds;
        uint8_t number;
        uint64_t position;
    } of[7] = {
        {"-1s", 1, 1, 0, HEROVINGA_NEGATIVE, 0},
        {"1.5s", 0, 1, 500000000, HEROVINGA_FRACTION, 1},
        {"1e1s", 0, 10, 0, HEROVINGA_EXPONENT, 1},
        {"inf", 0, LARGEST, 999999999, HEROVINGA_NO_NUMBER, 0},
        {"2s ago", 1, 2, 0, HEROVINGA_NO_NUMBER, 3},
        {"+ 1s", 0, 1, 0, HEROVINGA_NO_NUMBER, 1},
        {"1 s", 0, 1, 0, HEROVINGA_NO_NUMBER, 2},
    };
    size_t i, j;
    for (i = 0; i < 7; i++) {
        card_a c = *a;
        set_word(&c, i, 0);
        fails(&c, of[i].text, of[i].number, of[i].position);
        for (j = 0; j < sizeof on / sizeof on[0]; j++) {
            set_word(&c, i, on[j]);
            reads(&c, of[i].text, of[i].negative, of[i].seconds, of[i].nanoseconds);
        }
    }
}

/* Counts and kinds that are right, and the first that is not. */
static void counts(const card_a *a)
{
    static const uint64_t seconds[8] = {0, 0, 0, 1, 60, 3600, 86400, 604800};
    static const uint64_t nanoseconds[8] = {1, 1000, 1000000, 0, 0, 0, 0, 0};
    card_a c = *a;
    size_t i;
    for (i = 1; i < 4; i++)
        c.settings.conjunction[i] = conjunction("then");
    c.settings.conjunctions = 0;
    fails(&c, "1s and 2s", HEROVINGA_NO_NUMBER, 3);
    for (i = 1; i <= 4; i++) {
        c.settings.conjunctions = i;
        reads(&c, "1s and 2s", 0, 3, 0);
    }
    reads(&c, "1s then 2s", 0, 3, 0);
    c.settings.conjunctions = 5;
    fails(&c, "1s and 2s", HEROVINGA_CARD, HEROVINGA_WRONG_CONJUNCTIONS);
    c = *a;
    for (i = 0; i < 8; i++) {
        c.settings.default_kind = i;
        reads(&c, "1", 0, seconds[i], nanoseconds[i]);
    }
    c.settings.default_kind = 8;
    fails(&c, "1", HEROVINGA_CARD, HEROVINGA_WRONG_DEFAULT_KIND);
}

/* Counts, sizes and kinds that no byte holds, also where their low byte would be right. What does not count is not looked at. */
static void too_large(const card_a *a)
{
    static const uint64_t words[] = {255, 256, 257, 256 + 3, (uint64_t)1 << 32, ((uint64_t)1 << 32) + 3, ((uint64_t)1 << 63) + 1, LARGEST};
    size_t i;
    for (i = 0; i < sizeof words / sizeof words[0]; i++) {
        card_a c = *a;
        c.settings.conjunctions = words[i];
        fails(&c, "1s", HEROVINGA_CARD, HEROVINGA_WRONG_CONJUNCTIONS);
        c = *a;
        c.settings.default_kind = words[i];
        fails(&c, "1s", HEROVINGA_CARD, HEROVINGA_WRONG_DEFAULT_KIND);
        c = *a;
        c.settings.conjunction[0].size = words[i];
        fails(&c, "1s", HEROVINGA_CARD, HEROVINGA_WRONG_CONJUNCTIONS);
        c = *a;
        c.settings.conjunction[1].size = words[i];
        reads(&c, "1s and 2s", 0, 3, 0);
    }
}

/* Delimiters, conjunctions and tables that are refused, and the order of the refusals. */
static void cards(const card_a *a)
{
    card_a c = *a;
    size_t i;
    c.settings.conjunction[0].size = 0;
    fails(&c, "1s", HEROVINGA_CARD, HEROVINGA_WRONG_CONJUNCTIONS);
    c.settings.conjunction[0].size = 9;
    fails(&c, "1s", HEROVINGA_CARD, HEROVINGA_WRONG_CONJUNCTIONS);
    for (i = 0; i < 4; i++) {
        c = *a;
        c.settings.inner[i] |= (uint64_t)1 << ('0' % 64);
        fails(&c, "1s", HEROVINGA_CARD, HEROVINGA_WRONG_DELIMITERS);
        c = *a;
        c.settings.outer[i] |= (uint64_t)1 << ('0' % 64);
        fails(&c, "1s", HEROVINGA_CARD, HEROVINGA_WRONG_DELIMITERS);
    }
    c.settings.conjunctions = LARGEST;
    c.settings.default_kind = LARGEST;
    fails(&c, "1s", HEROVINGA_CARD, HEROVINGA_WRONG_DELIMITERS);
    c = *a;
    c.hall[5 * HEROVINGA_ROW_SIZE + HEROVINGA_ZEROS_AT] = 1;
    fails(&c, "1s", HEROVINGA_CARD, 5);
    reads_under(with_rows(&c, 5), "1s", 1000);
    c.hall[HEROVINGA_KIND_AT] = 8;
    fails(&c, "1s", HEROVINGA_CARD, 0);
}

/* Card A with a name led by 'e' or 'E' in its third row, and with the switches and the inner set that such a name depends on. */
static card_a with_e(const card_a *a, const char *name, uint64_t exponents, uint64_t before_unit, uint64_t inner)
{
    card_a c = *a;
    put_row(c.hall + 2 * HEROVINGA_ROW_SIZE, name, HEROVINGA_SECOND, 5, 0);
    c.settings.exponents = exponents;
    c.settings.before_unit = before_unit;
    memset(c.settings.inner, 0, sizeof c.settings.inner);
    c.settings.inner[1] = inner;
    return c;
}

/* Such a name needs exponents on, or delimiters before a unit; else nobody could type it, and its row is refused. */
static void names_led_by_e(const card_a *a)
{
    const uint64_t underscore = (uint64_t)1 << ('_' % 64);
    card_a c = with_e(a, "eon", 0, 0, underscore);
    fails(&c, "3ms", HEROVINGA_CARD, 2);
    c = with_e(a, "Eon", 0, 0, underscore);
    fails(&c, "3ms", HEROVINGA_CARD, 2);
    c = with_e(a, "E", 0, 1, 0);
    fails(&c, "3ms", HEROVINGA_CARD, 2);
    c = with_e(a, "eon", 0, 1, underscore);
    reads(&c, "3_eon", 0, 15, 0);
    fails(&c, "3eon", HEROVINGA_EXPONENT, 1);
    c = with_e(a, "Eon", 1, 0, 0);
    reads(&c, "3e0Eon", 0, 15, 0);
    c = with_e(a, "neon", 0, 0, 0);
    reads(&c, "3neon", 0, 15, 0);
}

/* Names of up to 32 bytes, of letters of one byte and of two: each is read, and none that is longer or shorter. A size that no name has is refused,
 * and so is each byte behind a name. */
static void long_names(const card_a *a)
{
    static const size_t sizes[] = {8, 9, 16, 17, 24, 25, 31, 32}, wrong_sizes[] = {0, 33, 34, 47, 48, 255};
    card_a c = *a;
    uint8_t *row = c.hall + 2 * HEROVINGA_ROW_SIZE;
    size_t i, at;
    for (i = 0; i < sizeof sizes / sizeof sizes[0]; i++) {
        char name[HEROVINGA_NAME_ROOM + 1] = {0}, text[HEROVINGA_NAME_ROOM + 8];
        memcpy(name, LONGEST, sizes[i]);
        put_row(row, name, HEROVINGA_SECOND, 5, 0);
        snprintf(text, sizeof text, "3%s", name);
        reads(&c, text, 0, 15, 0);
        snprintf(text, sizeof text, "3%sx", name);
        fails(&c, text, HEROVINGA_NO_NUMBER, 1);
        snprintf(text, sizeof text, "3%s", name + 1);
        fails(&c, text, HEROVINGA_NO_NUMBER, 1);
        for (at = HEROVINGA_NAME_AT + sizes[i]; at < HEROVINGA_KIND_AT; at++) {
            row[at] = 1;
            fails(&c, "1ms", HEROVINGA_CARD, 2);
            row[at] = 0;
        }
    }
    put_row(row, CYRILLIC, HEROVINGA_SECOND, 5, 0);
    reads(&c, "3" CYRILLIC, 0, 15, 0);
    fails(&c, "3" CYRILLIC "\321\200", HEROVINGA_NO_NUMBER, 1);
    for (i = 0; i < sizeof wrong_sizes / sizeof wrong_sizes[0]; i++) {
        row[HEROVINGA_NAME_SIZE_AT] = (uint8_t)wrong_sizes[i];
        fails(&c, "1ms", HEROVINGA_CARD, 2);
    }
}

/* Rows with the names "aA" to "zA", "aB" and on, all of the same worth. */
static void put_rows(uint8_t *table, size_t first, size_t count, int64_t seconds)
{
    char name[3] = "aA";
    size_t i;
    for (i = 0; i < count; i++) {
        name[0] = (char)('a' + (first + i) % 26);
        name[1] = (char)('A' + (first + i) / 26);
        put_row(table + i * HEROVINGA_ROW_SIZE, name, HEROVINGA_SECOND, seconds, 0);
    }
}

/* As many units as a table may have, and one more. */
enum { FULL = HEROVINGA_MOST_ROWS * HEROVINGA_ROW_SIZE, MORE = FULL + HEROVINGA_ROW_SIZE };

static void tables(const card_a *a)
{
    static uint8_t table[MORE];
    herovinga_card c = with_hall(of(a), table, FULL);
    put_rows(table, 0, HEROVINGA_MOST_ROWS + 1, 1);
    reads_under(c, "1lC", 1000);
    refused(with_hall(c, table, MORE), HEROVINGA_WRONG_HALL_SIZE);
    refused(with_hall(c, table, FULL + 1), HEROVINGA_WRONG_HALL_SIZE);
    refused(with_hall(c, table, FULL - 1), HEROVINGA_WRONG_HALL_SIZE);
    refused(with_hall(c, table, HEROVINGA_ROW_SIZE - 1), HEROVINGA_WRONG_HALL_SIZE);
    c = with_numerals(c, table, HEROVINGA_ROW_SIZE - 1);
    refused(with_hall(c, table, HEROVINGA_ROW_SIZE - 1), HEROVINGA_WRONG_HALL_SIZE);
}

/* ---- the line's own units */

static void line_wins(const card_a *a)
{
    static uint8_t line[2 * HEROVINGA_ROW_SIZE];
    const herovinga_card hall = of(a);
    herovinga_card c = with_line(hall, line, sizeof line);
    put_row(line, "jaw", HEROVINGA_MILLISECOND, 40, 0);
    put_row(line + HEROVINGA_ROW_SIZE, "turn", HEROVINGA_MILLISECOND, 15, 0);

    reads_under(c, "1jaw", 40);
    reads_under(c, "1turn", 15);
    reads_under(c, "-1turn ago", 15);
    reads_under(c, "1min and 1s 1jaw1turn", 61055);
    reads_under(c, "five jaw", 200);
    reads_under(c, "five turn and five s", 5075);
    reads_under(hall, "10turn", 123);
    fails_under(c, "1ja", HEROVINGA_NO_NUMBER, 1);
    fails_under(c, "1jaws", HEROVINGA_NO_NUMBER, 1);
    fails_under(c, "1Jaw", HEROVINGA_NO_NUMBER, 1);
    fails_under(c, "five jaws", HEROVINGA_NO_UNIT, 5);
    part_under(c, "1jaw 1000turn", 5, HEROVINGA_DONE, 13, 15);
    part_under(c, "1jaw 1000turn", 13, HEROVINGA_NOTHING, 13, 0);
    part_under(c, "1jaw 2s", 5, HEROVINGA_DONE, 7, 2);

    /* The line's alone, and one of its rows alone. */
    c = with_hall(c, NULL, 0);
    reads_under(c, "1jaw1turn", 55);
    fails_under(c, "1s", HEROVINGA_NO_NUMBER, 1);
    c = with_line(hall, line, HEROVINGA_ROW_SIZE);
    reads_under(c, "10turn", 123);

    /* A name in both tables; twice in one it is wrong. */
    put_row(line, "turn", HEROVINGA_MILLISECOND, 20, 0);
    reads_under(c, "1turn", 20);
    refused(with_line(hall, line, sizeof line), HEROVINGA_FIRST_LINE_ROW + 1);
    put_row(line, "s", HEROVINGA_WEEK, 1, 0);
    reads_under(c, "1s", 604800000);
    put_row(line, "min", HEROVINGA_SECOND, 2, 0);
    fails_under(c, "most min", HEROVINGA_OUT_OF_RANGE, 0);
    put_row(line, "min", HEROVINGA_NANOSECOND, 0, 0);
    reads_under(c, "most min", 0);
}

static void line_names(const card_a *a)
{
    static uint8_t eon[HEROVINGA_ROW_SIZE];
    card_a settings = *a;
    put_row(eon, "eon", HEROVINGA_SECOND, 5, 0);
    reads_under(with_line(of(a), eon, sizeof eon), "3e0eon", 15000);
    settings.settings.exponents = 0;
    reads_under(with_line(of(&settings), eon, sizeof eon), "3 eon", 15000);
    settings.settings.before_unit = 0;
    refused(with_line(of(&settings), eon, sizeof eon), HEROVINGA_FIRST_LINE_ROW);
}

/* A full table of the line's with one byte of a row changed, by which it is a bad one. */
static void refused_line(const card_a *a, uint8_t *line, size_t row, size_t at, uint8_t byte)
{
    uint8_t *changed = line + row * HEROVINGA_ROW_SIZE + at;
    const uint8_t before = *changed;
    *changed = byte;
    refused(with_line(of(a), line, FULL), HEROVINGA_FIRST_LINE_ROW + row);
    *changed = before;
}

static void line_tables(const card_a *a)
{
    static uint8_t line[MORE], hall[MORE];
    static const size_t wrong_sizes[] = {1, HEROVINGA_ROW_SIZE - 1, HEROVINGA_ROW_SIZE + 1, FULL - 1, FULL + 1, MORE};
    const size_t last = HEROVINGA_MOST_ROWS - 1;
    herovinga_card c = with_line(of(a), line, FULL);
    size_t row, i;
    put_rows(line, 0, HEROVINGA_MOST_ROWS + 1, 5);
    reads_under(c, "1aA1lC1s", 11000);
    for (i = 0; i < sizeof wrong_sizes / sizeof wrong_sizes[0]; i++)
        refused(with_line(c, line, wrong_sizes[i]), HEROVINGA_WRONG_LINE_SIZE);
    for (row = 0; row <= last; row += last) {
        refused_line(a, line, row, HEROVINGA_KIND_AT, 8);
        refused_line(a, line, row, HEROVINGA_KIND_AT, 255);
        refused_line(a, line, row, HEROVINGA_NAME_AT, '1');
        refused_line(a, line, row, HEROVINGA_NAME_AT, ' ');
        refused_line(a, line, row, HEROVINGA_NAME_SIZE_AT, 0);
        refused_line(a, line, row, HEROVINGA_NAME_SIZE_AT, 1);
        refused_line(a, line, row, HEROVINGA_NAME_SIZE_AT, HEROVINGA_NAME_ROOM + 1);
        refused_line(a, line, row, HEROVINGA_ZEROS_AT, 1);
        refused_line(a, line, row, HEROVINGA_ROW_SIZE - 1, 1);
    }
    /* The later of two equal names is the bad one: "lC" is the last row's, "kC" the one before. */
    refused_line(a, line, last, HEROVINGA_NAME_AT, 'k');

    /* Both full: the same names, some the same, and none. */
    put_rows(hall, 0, HEROVINGA_MOST_ROWS, 1);
    c = with_hall(c, hall, FULL);
    reads_under(c, "1aA1lC", 10000);
    put_rows(hall, 40, HEROVINGA_MOST_ROWS, 1);
    reads_under(c, "1aA1lC1mC1zD", 12000);
    put_rows(hall, 64, HEROVINGA_MOST_ROWS, 1);
    reads_under(c, "1aA1lC1mC1xE", 12000);
    fails_under(c, "1yE", HEROVINGA_NO_NUMBER, 1);
    refused(with_hall(c, hall, MORE), HEROVINGA_WRONG_HALL_SIZE);
}

/* What is wrong first, in the order settings, hall, line, numerals, and of each table its size before its rows. Each card has all that the
 * one before has wrong. */
static void order_of_tables(const card_a *a)
{
    static uint8_t bad[MORE];
    herovinga_card c = with_numerals(of(a), bad, HEROVINGA_ROW_SIZE);
    refused(c, HEROVINGA_FIRST_NUMERAL);
    c.numerals_size = MORE;
    refused(c, HEROVINGA_WRONG_NUMERALS_SIZE);
    c = with_line(c, bad, HEROVINGA_ROW_SIZE);
    refused(c, HEROVINGA_FIRST_LINE_ROW);
    c.line_size = MORE;
    refused(c, HEROVINGA_WRONG_LINE_SIZE);
    c = with_hall(c, bad, HEROVINGA_ROW_SIZE);
    refused(c, 0);
    c.hall_size = MORE;
    refused(c, HEROVINGA_WRONG_HALL_SIZE);
    c.settings.default_kind = 8;
    refused(c, HEROVINGA_WRONG_DEFAULT_KIND);
    c.settings.conjunctions = 5;
    refused(c, HEROVINGA_WRONG_CONJUNCTIONS);
    c.settings.inner[0] |= (uint64_t)1 << '+';
    refused(c, HEROVINGA_WRONG_DELIMITERS);
}

/* ---- spoken numbers */

static void spoken(const card_a *a)
{
    const uint64_t comma = (uint64_t)1 << ',';
    card_a c = *a;

    reads(a, "five min", 0, 300, 0);
    reads(a, "-five min", 1, 300, 0);
    reads(a, "five min ago", 1, 300, 0);
    reads(a, "-five min ago", 0, 300, 0);
    reads(a, "less min", 1, 120, 0);
    reads(a, "-less min ago", 1, 120, 0);
    reads(a, "half min", 0, 30, 0);
    reads(a, "five  turn", 0, 0, 61500000);
    reads(a, "min min", 0, 420, 0);
    reads(a, "1 five min and half s-2", 0, 299, 500000000);
    part(a, "five min and half min", 0, HEROVINGA_DONE, 13, 300);
    part(a, "five min and half min", 13, HEROVINGA_DONE, 21, 30);

    /* Switches of numbers do not count for numerals, those of signs and units do. */
    c.settings.fractions = c.settings.exponents = c.settings.before_unit = 0;
    reads(&c, "half min", 0, 30, 0);
    fails(&c, "- half min", HEROVINGA_NO_NUMBER, 1);
    c.settings.after_sign = 1;
    reads(&c, "- half min", 1, 30, 0);
    c.settings.ago = 0;
    fails(&c, "half min ago", HEROVINGA_NO_NUMBER, 9);

    /* An outer delimiter does not end a numeral. A part that begins where a number's unit was looked for in vain is read like any other. */
    c.settings.inner[0] = comma;
    reads(&c, "five,min", 0, 300, 0);
    reads(&c, "1 five,min", 0, 301, 0);
    reads(&c, "1five,min", 0, 301, 0);
    fails(&c, "five min", HEROVINGA_NO_NUMBER, 0);
    fails(&c, "five s,min", HEROVINGA_NO_NUMBER, 0);
    c.settings.inner[0] = 0;
    fails(&c, "five,min", HEROVINGA_NO_NUMBER, 0);
}

/* A numeral that nothing follows, or no unit. */
static void numerals_alone(const card_a *a)
{
    fails(a, "five", HEROVINGA_NO_NUMBER, 0);
    fails(a, "1s five", HEROVINGA_NO_NUMBER, 3);
    fails(a, "fivemin", HEROVINGA_NO_NUMBER, 0);
    fails(a, "Five min", HEROVINGA_NO_NUMBER, 0);
    fails(a, "six min", HEROVINGA_NO_NUMBER, 0);
    fails(a, "five ", HEROVINGA_DELIMITERS_END, 4);
    fails(a, "1s five  ", HEROVINGA_DELIMITERS_END, 7);
    fails(a, "five x", HEROVINGA_NO_UNIT, 5);
    fails(a, "five  minutes", HEROVINGA_NO_UNIT, 6);
    fails(a, "five five min", HEROVINGA_NO_UNIT, 5);
    fails(a, "five 5min", HEROVINGA_NO_UNIT, 5);
    fails(a, "1s and -five x", HEROVINGA_NO_UNIT, 13);
    part(a, "1s and -five x", 7, HEROVINGA_NO_UNIT, 13, 0);
    part(a, "five min and half min", 5, HEROVINGA_NO_UNIT, 9, 0);
    fails_under(with_rows(a, 0), "five min", HEROVINGA_NO_UNIT, 5);
}

/* Numeral times kind, and that times row, at the ends of their range. */
static void products(const card_a *a)
{
    card_a c = *a, forbidden = *a;
    put_row(c.hall, "nano", HEROVINGA_NANOSECOND, 1, 9);
    put_row(c.hall + HEROVINGA_ROW_SIZE, "none", HEROVINGA_MINUTE, 0, 0);
    put_row(c.hall + 2 * HEROVINGA_ROW_SIZE, "back", HEROVINGA_SECOND, -1, 0);
    put_row(c.hall + 3 * HEROVINGA_ROW_SIZE, "twice", HEROVINGA_SECOND, -2, 0);
    put_row(c.hall + 4 * HEROVINGA_ROW_SIZE, "ten", HEROVINGA_SECOND, 1, 1);
    put_row(c.hall + 5 * HEROVINGA_ROW_SIZE, "tenth", HEROVINGA_SECOND, 1, -1);

    reads(a, "most s", 0, INT64_MAX, 0);
    fails(a, "most min", HEROVINGA_OUT_OF_RANGE, 0);
    fails(a, "most block", HEROVINGA_OUT_OF_RANGE, 0);
    part(a, "1s most min", 3, HEROVINGA_OUT_OF_RANGE, 0, 0);
    reads(&c, "most back", 1, INT64_MAX, 0);
    fails(&c, "huge twice", HEROVINGA_OUT_OF_RANGE, 0);
    fails(&c, "huge twice ago", HEROVINGA_OUT_OF_RANGE, 0);
    reads(a, "vast s", 0, LARGEST, 999999999);
    reads(a, "-vast s", 1, LARGEST, 999999999);
    fails(&c, "vast ten", HEROVINGA_OUT_OF_RANGE, 0);
    reads(&c, "tiny ten", 0, 0, 0);
    fails(&c, "tiny tenth", HEROVINGA_OUT_OF_RANGE, 0);

    /* The first product counts, also where the second would be in range. */
    reads(&c, "five nano", 0, 5, 0);
    fails(&c, "tiny nano", HEROVINGA_OUT_OF_RANGE, 0);
    reads(&c, "five none", 0, 0, 0);
    fails(&c, "most none", HEROVINGA_OUT_OF_RANGE, 0);

    /* It is found after all else of its part, before what follows, and before 5. */
    fails(a, "most x", HEROVINGA_NO_UNIT, 5);
    fails(a, "most min ", HEROVINGA_DELIMITERS_END, 8);
    fails(a, "most min and", HEROVINGA_CONJUNCTION, 9);
    fails(a, "most min x", HEROVINGA_OUT_OF_RANGE, 0);
    forbidden.settings.negatives = 0;
    fails(&forbidden, "-most min", HEROVINGA_OUT_OF_RANGE, 0);
    fails(&forbidden, "-five min", HEROVINGA_NEGATIVE, 0);
    fails(&forbidden, "-five min most min", HEROVINGA_NEGATIVE, 0);
}

/* As many numerals as may be, each with another name; one byte of a row changed, by which it is a bad one. */
static uint8_t many[(HEROVINGA_MOST_NUMERALS + 1) * HEROVINGA_ROW_SIZE];

static void fails_changed(const card_a *a, size_t row, size_t at, uint8_t byte)
{
    uint8_t *changed = many + row * HEROVINGA_ROW_SIZE + at;
    const uint8_t before = *changed;
    *changed = byte;
    refused(with_numerals(of(a), many, HEROVINGA_MOST_NUMERALS * HEROVINGA_ROW_SIZE), HEROVINGA_FIRST_NUMERAL + row);
    *changed = before;
}

static void numeral_rows(const card_a *a)
{
    static const uint8_t kinds[] = {0, 1, 2, 4, 5, 6, 7, 8, 255}, no_letters[] = {0, ' ', '0', '.', '@', '[', '_', '`', '{', 128, 0xc3, 255};
    const size_t last = HEROVINGA_MOST_NUMERALS - 1;
    size_t row, i;
    for (row = 0; row <= last; row += last) {
        for (i = 0; i < sizeof kinds; i++)
            fails_changed(a, row, HEROVINGA_KIND_AT, kinds[i]);
        for (i = 0; i < sizeof no_letters; i++)
            fails_changed(a, row, HEROVINGA_NAME_AT + 1, no_letters[i]);
        fails_changed(a, row, HEROVINGA_NAME_SIZE_AT, 0);
        fails_changed(a, row, HEROVINGA_NAME_SIZE_AT, 1);
        fails_changed(a, row, HEROVINGA_NAME_SIZE_AT, 3);
        fails_changed(a, row, HEROVINGA_NAME_SIZE_AT, HEROVINGA_NAME_ROOM + 1);
        fails_changed(a, row, HEROVINGA_NAME_AT + 2, 'x');
        fails_changed(a, row, HEROVINGA_KIND_AT - 1, 'x');
        fails_changed(a, row, HEROVINGA_ZEROS_AT, 1);
        fails_changed(a, row, HEROVINGA_ROW_SIZE - 1, 1);
    }
    /* The later of two equal names is the bad one: "fB" is the last row's, "eB" the one before. */
    fails_changed(a, last, HEROVINGA_NAME_AT, 'e');
    fails_changed(a, last, HEROVINGA_NAME_AT + 1, 'A');
}

static void numeral_tables(const card_a *a)
{
    const size_t full = HEROVINGA_MOST_NUMERALS * HEROVINGA_ROW_SIZE;
    const herovinga_length minus = {1, INT64_MAX, 0};
    const herovinga_card c = of(a);
    uint8_t longest[HEROVINGA_ROW_SIZE];
    card_a worse = *a;
    put_rows(many, 0, HEROVINGA_MOST_NUMERALS + 1, 3);
    reads_under(with_numerals(c, many, full), "fB min", 180000);
    part_under(with_numerals(c, many, full), "1s fB min", 3, HEROVINGA_DONE, 9, 180);
    reads_under(with_numerals(c, many, HEROVINGA_ROW_SIZE), "aA min", 180000);
    fails_under(with_numerals(c, many, HEROVINGA_ROW_SIZE), "bA min", HEROVINGA_NO_NUMBER, 0);
    refused(with_numerals(c, many, 1), HEROVINGA_WRONG_NUMERALS_SIZE);
    refused(with_numerals(c, many, HEROVINGA_ROW_SIZE - 1), HEROVINGA_WRONG_NUMERALS_SIZE);
    refused(with_numerals(c, many, HEROVINGA_ROW_SIZE + 1), HEROVINGA_WRONG_NUMERALS_SIZE);
    refused(with_numerals(c, many, full + 1), HEROVINGA_WRONG_NUMERALS_SIZE);
    refused(with_numerals(c, many, sizeof many), HEROVINGA_WRONG_NUMERALS_SIZE);
    numeral_rows(a);

    put_row(longest, LONGEST, HEROVINGA_SECOND, -INT64_MAX, 0);
    check_total(with_numerals(c, longest, sizeof longest), "the longest name", LONGEST " s", 34, HEROVINGA_DONE, 34, minus);
    put_row(longest, LONGEST, HEROVINGA_SECOND, INT64_MIN, 0);
    refused(with_numerals(c, longest, sizeof longest), HEROVINGA_FIRST_NUMERAL);

    /* The size comes before the rows, all else of the card_a before both. */
    many[HEROVINGA_KIND_AT] = 2;
    refused(with_numerals(c, many, sizeof many), HEROVINGA_WRONG_NUMERALS_SIZE);
    worse.hall[5 * HEROVINGA_ROW_SIZE + HEROVINGA_ZEROS_AT] = 1;
    refused(with_numerals(of(&worse), many, sizeof many), 5);
    refused(with_numerals(of(&worse), many, full), 5);
    worse.settings.default_kind = 8;
    refused(with_numerals(of(&worse), many, full), HEROVINGA_WRONG_DEFAULT_KIND);
}

/* One of the two writers. */
typedef uint8_t writer(const herovinga_length *, uint8_t *, size_t, size_t, herovinga_answer *);

/* A length at a place of a buffer of so many bytes. What must be in the buffer then: wanted, or what was there. */
static void check_written(writer *write, herovinga_length length, size_t size, size_t place, uint8_t number, uint64_t position,
                          const char *wanted)
{
    uint8_t buffer[40], then[40];
    herovinga_answer answer = unwritten();
    const herovinga_length written = {length.negative != 0, length.seconds, length.nanoseconds};
    uint8_t got;
    memset(buffer, '#', sizeof buffer);
    memset(then, '#', sizeof then);
    memcpy(then, wanted, strlen(wanted));
    got = write(&length, buffer, size, place, &answer);
    check_answer(wanted, got, answer, number, position, number == HEROVINGA_DONE ? written : zero);
    check("the buffer then", memcmp(buffer, then, sizeof buffer) == 0);
}

static void writes(herovinga_length length, size_t size, size_t place, uint8_t number, uint64_t position, const char *wanted)
{
    check_written(herovinga_write, length, size, place, number, position, wanted);
}

static void writings(void)
{
    static const uint64_t too_many[] = {1000000000, 0xffffffff, (uint64_t)1 << 32, ((uint64_t)1 << 32) + 5, (uint64_t)1 << 63, LARGEST};
    const herovinga_length small = {0, 0, 61700000}, least = {LARGEST, LARGEST, 999999999}, minus_zero = {1, 0, 0};
    size_t i;
    writes(zero, 40, 0, HEROVINGA_DONE, 2, "+0");
    writes(small, 40, 0, HEROVINGA_DONE, 7, "+0.0617");
    writes(small, 7, 0, HEROVINGA_DONE, 7, "+0.0617");
    writes(small, 6, 0, HEROVINGA_NO_ROOM, 0, "");
    writes(small, 10, 3, HEROVINGA_DONE, 10, "###+0.0617");
    writes(small, 9, 3, HEROVINGA_NO_ROOM, 3, "");
    writes(small, 9, 9, HEROVINGA_NO_ROOM, 9, "");
    writes(small, 9, 10, HEROVINGA_BEYOND, 10, "");
    writes(small, 9, SIZE_MAX, HEROVINGA_BEYOND, SIZE_MAX, "");
    writes(least, HEROVINGA_LONGEST_FORM, 0, HEROVINGA_DONE, 31, "-18446744073709551615.999999999");
    writes(least, HEROVINGA_LONGEST_FORM - 1, 0, HEROVINGA_NO_ROOM, 0, "");
    writes(minus_zero, 40, 0, HEROVINGA_MALFORMED, 0, "");
    writes(minus_zero, 9, SIZE_MAX, HEROVINGA_MALFORMED, 0, "");
    for (i = 0; i < sizeof too_many / sizeof too_many[0]; i++) {
        herovinga_length length = {0, 1, 0};
        length.nanoseconds = too_many[i];
        writes(length, 40, 0, HEROVINGA_MALFORMED, 0, "");
        length.negative = 7;
        writes(length, 40, 0, HEROVINGA_MALFORMED, 0, "");
    }
}

/* A text added to a total: what is handed back, and what the total is then. */
static void adds(const card_a *a, herovinga_length before, const char *text, uint8_t number, uint64_t position, herovinga_length then)
{
    const herovinga_card c = of(a);
    int way;
    for (way = 0; way < WAYS; way++) {
        herovinga_length total = before;
        herovinga_answer answer;
        uint8_t got = add_total(way, &total, &c, text, strlen(text), &answer);
        check_answer(text, got, answer, number, position, number == HEROVINGA_DONE ? then : zero);
        check("the total then", same_length(total, then));
    }
}

static void shift_totals(const card_a *a)
{
    static const uint64_t too_many[] = {1000000000, 0xffffffff, (uint64_t)1 << 32, ((uint64_t)1 << 32) + 5, LARGEST};
    const herovinga_length second = {0, 1, 0}, less = {1, 0, 938300000}, odd = {5, 1, 0}, largest = {0, LARGEST, 999999999};
    const herovinga_length odd_zero = {5, 0, 0}, minus_zero = {1, 0, 0}, later = {0, 299, 0};
    card_a worse = *a;
    size_t i;
    adds(a, zero, "1s", HEROVINGA_DONE, 2, second);
    adds(a, odd, "five min", HEROVINGA_DONE, 8, later);
    adds(a, odd, "five min five x", HEROVINGA_NO_UNIT, 14, odd);
    adds(a, odd, "five min most min", HEROVINGA_OUT_OF_RANGE, 0, odd);
    adds(a, minus_zero, "five x", HEROVINGA_MALFORMED, 0, minus_zero);
    adds(a, odd, "61.7ms", HEROVINGA_DONE, 6, less);
    adds(a, odd, "25jaw", HEROVINGA_DONE, 5, zero);
    adds(a, odd, "1s", HEROVINGA_DONE, 2, zero);
    adds(a, odd, ".", HEROVINGA_FRACTION, 0, odd);
    adds(a, largest, "1ns", HEROVINGA_DONE, 3, largest);
    adds(a, odd_zero, "1s", HEROVINGA_MALFORMED, 0, odd_zero);
    adds(a, minus_zero, ".", HEROVINGA_MALFORMED, 0, minus_zero);
    for (i = 0; i < sizeof too_many / sizeof too_many[0]; i++) {
        herovinga_length malformed = {5, 1, 0};
        malformed.nanoseconds = too_many[i];
        adds(a, malformed, "1s", HEROVINGA_MALFORMED, 0, malformed);
    }
    worse.settings.conjunctions = 256;
    adds(&worse, minus_zero, ".", HEROVINGA_CARD, HEROVINGA_WRONG_CONJUNCTIONS, minus_zero);
}

/* ---- ISO timings */

static void check_iso(const char *text, size_t size, uint8_t number, uint64_t position, herovinga_length length)
{
    herovinga_answer answer = unwritten();
    uint8_t got = herovinga_read_iso((const uint8_t *)text, size, &answer);
    check_answer(text == NULL ? "null as ISO" : text, got, answer, number, position, length);
}

static void reads_iso(const char *text, uint64_t seconds, uint64_t nanoseconds)
{
    herovinga_length length = {0, 0, 0};
    length.seconds = seconds;
    length.nanoseconds = nanoseconds;
    check_iso(text, strlen(text), HEROVINGA_DONE, strlen(text), length);
}

static void fails_iso(const char *text, uint8_t number, uint64_t position)
{
    check_iso(text, strlen(text), number, position, zero);
}

static void iso_readings(void)
{
    char text[HEROVINGA_LONGEST_TEXT + 2];

    reads_iso("P2W", 1209600, 0);
    reads_iso("P1DT12H", 129600, 0);
    reads_iso("PT1H30M0,5S", 5400, 500000000);
    reads_iso("PT0,1S", 0, 100000000);
    reads_iso("PT0.0000000019S", 0, 1);
    reads_iso("P0,000000000000001W", 0, 0);
    reads_iso("PT18446744073709551615.9999999999S", LARGEST, 999999999);
    fails_iso("PT18446744073709551616S", HEROVINGA_TOO_LARGE, 0);
    fails_iso("P99999999999999999999W", HEROVINGA_TOO_LARGE, 0);
    fails_iso("", HEROVINGA_NOT_ISO, 0);
    fails_iso("P", HEROVINGA_NOT_ISO, 1);
    fails_iso("p1D", HEROVINGA_NOT_ISO, 0);
    fails_iso("-P1D", HEROVINGA_NOT_ISO, 0);
    fails_iso("P1D1M", HEROVINGA_NOT_ISO, 3);
    fails_iso("P1DT", HEROVINGA_NOT_ISO, 4);
    fails_iso("PT1", HEROVINGA_NOT_ISO, 3);
    fails_iso("PT1M1H", HEROVINGA_NOT_ISO, 5);
    fails_iso("PT1.5H1M", HEROVINGA_NOT_ISO, 6);
    fails_iso("PT1Y", HEROVINGA_NOT_ISO, 3);
    fails_iso("PT99999999999999999999S ", HEROVINGA_NOT_ISO, 23);
    fails_iso("P1Y", HEROVINGA_YEAR_OR_MONTH, 2);
    fails_iso("P1,5MT1", HEROVINGA_YEAR_OR_MONTH, 4);
    check_iso("PT1S\0", 5, HEROVINGA_NOT_ISO, 4, zero);
    check_iso("P\377D", 3, HEROVINGA_NOT_ISO, 1, zero);
    check_iso(NULL, 0, HEROVINGA_NOT_ISO, 0, zero);

    /* As many bytes as may be read, and one more, which is 8 whatever they are. */
    memset(text, '0', sizeof text);
    memcpy(text, "PT", 2);
    text[HEROVINGA_LONGEST_TEXT - 1] = 'S';
    check_iso(text, HEROVINGA_LONGEST_TEXT, HEROVINGA_DONE, HEROVINGA_LONGEST_TEXT, zero);
    check_iso(text, HEROVINGA_LONGEST_TEXT + 1, HEROVINGA_TEXT_TOO_LONG, 4096, zero);
    text[0] = 'Y';
    check_iso(text, HEROVINGA_LONGEST_TEXT, HEROVINGA_NOT_ISO, 0, zero);
    check_iso(text, HEROVINGA_LONGEST_TEXT + 1, HEROVINGA_TEXT_TOO_LONG, 4096, zero);
}

/* As writes, and what is written reads back. */
static void writes_iso(herovinga_length length, size_t size, size_t place, uint8_t number, uint64_t position, const char *wanted)
{
    check_written(herovinga_write_iso, length, size, place, number, position, wanted);
    if (number == HEROVINGA_DONE)
        check_iso(wanted + place, strlen(wanted + place), HEROVINGA_DONE, strlen(wanted + place), length);
}

static void iso_writings(void)
{
    static const uint64_t too_many[] = {1000000000, 0xffffffff, (uint64_t)1 << 32, ((uint64_t)1 << 32) + 5, (uint64_t)1 << 63, LARGEST};
    static const uint64_t minus[] = {1, 5, 256, (uint64_t)1 << 32, LARGEST};
    const herovinga_length small = {0, 0, 61700000}, day = {0, 90061, 500000000}, largest = {0, LARGEST, 999999999};
    const herovinga_length longest = {0, UINT64_C(3600000000000003599), 999999999}, odd_zero = {5, 0, 0};
    herovinga_answer answer = unwritten();
    uint8_t got;
    size_t i;
    writes_iso(zero, 40, 0, HEROVINGA_DONE, 4, "PT0S");
    writes_iso(day, 40, 0, HEROVINGA_DONE, 11, "PT25H1M1.5S");
    writes_iso(small, 40, 0, HEROVINGA_DONE, 9, "PT0.0617S");
    writes_iso(small, 9, 0, HEROVINGA_DONE, 9, "PT0.0617S");
    writes_iso(small, 8, 0, HEROVINGA_NO_ROOM, 0, "");
    writes_iso(small, 12, 3, HEROVINGA_DONE, 12, "###PT0.0617S");
    writes_iso(small, 11, 3, HEROVINGA_NO_ROOM, 3, "");
    writes_iso(small, 9, 9, HEROVINGA_NO_ROOM, 9, "");
    writes_iso(small, 9, 10, HEROVINGA_BEYOND, 10, "");
    writes_iso(small, 9, SIZE_MAX, HEROVINGA_BEYOND, SIZE_MAX, "");
    writes_iso(longest, HEROVINGA_LONGEST_ISO, 0, HEROVINGA_DONE, 35, "PT1000000000000000H59M59.999999999S");
    writes_iso(longest, HEROVINGA_LONGEST_ISO - 1, 0, HEROVINGA_NO_ROOM, 0, "");
    writes_iso(largest, 40, 0, HEROVINGA_DONE, 32, "PT5124095576030431H15.999999999S");
    writes_iso(odd_zero, 9, SIZE_MAX, HEROVINGA_MALFORMED, 0, "");
    for (i = 0; i < sizeof minus / sizeof minus[0]; i++) {
        herovinga_length negative = {0, 1, 0};
        negative.negative = minus[i];
        writes_iso(negative, 40, 0, HEROVINGA_NEGATIVE, 0, "");
        writes_iso(negative, 9, 10, HEROVINGA_NEGATIVE, 0, "");
    }
    for (i = 0; i < sizeof too_many / sizeof too_many[0]; i++) {
        herovinga_length length = {0, 1, 0};
        length.nanoseconds = too_many[i];
        writes_iso(length, 40, 0, HEROVINGA_MALFORMED, 0, "");
        length.negative = 5;
        writes_iso(length, 40, 0, HEROVINGA_MALFORMED, 0, "");
    }
    got = herovinga_write_iso(&small, NULL, 0, 0, &answer);
    check_answer("null buffer for ISO", got, answer, HEROVINGA_NO_ROOM, 0, zero);
    answer = unwritten();
    got = herovinga_write_iso(&small, NULL, 0, 1, &answer);
    check_answer("beyond a null buffer for ISO", got, answer, HEROVINGA_BEYOND, 1, zero);
}

/* ---- indexes beside the unit tables */

/* Card A's index (block, min, ms, ns, s, turn), and that of a line's table of jaw and turn. */
static const uint8_t index_a[6] = {5, 3, 1, 0, 2, 4}, index_7[2] = {0, 1};

/* Room for an index, and bytes behind it that nothing changes. */
enum { GUARDED = HEROVINGA_MOST_ROWS + 8, GUARD = 0xa5 };

/* Bytes with the guard behind them. */
static void put_guarded(uint8_t *room, size_t room_size, const uint8_t *bytes, size_t size)
{
    memset(room, GUARD, room_size);
    if (size > 0)
        memcpy(room, bytes, size);
}

/* An index of so many bytes made: what it holds then, or null if that is what it held. */
static void makes(herovinga_card c, size_t size, uint8_t number, uint64_t position, const uint8_t *then)
{
    uint8_t index[GUARDED], wanted[GUARDED];
    herovinga_answer answer = unwritten();
    uint8_t got;
    memset(index, GUARD, sizeof index);
    put_guarded(wanted, sizeof wanted, then, then == NULL ? 0 : size);
    got = herovinga_make_index(&c.settings, c.hall, c.hall_size, size == 0 ? NULL : index, size, &answer);
    check_answer("an index made", got, answer, number, position, zero);
    check("the index made", memcmp(index, wanted, sizeof index) == 0);
}

static void checks_index(herovinga_card c, const uint8_t *index, size_t size, uint8_t number, uint64_t position)
{
    herovinga_answer answer = unwritten();
    uint8_t got = herovinga_check_index(&c.settings, c.hall, c.hall_size, index, size, &answer);
    check_answer("an index checked", got, answer, number, position, zero);
}

static void order_of_names(const card_a *a)
{
    static const char *const names[] = {"\001", "A", "Z", "a", "ab", "abcdefgh", "abcdefghi", "abcdefghijklmnop", "abcdefghijklmnopq",
                                        "abcdefghijklmnopqrstuvwx", "abcdefghijklmnopqrstuvwxyzABCDE", "abcdefghijklmnopqrstuvwxyzABCDEE", LONGEST,
                                        "abcdefgi", "b", "m", "min", "ms", "\177", "\200", "\302\265s", CYRILLIC, "\377"};
    enum { COUNT = sizeof names / sizeof names[0] };
    uint8_t table[COUNT * HEROVINGA_ROW_SIZE], index[COUNT];
    size_t shift, i;
    for (shift = 0; shift < COUNT; shift++) {
        for (i = 0; i < COUNT; i++) {
            put_row(table + i * HEROVINGA_ROW_SIZE, names[(i + shift) % COUNT], HEROVINGA_SECOND, 1, 0);
            index[(i + shift) % COUNT] = (uint8_t)i;
        }
        makes(with_hall(of(a), table, sizeof table), COUNT, HEROVINGA_DONE, COUNT, index);
    }
}

static void made_indexes(const card_a *a)
{
    static const size_t wrong_sizes[] = {0, 1, 5, 7, GUARDED};
    static uint8_t table[MORE];
    uint8_t rising[HEROVINGA_MOST_ROWS];
    const herovinga_card c = of(a);
    card_a worse = *a;
    size_t i;
    makes(c, 6, HEROVINGA_DONE, 6, index_a);
    for (i = 0; i < sizeof wrong_sizes / sizeof wrong_sizes[0]; i++)
        makes(c, wrong_sizes[i], HEROVINGA_INDEX, 6, NULL);
    makes(with_hall(c, NULL, 0), 0, HEROVINGA_DONE, 0, NULL);
    makes(with_hall(c, NULL, 0), 1, HEROVINGA_INDEX, 0, NULL);

    /* As many rows as there may be: of each first letter from a to l three, which stand 26 rows apart, and of the others two. */
    put_rows(table, 0, HEROVINGA_MOST_ROWS + 1, 1);
    for (i = 0; i < HEROVINGA_MOST_ROWS; i++)
        rising[i] = (uint8_t)(i < 36 ? i / 3 + i % 3 * 26 : (i - 36) / 2 + 12 + (i - 36) % 2 * 26);
    makes(with_hall(c, table, FULL), HEROVINGA_MOST_ROWS, HEROVINGA_DONE, HEROVINGA_MOST_ROWS, rising);
    makes(with_hall(c, table, FULL), HEROVINGA_MOST_ROWS - 1, HEROVINGA_INDEX, HEROVINGA_MOST_ROWS, NULL);
    makes(with_hall(c, table, FULL), HEROVINGA_MOST_ROWS + 1, HEROVINGA_INDEX, HEROVINGA_MOST_ROWS, NULL);

    /* A wrong table and wrong settings come first; a wrong table of the line's, or wrong numerals, are not passed. */
    makes(with_hall(c, table, MORE), HEROVINGA_MOST_ROWS + 1, HEROVINGA_CARD, HEROVINGA_WRONG_HALL_SIZE, NULL);
    makes(with_hall(c, table, HEROVINGA_ROW_SIZE - 1), 0, HEROVINGA_CARD, HEROVINGA_WRONG_HALL_SIZE, NULL);
    worse.hall[5 * HEROVINGA_ROW_SIZE + HEROVINGA_KIND_AT] = 8;
    makes(of(&worse), 6, HEROVINGA_CARD, 5, NULL);
    makes(of(&worse), 0, HEROVINGA_CARD, 5, NULL);
    worse.settings.default_kind = 256;
    makes(of(&worse), 6, HEROVINGA_CARD, HEROVINGA_WRONG_DEFAULT_KIND, NULL);
}

/* Every rotation and every swap of card A's index, and every entry that is another. */
static void wrong_entries(const card_a *a)
{
    const herovinga_card c = of(a);
    uint8_t index[6];
    size_t i, j;
    int row;
    checks_index(c, index_a, sizeof index_a, HEROVINGA_DONE, 6);
    for (j = 1; j < sizeof index; j++) {
        for (i = 0; i < sizeof index; i++)
            index[i] = index_a[(i + j) % sizeof index];
        checks_index(c, index, sizeof index, HEROVINGA_INDEX, 0);
    }
    for (i = 0; i < sizeof index; i++) {
        for (j = i + 1; j < sizeof index; j++) {
            memcpy(index, index_a, sizeof index);
            index[i] = index_a[j];
            index[j] = index_a[i];
            checks_index(c, index, sizeof index, HEROVINGA_INDEX, i);
        }
        memcpy(index, index_a, sizeof index);
        for (row = 0; row < 256; row++) {
            index[i] = (uint8_t)row;
            if (row == index_a[i])
                checks_index(c, index, sizeof index, HEROVINGA_DONE, 6);
            else
                checks_index(c, index, sizeof index, HEROVINGA_INDEX, i);
        }
    }
}

static void wrong_lengths(const card_a *a)
{
    const herovinga_card c = of(a);
    uint8_t longer[GUARDED];
    card_a worse = *a;
    size_t size;
    put_guarded(longer, sizeof longer, index_a, sizeof index_a);
    for (size = 0; size <= sizeof longer; size++)
        if (size != 6)
            checks_index(c, longer, size, HEROVINGA_INDEX, 6);
    checks_index(c, NULL, 0, HEROVINGA_INDEX, 6);
    checks_index(with_hall(c, NULL, 0), NULL, 0, HEROVINGA_DONE, 0);
    checks_index(with_hall(c, NULL, 0), longer, 1, HEROVINGA_INDEX, 0);
    checks_index(with_rows(a, 1), longer, 1, HEROVINGA_INDEX, 0);
    checks_index(with_rows(a, 1), longer + 3, 1, HEROVINGA_DONE, 1);
    checks_index(with_rows(a, 1), NULL, 0, HEROVINGA_INDEX, 1);
    worse.hall[2 * HEROVINGA_ROW_SIZE + HEROVINGA_ZEROS_AT] = 1;
    checks_index(of(&worse), NULL, 0, HEROVINGA_CARD, 2);
    checks_index(of(&worse), index_a, sizeof index_a, HEROVINGA_CARD, 2);
    worse.settings.conjunctions = 5;
    checks_index(of(&worse), NULL, 0, HEROVINGA_CARD, HEROVINGA_WRONG_CONJUNCTIONS);
}

/* A row of a table replaced under a card's settings: table and index then have the new row and the index that is wanted, or, where that is
 * null, what they had. */
static void replaces(herovinga_card c, const uint8_t *index, size_t index_size, size_t row, const uint8_t *new_row, size_t new_size,
                     uint8_t number, uint64_t position, const uint8_t *wanted)
{
    static uint8_t table[MORE + 1], table_then[MORE + 1];
    uint8_t lent[GUARDED], index_then[GUARDED];
    herovinga_answer answer = unwritten();
    uint8_t got;
    put_guarded(table, sizeof table, c.hall, c.hall_size);
    put_guarded(table_then, sizeof table_then, c.hall, c.hall_size);
    put_guarded(lent, sizeof lent, index, index_size);
    put_guarded(index_then, sizeof index_then, wanted == NULL ? index : wanted, index_size);
    if (wanted != NULL)
        memcpy(table_then + row * HEROVINGA_ROW_SIZE, new_row, HEROVINGA_ROW_SIZE);
    got = herovinga_replace_row(&c.settings, c.hall_size == 0 ? NULL : table, c.hall_size, index_size == 0 ? NULL : lent, index_size, row, new_row,
                                new_size, &answer);
    check_answer("a row replaced", got, answer, number, position, zero);
    check("the table then", memcmp(table, table_then, sizeof table) == 0);
    check("the index then", memcmp(lent, index_then, sizeof lent) == 0);
}

/* A row of card A's table, with its right index. */
static void replaces_a(const card_a *a, size_t row, const char *name, uint8_t number, uint64_t position, const uint8_t *wanted)
{
    uint8_t new_row[HEROVINGA_ROW_SIZE];
    put_row(new_row, name, HEROVINGA_SECOND, 1, 0);
    replaces(of(a), index_a, sizeof index_a, row, new_row, sizeof new_row, number, position, wanted);
}

static void replaced_rows(const card_a *a)
{
    static const uint8_t first[6] = {2, 5, 3, 1, 0, 4}, last[6] = {3, 1, 0, 2, 4, 5}, between[6] = {5, 3, 4, 1, 0, 2};
    const herovinga_card c = of(a);
    replaces_a(a, 2, "apart", HEROVINGA_DONE, 6, first);
    replaces_a(a, 5, "zone", HEROVINGA_DONE, 6, last);
    replaces_a(a, 5, "\302\265s", HEROVINGA_DONE, 6, last);
    replaces_a(a, 4, "mn", HEROVINGA_DONE, 6, between);
    replaces_a(a, 1, "ms", HEROVINGA_DONE, 6, index_a);
    replaces_a(a, 3, "blocks", HEROVINGA_DONE, 6, index_a);
    replaces(c, index_a, sizeof index_a, 0, c.hall, HEROVINGA_ROW_SIZE, HEROVINGA_DONE, 6, index_a);
}

/* 7, 23, 10 at a row past the last, and 7 at the row: whatever is wrong behind it. */
static void rows_not_replaced(const card_a *a)
{
    static const uint8_t swapped[6] = {5, 3, 1, 0, 4, 2};
    /* So many times 48 bytes are 0 and 32 in a size_t. */
    static const size_t past[] = {6, 7, 64, 256, SIZE_MAX / 16 + 1, SIZE_MAX / HEROVINGA_ROW_SIZE + 1, SIZE_MAX};
    const herovinga_card c = of(a);
    uint8_t two[2 * HEROVINGA_ROW_SIZE], bad[HEROVINGA_ROW_SIZE];
    card_a worse = *a;
    size_t i;
    put_row(two, "zone", HEROVINGA_SECOND, 1, 0);
    put_row(two + HEROVINGA_ROW_SIZE, "yard", HEROVINGA_SECOND, 1, 0);
    put_row(bad, "1", HEROVINGA_SECOND, 1, 0);

    /* The name of another row, whether the check would name this one or the other; a bad row; a size that is no row's. */
    replaces_a(a, 0, "s", HEROVINGA_CARD, 0, NULL);
    replaces_a(a, 4, "s", HEROVINGA_CARD, 4, NULL);
    replaces_a(a, 5, "ns", HEROVINGA_CARD, 5, NULL);
    replaces_a(a, 3, "a b", HEROVINGA_CARD, 3, NULL);
    replaces(c, index_a, 6, 1, bad, sizeof bad, HEROVINGA_CARD, 1, NULL);
    replaces(c, index_a, 6, 0, two, HEROVINGA_ROW_SIZE - 1, HEROVINGA_CARD, 0, NULL);
    replaces(c, index_a, 6, 0, two, HEROVINGA_ROW_SIZE + 1, HEROVINGA_CARD, 0, NULL);
    replaces(c, index_a, 6, 5, two, sizeof two, HEROVINGA_CARD, 5, NULL);
    replaces(c, index_a, 6, 5, NULL, 0, HEROVINGA_CARD, 5, NULL);
    for (i = 0; i < sizeof past / sizeof past[0]; i++) {
        replaces(c, index_a, 6, past[i], two, HEROVINGA_ROW_SIZE, HEROVINGA_BEYOND, past[i], NULL);
        replaces(c, index_a, 6, past[i], NULL, 0, HEROVINGA_BEYOND, past[i], NULL);
        replaces(c, swapped, 6, past[i], NULL, 0, HEROVINGA_INDEX, 4, NULL);
        replaces(c, index_a, 5, past[i], NULL, 0, HEROVINGA_INDEX, 6, NULL);
        replaces(with_hall(c, NULL, 0), NULL, 0, past[i], NULL, 0, HEROVINGA_BEYOND, past[i], NULL);
    }
    replaces(with_hall(c, NULL, 0), NULL, 0, 0, two, HEROVINGA_ROW_SIZE, HEROVINGA_BEYOND, 0, NULL);
    replaces(c, swapped, 6, 5, two, HEROVINGA_ROW_SIZE, HEROVINGA_INDEX, 4, NULL);
    replaces(c, NULL, 0, 5, two, HEROVINGA_ROW_SIZE, HEROVINGA_INDEX, 6, NULL);
    worse.hall[2 * HEROVINGA_ROW_SIZE + HEROVINGA_ZEROS_AT] = 1;
    replaces(of(&worse), NULL, 0, SIZE_MAX, NULL, 0, HEROVINGA_CARD, 2, NULL);
    replaces(of(&worse), index_a, 6, 2, two, HEROVINGA_ROW_SIZE, HEROVINGA_CARD, 2, NULL);
    worse.settings.default_kind = 8;
    replaces(of(&worse), NULL, 0, SIZE_MAX, NULL, 0, HEROVINGA_CARD, HEROVINGA_WRONG_DEFAULT_KIND, NULL);
}

/* What a lookup hands back, with no word right by chance before. */
static herovinga_found unfound(void)
{
    herovinga_found found;
    memset(&found, GUARD, sizeof found);
    return found;
}

static void check_found(const char *what, uint8_t number, herovinga_found found, uint8_t wanted, uint64_t position, uint64_t table, uint64_t row,
                        uint64_t compared)
{
    if (number < NUMBERS)
        answers[number]++;
    check(what, number == wanted && found.position == position && found.table == table && found.row == row && found.compared == compared);
}

static uint8_t look_up(int way, const herovinga_indexed_card *i, const char *name, size_t size, herovinga_found *found)
{
    const herovinga_card *c = &i->card;
    const uint8_t *bytes = (const uint8_t *)name;
    *found = unfound();
    switch (way) {
    case BY_PARAMETERS:
        return herovinga_look_up(&c->settings, c->hall, c->hall_size, c->line, c->line_size, bytes, size, found);
    case BY_CARD:
        return herovinga_card_look_up(c, bytes, size, found);
    case BY_INDEXES:
        return herovinga_look_up_indexed(&c->settings, c->hall, c->hall_size, i->hall_index, i->hall_index_size, c->line, c->line_size,
                                         i->line_index, i->line_index_size, bytes, size, found);
    default:
        return herovinga_indexed_card_look_up(i, bytes, size, found);
    }
}

/* A name under a card: its table and row, and the names that are compared without indexes and through them. */
static void finds_bytes(herovinga_card c, const char *name, size_t size, uint64_t table, uint64_t row, uint64_t one_by_one, uint64_t halving)
{
    const herovinga_indexed_card i = indexed(&c);
    int way;
    for (way = 0; way < WAYS; way++) {
        herovinga_found found;
        uint8_t got = look_up(way, &i, name, size, &found);
        check_found("a name looked up", got, found, HEROVINGA_DONE, 0, table, row, way < BY_INDEXES ? one_by_one : halving);
    }
}

static void finds(herovinga_card c, const char *name, uint64_t table, uint64_t row, uint64_t one_by_one, uint64_t halving)
{
    finds_bytes(c, name, strlen(name), table, row, one_by_one, halving);
}

/* Line 7: card A with a jaw stroke and a turn of its own. */
static herovinga_card line_7(const card_a *a)
{
    static uint8_t line[2 * HEROVINGA_ROW_SIZE];
    put_row(line, "jaw", HEROVINGA_MILLISECOND, 40, 0);
    put_row(line + HEROVINGA_ROW_SIZE, "turn", HEROVINGA_MILLISECOND, 15, 0);
    return with_line(of(a), line, sizeof line);
}

static void lookups(const card_a *a)
{
    static uint8_t hall[FULL], line[FULL];
    static const char far_too_long[257] = "s";
    const herovinga_card seven = line_7(a), alone = with_line(of(a), NULL, 0);
    herovinga_card c;
    finds(alone, "ns", HEROVINGA_HALL, 0, 1, 1);
    finds(alone, "ms", HEROVINGA_HALL, 1, 2, 3);
    finds(alone, "s", HEROVINGA_HALL, 2, 3, 3);
    finds(alone, "min", HEROVINGA_HALL, 3, 4, 2);
    finds(alone, "turn", HEROVINGA_HALL, 4, 5, 2);
    finds(alone, "block", HEROVINGA_HALL, 5, 6, 3);
    finds(alone, "blocks", HEROVINGA_NO_TABLE, 0, 6, 3);
    finds(alone, "z", HEROVINGA_NO_TABLE, 0, 6, 2);
    finds(alone, "\377", HEROVINGA_NO_TABLE, 0, 6, 2);
    finds_bytes(alone, NULL, 0, HEROVINGA_NO_TABLE, 0, 6, 3);
    finds_bytes(alone, "s\0", 2, HEROVINGA_NO_TABLE, 0, 6, 3);
    finds_bytes(alone, far_too_long, sizeof far_too_long, HEROVINGA_NO_TABLE, 0, 6, 3);
    finds_bytes(alone, "\0", 1, HEROVINGA_NO_TABLE, 0, 6, 3);
    finds(with_hall(alone, NULL, 0), "s", HEROVINGA_NO_TABLE, 0, 0, 0);
    finds_bytes(with_hall(alone, NULL, 0), NULL, 0, HEROVINGA_NO_TABLE, 0, 0, 0);
    finds(seven, "jaw", HEROVINGA_LINE, 0, 1, 2);
    finds(seven, "turn", HEROVINGA_LINE, 1, 2, 1);
    finds(seven, "s", HEROVINGA_HALL, 2, 5, 5);
    finds(seven, "block", HEROVINGA_HALL, 5, 8, 5);
    finds(seven, "pouch", HEROVINGA_NO_TABLE, 0, 8, 5);
    finds(seven, "", HEROVINGA_NO_TABLE, 0, 8, 5);
    finds(with_hall(seven, NULL, 0), "s", HEROVINGA_NO_TABLE, 0, 2, 2);
    finds(with_numerals(seven, seven.hall, HEROVINGA_ROW_SIZE - 1), "jaw", HEROVINGA_LINE, 0, 1, 2);

    /* A longer name is not cut to the size of a row's. */
    put_row(line, LONGEST, HEROVINGA_SECOND, 1, 0);
    c = with_line(seven, line, HEROVINGA_ROW_SIZE);
    finds(c, LONGEST, HEROVINGA_LINE, 0, 1, 1);
    finds_bytes(c, LONGEST, 31, HEROVINGA_NO_TABLE, 0, 7, 4);
    finds_bytes(c, LONGEST, 16, HEROVINGA_NO_TABLE, 0, 7, 4);
    finds(c, LONGEST "G", HEROVINGA_NO_TABLE, 0, 7, 4);
    finds_bytes(c, LONGEST "\003", 33, HEROVINGA_NO_TABLE, 0, 7, 4);

    /* Both full: at most 64 of each one by one, and 7 by halving. */
    put_rows(line, 0, HEROVINGA_MOST_ROWS, 1);
    put_rows(hall, 64, HEROVINGA_MOST_ROWS, 1);
    c = with_hall(with_line(seven, line, FULL), hall, FULL);
    finds(c, "aA", HEROVINGA_LINE, 0, 1, 7);
    finds(c, "mC", HEROVINGA_HALL, 0, 65, 9);
    finds(c, "", HEROVINGA_NO_TABLE, 0, 128, 14);
    finds(c, "zz", HEROVINGA_NO_TABLE, 0, 128, 12);
}

/* A card that the lookups refuse, with indexes and without. */
static void lookups_refused(const card_a *a)
{
    static const uint8_t bad[HEROVINGA_ROW_SIZE];
    herovinga_card c[4];
    const uint64_t positions[4] = {HEROVINGA_FIRST_LINE_ROW, HEROVINGA_WRONG_LINE_SIZE, 0, HEROVINGA_WRONG_CONJUNCTIONS};
    size_t i;
    int way;
    c[0] = with_line(of(a), bad, sizeof bad);
    c[1] = with_line(of(a), bad, sizeof bad - 1);
    c[2] = with_hall(c[1], bad, sizeof bad);
    c[3] = c[2];
    c[3].settings.conjunctions = LARGEST;
    for (i = 0; i < 4; i++) {
        const herovinga_indexed_card indexes = indexed(&c[i]);
        for (way = 0; way < WAYS; way++) {
            herovinga_found found;
            uint8_t got = look_up(way, &indexes, "s", 1, &found);
            check_found("a lookup refused", got, found, HEROVINGA_CARD, positions[i], HEROVINGA_NO_TABLE, 0, 0);
        }
    }
}

/* Card and indexes that each entry which takes both refuses, whatever name, text, place and total are. */
static void refused_indexes(herovinga_card c, const uint8_t *hall_index, size_t hall_size, const uint8_t *line_index, size_t line_size,
                            uint8_t number, uint64_t position)
{
    const herovinga_length minus_zero = {1, 0, 0}, odd = {5, 7, 0};
    static const char text[HEROVINGA_LONGEST_TEXT + 1];
    herovinga_indexed_card i;
    int way;
    i.card = c;
    i.hall_index = hall_index;
    i.hall_index_size = hall_size;
    i.line_index = line_index;
    i.line_index_size = line_size;
    for (way = BY_INDEXES; way < WAYS; way++) {
        herovinga_length total = minus_zero;
        herovinga_answer answer;
        herovinga_found found;
        uint8_t got = add_total_indexed(way, &total, &i, text, sizeof text, &answer);
        check_answer("an index before total and text", got, answer, number, position, zero);
        check("a wrong index leaves the total", same_length(total, minus_zero));
        total = odd;
        got = add_total_indexed(way, &total, &i, "1s", 2, &answer);
        check_answer("an index before a right text", got, answer, number, position, zero);
        check("a wrong index leaves the total", same_length(total, odd));
        got = read_total_indexed(way, &i, text, sizeof text, &answer);
        check_answer("an index before the text", got, answer, number, position, zero);
        got = read_total_indexed(way, &i, "1", 1, &answer);
        check_answer("an index before a text without units", got, answer, number, position, zero);
        got = read_part_indexed(way, &i, "1s", 2, SIZE_MAX, &answer);
        check_answer("an index before the place", got, answer, number, position, zero);
        got = look_up(way, &i, "jaw", 3, &found);
        check_found("an index before the name", got, found, number, position, HEROVINGA_NO_TABLE, 0, 0);
    }
}

/* All of 7, then the hall's index, then the line's with 128 more. Each has all wrong that the one before has. */
static void order_of_indexes(const card_a *a)
{
    static const uint8_t wrong_hall[6] = {5, 3, 1, 0, 4, 2}, wrong_line[3] = {1, 0, 2}, bad[HEROVINGA_ROW_SIZE];
    const herovinga_card seven = line_7(a);
    herovinga_card c = seven;
    refused_indexes(c, index_a, 6, wrong_line, 2, HEROVINGA_INDEX, HEROVINGA_FIRST_LINE_ROW);
    refused_indexes(c, index_a, 6, index_a + 3, 2, HEROVINGA_INDEX, HEROVINGA_FIRST_LINE_ROW + 1);
    refused_indexes(c, index_a, 6, index_7, 1, HEROVINGA_INDEX, HEROVINGA_FIRST_LINE_ROW + 2);
    refused_indexes(c, index_a, 6, wrong_line, 3, HEROVINGA_INDEX, HEROVINGA_FIRST_LINE_ROW + 2);
    refused_indexes(c, index_a, 6, NULL, 0, HEROVINGA_INDEX, HEROVINGA_FIRST_LINE_ROW + 2);
    refused_indexes(with_line(c, NULL, 0), index_a, 6, index_7, 1, HEROVINGA_INDEX, HEROVINGA_FIRST_LINE_ROW);
    refused_indexes(c, wrong_hall, 6, wrong_line, 2, HEROVINGA_INDEX, 4);
    refused_indexes(c, wrong_hall, 5, NULL, 0, HEROVINGA_INDEX, 6);
    refused_indexes(c, NULL, 0, index_7, 2, HEROVINGA_INDEX, 6);
    refused_indexes(with_hall(c, NULL, 0), index_a, 1, index_7, 2, HEROVINGA_INDEX, 0);
    c = with_line(c, bad, sizeof bad);
    refused_indexes(c, NULL, 0, NULL, 0, HEROVINGA_CARD, HEROVINGA_FIRST_LINE_ROW);
    c = with_hall(c, bad, sizeof bad);
    refused_indexes(c, NULL, 0, NULL, 0, HEROVINGA_CARD, 0);
    c.settings.default_kind = 8;
    refused_indexes(c, NULL, 0, NULL, 0, HEROVINGA_CARD, HEROVINGA_WRONG_DEFAULT_KIND);
}

/* Numerals are wrong before an index is, but for a lookup, which they are no part of. */
static void numerals_before_indexes(const card_a *a)
{
    herovinga_indexed_card i = indexed(&(const herovinga_card){0});
    int way;
    i.card = with_numerals(line_7(a), own, HEROVINGA_ROW_SIZE - 1);
    for (way = BY_INDEXES; way < WAYS; way++) {
        herovinga_answer answer;
        herovinga_found found;
        uint8_t got = read_total_indexed(way, &i, "1s", 2, &answer);
        check_answer("numerals before an index", got, answer, HEROVINGA_CARD, HEROVINGA_WRONG_NUMERALS_SIZE, zero);
        got = look_up(way, &i, "s", 1, &found);
        check_found("no numerals of a lookup", got, found, HEROVINGA_INDEX, 6, HEROVINGA_NO_TABLE, 0, 0);
    }
}

/* ---- stored rows moved from one form to the other */

enum { MOST_LINES = 4, TARGET = (MOST_LINES + 1) * HEROVINGA_LINE_SIZE };

/* A form of rows, by its room for the name, and the entry that moves its lines to the other form. */
typedef struct form {
    size_t room;
    uint8_t (*move)(const uint8_t *source, size_t source_size, uint8_t *target, size_t target_size, herovinga_answer *answer);
} form;

static const form old_form = {HEROVINGA_OLD_NAME_ROOM, herovinga_move_to_new}, new_form = {HEROVINGA_NAME_ROOM, herovinga_move_to_old};

static size_t line_size(const form *f)
{
    return f->room == HEROVINGA_NAME_ROOM ? HEROVINGA_LINE_SIZE : HEROVINGA_OLD_LINE_SIZE;
}

/* A row's line in a form: a name, and behind its room kind, coefficient and power of no unit, and four zeros. */
static void put_line(const form *f, uint8_t *line, const char *name)
{
    static const uint8_t behind[15] = {255, 1, 2, 3, 4, 5, 6, 7, 8, 0x9a, 0xbc, 0, 0, 0, 0};
    uint8_t row[HEROVINGA_ROW_SIZE] = {0};
    const size_t size = 1 + f->room + sizeof behind;
    size_t i;
    row[0] = (uint8_t)strlen(name);
    memcpy(row + 1, name, strlen(name));
    memcpy(row + 1 + f->room, behind, sizeof behind);
    for (i = 0; i < size; i++) {
        line[2 * i] = (uint8_t)"0123456789abcdef"[row[i] / 16];
        line[2 * i + 1] = (uint8_t)"0123456789abcdef"[row[i] % 16];
    }
    line[2 * size] = '\n';
}

/* Lines of a form by their names, one behind another; returns their size. */
static size_t put_lines(const form *f, uint8_t *lines, const char *const *names, size_t count)
{
    size_t i;
    for (i = 0; i < count; i++)
        put_line(f, lines + i * line_size(f), names[i]);
    return count * line_size(f);
}

/* Lines of a form, moved into so much of a guarded target: what is handed back, and what the target then begins with, nothing if they are refused. */
static void moves(const form *f, const uint8_t *source, size_t size, size_t room, uint8_t number, uint64_t position, const uint8_t *wanted)
{
    static uint8_t target[TARGET], target_then[TARGET];
    herovinga_answer answer = unwritten();
    uint8_t got;
    put_guarded(target, sizeof target, NULL, 0);
    put_guarded(target_then, sizeof target_then, wanted, wanted == NULL ? 0 : (size_t)position);
    got = f->move(size == 0 ? NULL : source, size, room == 0 ? NULL : target, room, &answer);
    check_answer("lines moved", got, answer, number, position, zero);
    check("the target then", memcmp(target, target_then, sizeof target) == 0);
}

/* There and back, into targets that are just large enough, larger, too short by one byte and by all of them. */
static void moved_lines(void)
{
    static const char *const names[MOST_LINES] = {"s", "\302\265s", "abcdefghijklmno", "abcdefghijklmnop"};
    uint8_t old_lines[TARGET], new_lines[TARGET];
    size_t count;
    for (count = 0; count <= MOST_LINES; count++) {
        const size_t old_size = put_lines(&old_form, old_lines, names, count), new_size = put_lines(&new_form, new_lines, names, count);
        moves(&old_form, old_lines, old_size, new_size, HEROVINGA_DONE, new_size, new_lines);
        moves(&old_form, old_lines, old_size, TARGET, HEROVINGA_DONE, new_size, new_lines);
        moves(&new_form, new_lines, new_size, old_size, HEROVINGA_DONE, old_size, old_lines);
        moves(&new_form, new_lines, new_size, TARGET, HEROVINGA_DONE, old_size, old_lines);
        if (count > 0) {
            moves(&old_form, old_lines, old_size, new_size - 1, HEROVINGA_NO_ROOM, 0, NULL);
            moves(&old_form, old_lines, old_size, 0, HEROVINGA_NO_ROOM, 0, NULL);
            moves(&new_form, new_lines, new_size, old_size - 1, HEROVINGA_NO_ROOM, 0, NULL);
            moves(&new_form, new_lines, new_size, 0, HEROVINGA_NO_ROOM, 0, NULL);
        }
    }
}

/* Two digits of a line changed: each line in turn is refused, whatever room there is. */
static void no_stored_row(const form *f, size_t byte, const char *digits)
{
    static const char *const names[MOST_LINES] = {"s", "ms", "min", "turn"};
    uint8_t lines[TARGET];
    size_t line;
    for (line = 0; line < MOST_LINES; line++) {
        const size_t size = put_lines(f, lines, names, MOST_LINES);
        memcpy(lines + line * line_size(f) + 2 * byte, digits, 2);
        moves(f, lines, size, TARGET, HEROVINGA_NO_STORED_ROW, line, NULL);
        moves(f, lines, size, 0, HEROVINGA_NO_STORED_ROW, line, NULL);
        moves(f, lines, (line + 1) * line_size(f), TARGET, HEROVINGA_NO_STORED_ROW, line, NULL);
    }
}

/* Lines of wrong length, by the bytes of the last; with a newline more, with one less, and the other form's. */
static void wrong_lengths_of_lines(const form *f, const form *other)
{
    static const char *const names[MOST_LINES] = {"s", "ms", "min", "turn"};
    uint8_t lines[TARGET];
    size_t size = put_lines(f, lines, names, MOST_LINES - 1), bytes;
    for (bytes = 1; bytes < line_size(f); bytes++)
        moves(f, lines, size - bytes, TARGET, HEROVINGA_NO_STORED_ROW, MOST_LINES - 2, NULL);
    lines[size] = '\n';
    moves(f, lines, size + 1, TARGET, HEROVINGA_NO_STORED_ROW, MOST_LINES - 1, NULL);
    lines[size] = '0';
    moves(f, lines, size + 1, TARGET, HEROVINGA_NO_STORED_ROW, MOST_LINES - 1, NULL);
    lines[size - 1] = '0';
    moves(f, lines, size, TARGET, HEROVINGA_NO_STORED_ROW, MOST_LINES - 2, NULL);
    lines[size] = '\n';
    moves(f, lines, size + 1, TARGET, HEROVINGA_NO_STORED_ROW, MOST_LINES - 2, NULL);
    moves(f, lines + size, 1, TARGET, HEROVINGA_NO_STORED_ROW, 0, NULL);
    size = put_lines(other, lines, names, MOST_LINES);
    moves(f, lines, size, TARGET, HEROVINGA_NO_STORED_ROW, 0, NULL);
}

/* 24: bytes, the size of the name, the zeros behind it and those at the row's end; and lengths. */
static void lines_not_moved(void)
{
    static const form *const forms[2] = {&old_form, &new_form};
    size_t i, byte;
    for (i = 0; i < 2; i++) {
        const form *f = forms[i];
        const size_t zeros = 1 + f->room + 11;
        char too_long[3];
        static const char *const no_digits[] = {"0A", "F0", "g0", "0/", ":0", "0`", " 0", "0\n", "\n0", "0\377"};
        for (byte = 0; byte < sizeof no_digits / sizeof no_digits[0]; byte++) {
            no_stored_row(f, 0, no_digits[byte]);
            no_stored_row(f, 1 + f->room, no_digits[byte]);
            no_stored_row(f, zeros + 3, no_digits[byte]);
        }
        snprintf(too_long, sizeof too_long, "%02x", (unsigned)f->room + 1);
        no_stored_row(f, 0, "00");
        no_stored_row(f, 0, too_long);
        no_stored_row(f, 0, "ff");
        for (byte = 5; byte <= f->room; byte++)
            no_stored_row(f, byte, "01");
        for (byte = 0; byte < 4; byte++)
            no_stored_row(f, zeros + byte, "80");
        wrong_lengths_of_lines(f, forms[1 - i]);
    }
}

/* 25 at each line, by names of 17 bytes and of 32; the first bad line decides between 24 and 25, and both come before 9. */
static void order_of_lines(void)
{
    static const char *const names[MOST_LINES] = {"s", "ms", "min", "turn"}, *const long_names[] = {"abcdefghijklmnopq", LONGEST, CYRILLIC};
    uint8_t lines[TARGET];
    size_t size, line, later, name;
    for (line = 0; line < MOST_LINES; line++)
        for (name = 0; name < sizeof long_names / sizeof long_names[0]; name++) {
            size = put_lines(&new_form, lines, names, MOST_LINES);
            put_line(&new_form, lines + line * HEROVINGA_LINE_SIZE, long_names[name]);
            moves(&new_form, lines, size, TARGET, HEROVINGA_NAME_TOO_LONG, line, NULL);
            moves(&new_form, lines, size, 0, HEROVINGA_NAME_TOO_LONG, line, NULL);
            for (later = 0; later < MOST_LINES; later++) {
                lines[later * HEROVINGA_LINE_SIZE] = 'x';
                moves(&new_form, lines, size, 0, later <= line ? HEROVINGA_NO_STORED_ROW : HEROVINGA_NAME_TOO_LONG, later <= line ? later : line, NULL);
                lines[later * HEROVINGA_LINE_SIZE] = later == line && name > 0 ? '2' : later == line ? '1' : '0';
            }
        }
}

int main(void)
{
    card_a a, before;
    uint8_t own_before[sizeof own], words_before[sizeof words];
    unsigned long sum = 0;
    int i;
    make_card_a(&a);
    make_tables();
    before = a;
    memcpy(own_before, own, sizeof own);
    memcpy(words_before, words, sizeof words);
    layout();
    readings(&a);
    parts(&a);
    exponents(&a);
    texts_that_end(&a);
    delimiters_at_the_end(&a);
    conjunction_slips(&a);
    fraction_slips(&a);
    exponent_slips(&a);
    infinity_slips(&a);
    order_of_slips(&a);
    nothing_there(&a);
    switches(&a);
    counts(&a);
    too_large(&a);
    cards(&a);
    names_led_by_e(&a);
    long_names(&a);
    tables(&a);
    line_wins(&a);
    line_names(&a);
    line_tables(&a);
    order_of_tables(&a);
    spoken(&a);
    numerals_alone(&a);
    products(&a);
    numeral_tables(&a);
    writings();
    shift_totals(&a);
    iso_readings();
    iso_writings();
    order_of_names(&a);
    made_indexes(&a);
    wrong_entries(&a);
    wrong_lengths(&a);
    replaced_rows(&a);
    rows_not_replaced(&a);
    lookups(&a);
    lookups_refused(&a);
    order_of_indexes(&a);
    numerals_before_indexes(&a);
    moved_lines();
    lines_not_moved();
    order_of_lines();
    check("the card is as it was", memcmp(&a, &before, sizeof a) == 0);
    check("the line's table is as it was", memcmp(own, own_before, sizeof own) == 0);
    check("the numerals are as they were", memcmp(words, words_before, sizeof words) == 0);
    for (i = 0; i < NUMBERS; i++) {
        sum += answers[i];
        if (i == NOT_GIVEN)
            check("2 is not handed back", answers[i] == 0);
        else
            check("every number was handed back", answers[i] > 0);
    }
    printf("%lu answers, %lu checks, %lu wrong\n", sum, checks, wrong);
    return wrong != 0;
}

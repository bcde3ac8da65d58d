/* Card A of document 01, made in C: its settings, and the six rows of the hall's table. */
#ifndef CARD_A_H
#define CARD_A_H

#include <string.h>

#include "herovinga.h"

/* The tables of a herovinga_card are lent, so they are kept here. */
typedef struct card_a {
    herovinga_settings settings;
    uint8_t hall[6 * HEROVINGA_ROW_SIZE];
} card_a;

static void put_row(uint8_t *row, const char *name, enum herovinga_kind kind, int64_t coefficient, int16_t power)
{
    size_t i;
    memset(row, 0, HEROVINGA_ROW_SIZE);
    row[HEROVINGA_NAME_SIZE_AT] = (uint8_t)strlen(name);
    memcpy(row + HEROVINGA_NAME_AT, name, strlen(name));
    row[HEROVINGA_KIND_AT] = (uint8_t)kind;
    for (i = 0; i < HEROVINGA_COEFFICIENT_SIZE; i++)
        row[HEROVINGA_COEFFICIENT_AT + i] = (uint8_t)((uint64_t)coefficient >> (8 * i));
    for (i = 0; i < HEROVINGA_POWER_SIZE; i++)
        row[HEROVINGA_POWER_AT + i] = (uint8_t)((uint16_t)power >> (8 * i));
}

static herovinga_conjunction conjunction(const char *word)
{
    herovinga_conjunction c = {0, 0};
    for (; word[c.size] != 0; c.size++)
        c.letters |= (uint64_t)(unsigned char)word[c.size] << (8 * c.size);
    return c;
}

/* All switches on but the one after a sign; the space delimits; the conjunction `and`; numbers without a unit are seconds. */
static void make_card_a(card_a *a)
{
    const uint64_t space = (uint64_t)1 << ' ';
    memset(a, 0, sizeof *a);
    a->settings.negatives = 1;
    a->settings.fractions = 1;
    a->settings.exponents = 1;
    a->settings.infinity = 1;
    a->settings.ago = 1;
    a->settings.before_unit = 1;
    a->settings.inner[0] = space;
    a->settings.outer[0] = space;
    a->settings.conjunctions = 1;
    a->settings.conjunction[0] = conjunction("and");
    a->settings.default_kind = HEROVINGA_SECOND;
    put_row(a->hall, "ns", HEROVINGA_NANOSECOND, 1, 0);
    put_row(a->hall + HEROVINGA_ROW_SIZE, "ms", HEROVINGA_MILLISECOND, 1, 0);
    put_row(a->hall + 2 * HEROVINGA_ROW_SIZE, "s", HEROVINGA_SECOND, 1, 0);
    put_row(a->hall + 3 * HEROVINGA_ROW_SIZE, "min", HEROVINGA_MINUTE, 1, 0);
    put_row(a->hall + 4 * HEROVINGA_ROW_SIZE, "turn", HEROVINGA_MILLISECOND, 123, -1);
    put_row(a->hall + 5 * HEROVINGA_ROW_SIZE, "block", HEROVINGA_SECOND, 10000000000, 0);
}

/* The card with no table but the hall's; a line's and numerals may be put beside it. */
static herovinga_card lent(const card_a *a)
{
    herovinga_card c = {0};
    c.settings = a->settings;
    c.hall = a->hall;
    c.hall_size = sizeof a->hall;
    return c;
}

#endif

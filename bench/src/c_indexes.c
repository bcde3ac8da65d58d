/* One call so many times under a table of so many rows and its index, as C makes it, and what it hands back: its number, and for a lookup the row and
 * the names that were compared.
 *
 *     c_indexes ROUNDS CALL ROWS [NAME]
 *
 * CALL is make, make-down, check, replace, lookup, indexed-lookup, total or indexed-total; a total is that of `1` and the name. The table's names have
 * 32 bytes that differ in the last, as those of bench/full_table.cards have, but for the last row's, which is `s`: rows are counted upward, so
 * that `s` is the last to be looked at and the last in order. For make-down they stand the other way round, so that each sinks below all before it. */
#include <inttypes.h>
#include <stdio.h>
#include <stdlib.h>
#include <string.h>

#include "card_a.h"
#include "herovinga.h"

#define MOST HEROVINGA_MOST_ROWS

/* What the names begin with, which leaves room for one byte. */
static const char beginning[HEROVINGA_NAME_ROOM] = "abcdefghijklmnopqrstuvwxyzABCDE";

/* The name of a row: the beginning and a byte from 192 on, or `s` for the last. */
static size_t name_of(char *name, size_t row, size_t rows)
{
    if (row + 1 == rows) {
        strcpy(name, "s");
        return 1;
    }
    memcpy(name, beginning, HEROVINGA_NAME_ROOM - 1);
    name[HEROVINGA_NAME_ROOM - 1] = (char)(192 + row);
    return HEROVINGA_NAME_ROOM;
}

static void put_named(uint8_t *at, const char *name, size_t size)
{
    memset(at, 0, HEROVINGA_ROW_SIZE);
    at[HEROVINGA_NAME_SIZE_AT] = (uint8_t)size;
    memcpy(at + HEROVINGA_NAME_AT, name, size);
    at[HEROVINGA_KIND_AT] = HEROVINGA_SECOND;
    at[HEROVINGA_COEFFICIENT_AT] = 1;
}

int main(int argc, char **argv)
{
    static uint8_t table[MOST * HEROVINGA_ROW_SIZE], index[MOST], fresh[HEROVINGA_ROW_SIZE];
    card_a a;
    herovinga_settings settings;
    herovinga_answer answer;
    herovinga_found found = {0};
    char name[HEROVINGA_NAME_ROOM + 1] = "s", text[HEROVINGA_NAME_ROOM + 2];
    size_t rows, row, size = 1, table_size;
    uint64_t left;
    uint8_t number = 0;
    if (argc < 4) {
        fprintf(stderr, "usage: c_indexes ROUNDS CALL ROWS [NAME]\n");
        return 2;
    }
    rows = strtoull(argv[3], NULL, 10);
    if (rows > MOST)
        return 2;
    make_card_a(&a);
    settings = lent(&a).settings;
    for (row = 0; row < rows; row++) {
        size = name_of(name, strcmp(argv[2], "make-down") == 0 ? rows - 1 - row : row, rows);
        put_named(table + row * HEROVINGA_ROW_SIZE, name, size);
    }
    table_size = rows * HEROVINGA_ROW_SIZE;
    if (herovinga_make_index(&settings, table, table_size, index, rows, &answer) != 0)
        return 1;
    if (argc > 4 && strcmp(argv[4], "first") == 0)
        size = name_of(name, 0, rows);
    else if (argc > 4 && strcmp(argv[4], "missing") == 0)
        size = (size_t)sprintf(name, "x");
    else
        size = (size_t)sprintf(name, "s");
    text[0] = '1';
    memcpy(text + 1, name, size);
    put_named(fresh, "a", 1);
    for (left = strtoull(argv[1], NULL, 10); left > 0; left--) {
        const char *call = argv[2];
        if (strncmp(call, "make", 4) == 0)
            number = herovinga_make_index(&settings, table, table_size, index, rows, &answer);
        else if (strcmp(call, "check") == 0)
            number = herovinga_check_index(&settings, table, table_size, index, rows, &answer);
        else if (strcmp(call, "replace") == 0)
            number = herovinga_replace_row(&settings, table, table_size, index, rows, rows - 1, fresh, sizeof fresh, &answer);
        else if (strcmp(call, "lookup") == 0)
            number = herovinga_look_up(&settings, table, table_size, NULL, 0, (const uint8_t *)name, size, &found);
        else if (strcmp(call, "indexed-lookup") == 0)
            number = herovinga_look_up_indexed(&settings, table, table_size, index, rows, NULL, 0, NULL, 0, (const uint8_t *)name, size, &found);
        else if (strcmp(call, "total") == 0)
            number = herovinga_read_total(&settings, table, table_size, NULL, 0, NULL, 0, (const uint8_t *)text, size + 1, &answer);
        else if (strcmp(call, "indexed-total") == 0)
            number = herovinga_read_total_indexed(&settings, table, table_size, index, rows, NULL, 0, NULL, 0, NULL, 0, (const uint8_t *)text, size + 1, &answer);
        else
            return 2;
    }
    printf("%u %" PRIu64 " %" PRIu64 " %" PRIu64 "\n", number, found.table, found.row, found.compared);
    return 0;
}

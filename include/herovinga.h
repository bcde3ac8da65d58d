/* Herovinga for C99 and C++: timings that are read exactly.
 *
 * Sixteen functions, over numbers and bytes: a part of a text, a text's total, a length written, a shift total added to, an ISO 8601 duration
 * read, and a length written as one; an index beside a unit table made, checked, and kept while a row is replaced; part, total and shift total
 * through such indexes; a name looked up without them and through them; and stored rows moved from their old form to the new one and back. They
 * keep nothing between calls, so any number of threads may call them. The library is target/staticlib/libherovinga.a (./library), for Linux on
 * x86-64, from x86-64-v2 on; every function in it is proved to answer as document 01 and the requests that followed it say, whatever it is
 * passed. Eight more stand here in C and only call those of the library that read a text or look up a name: they take what it is read under as
 * one card.
 *
 * Each function returns a number of enum herovinga_number and writes the whole answer. On 0 the answer has the position and the length
 * that stand at the function below; on a refusal it has the position that stands at the number, and a length of zero with a plus, and
 * nothing else that was passed has changed. A lookup writes a herovinga_found in the place of an answer, with zeros behind the position of a
 * refusal.
 *
 * What a caller owes:
 * - A pointer to a card, settings, a length, a total, an answer or what is found points to one, and is not null.
 * - A pointer to bytes points to as many as the size beside it says. With size 0 it may be null.
 * - What a function writes (answer, found, total, buffer, the index that it makes, the table and the index of which it replaces a row, the
 *   target of a move) overlaps nothing else that the call is passed. So the length to be written is not the one within the answer, a new row is
 *   not one of the table that it goes into, and lines are not moved in place. What it only reads (card, settings, tables, indexes, text, name,
 *   length, source) may overlap, and no other thread changes it meanwhile.
 * Nothing else: every value of every word, byte, size and place has an answer.
 */
#ifndef HEROVINGA_H
#define HEROVINGA_H

#include <stddef.h>
#include <stdint.h>

#ifdef __cplusplus
extern "C" {
#endif

/* What is handed back, and the position that then stands in the answer; places are counted from the start of the text, also where a part is
 * read from further on. The first test that fails decides, in the order 7, 23, 11, 8, 10 and then left to right through the text, with 16 and 5
 * last in their part; the writer's order is 11, 10, 9. For an ISO text it is 8, then 12 and 13 left to right, and 14 last; for the ISO
 * writer 11, 5, 10, 9. For an index by itself it is 7, 23, and where a row is replaced then 10, and 7 again. For a move it is 24 and 25, the
 * first line that has one of them deciding, and 9 last. */
enum herovinga_number {
    HEROVINGA_DONE = 0,           /* read, written or moved: the next place, or the text's size for a total and for an ISO text */
    HEROVINGA_NOTHING = 1,        /* nothing at the place: the place */
    HEROVINGA_EXPONENT_ABOVE = 3, /* an exponent above 32767: the digit with which it passes that */
    HEROVINGA_EXPONENT_BELOW = 4, /* an exponent below -32768: the digit with which it passes that */
    HEROVINGA_NEGATIVE = 5,       /* a part is negative while negatives are off, or a length is that is to be written as ISO: 0 */
    HEROVINGA_NO_NUMBER = 6,      /* a part begins with no number, and with no numeral that delimiters follow: that byte */
    HEROVINGA_CARD = 7,           /* settings or a table are wrong: one of enum herovinga_wrong, or the number of the hall's first bad row */
    HEROVINGA_TEXT_TOO_LONG = 8,  /* a text of more than 4,096 bytes: 4096 */
    HEROVINGA_NO_ROOM = 9,        /* the buffer has fewer bytes left than the length needs: the place; the target than the moved lines have: 0 */
    HEROVINGA_BEYOND = 10,        /* a place beyond the text or the buffer: the place; a row to be replaced past the last: its number */
    HEROVINGA_MALFORMED = 11,     /* no length: 1,000,000,000 nanoseconds or more, or zero with a minus: 0 */
    HEROVINGA_NOT_ISO = 12,       /* no right ISO text has this byte here, or it ends too soon: that place */
    HEROVINGA_YEAR_OR_MONTH = 13, /* the letter of years or months, which have no length: that byte */
    HEROVINGA_TOO_LARGE = 14,     /* an ISO text beyond the largest length: 0 */
    HEROVINGA_NO_UNIT = 15,       /* no unit behind a numeral and its delimiters: the byte behind them, which is 5 for "five x" */
    HEROVINGA_OUT_OF_RANGE = 16,  /* numeral times unit is out of range, as "most min" is if most is 9223372036854775807: 0 */

    /* Slips in the typing of a text, and where they are to be mended. They were one number, 2, which is no longer given. */
    HEROVINGA_TEXT_ENDS = 17,      /* the text ends after a sign or within an exponent, as "+" and "1e-" do: its size, where digits are wanted */
    HEROVINGA_DELIMITERS_END = 18, /* delimiters end the text, as in "1s ": the first of them, from which on they are to go */
    HEROVINGA_CONJUNCTION = 19,    /* a conjunction ends the text, as in "1s and": its first byte, and a part is wanted behind it; or no outer
                                      delimiter, digit or sign is behind it, as in "1s android": the byte where one is wanted */
    HEROVINGA_FRACTION = 20,       /* a point with a digit on neither side, as in ".s", or while fractions are off: the point, which is to go */
    HEROVINGA_EXPONENT = 21,       /* a byte in the place of an exponent's digit, as in "1ex": that byte; or exponents are off: the 'e' to go */
    HEROVINGA_INFINITY = 22,       /* the text ends within "infinity", as in "infi": its first byte, and the whole word is wanted; or a letter of
                                      it is wrong, as in "infix", or no outer delimiter is behind it, as in "inf+1": that byte */

    HEROVINGA_INDEX = 23, /* an index is not its table's, and is to be made anew: the number of rows, if it has another length; else its first entry
                             that is not the one of the true order. The hall's index is looked at first; 128 more for the line's */

    /* A line of stored rows that cannot be moved: its number, the first line being 0. */
    HEROVINGA_NO_STORED_ROW = 24, /* it has another length than a row's line, or a byte that is no digit; or the size of its name is wrong, or a byte
                                     behind the name or at the row's end is not zero */
    HEROVINGA_NAME_TOO_LONG = 25  /* its name has more than 16 bytes, and the old form has no room for it */
};

/* Positions of number 7 beside those of the hall's rows, which are 0 to 63. What is wrong is looked for in the order settings, hall, line,
 * numerals: 65, 66, 67; 64, the hall's rows upward; 192, the line's rows upward; 100, numerals upward. */
enum herovinga_wrong {
    HEROVINGA_WRONG_HALL_SIZE = 64,
    HEROVINGA_WRONG_DELIMITERS = 65,
    HEROVINGA_WRONG_CONJUNCTIONS = 66,
    HEROVINGA_WRONG_DEFAULT_KIND = 67,
    HEROVINGA_FIRST_NUMERAL = 68, /* plus the number of the first bad numeral: 68 to 99 */
    HEROVINGA_WRONG_NUMERALS_SIZE = 100,
    HEROVINGA_FIRST_LINE_ROW = 128, /* plus the number of the line's first bad row: 128 to 191; for 23 plus that of its index's first bad entry */
    HEROVINGA_WRONG_LINE_SIZE = 192
};

/* Unit kinds: of a row, and of a number without a unit. */
enum herovinga_kind {
    HEROVINGA_NANOSECOND = 0,
    HEROVINGA_MICROSECOND = 1,
    HEROVINGA_MILLISECOND = 2,
    HEROVINGA_SECOND = 3,
    HEROVINGA_MINUTE = 4,
    HEROVINGA_HOUR = 5,
    HEROVINGA_DAY = 6,
    HEROVINGA_WEEK = 7
};

/* The rows of units and of numerals: where each field of a row stands, and how many bytes it has. */
enum herovinga_row {
    HEROVINGA_NAME_SIZE_AT = 0, /* one byte: how many bytes the name has, 1 to 32 */
    HEROVINGA_NAME_AT = 1,
    HEROVINGA_NAME_ROOM = 32, /* zeros behind the name */
    HEROVINGA_KIND_AT = 33,   /* one byte */
    HEROVINGA_COEFFICIENT_AT = 34,
    HEROVINGA_COEFFICIENT_SIZE = 8, /* two's complement, low byte first */
    HEROVINGA_POWER_AT = 42,
    HEROVINGA_POWER_SIZE = 2, /* the same */
    HEROVINGA_ZEROS_AT = 44,  /* zeros up to the row's end */
    HEROVINGA_ROW_SIZE = 48,
    HEROVINGA_MOST_ROWS = 64, /* of each unit table */
    HEROVINGA_MOST_NUMERALS = 32
};

/* The stored form of a row: two lower-case hexadecimal digits for each byte, and a newline. A row was stored in 32 bytes before, with 16 for the
 * name and the other fields in the same order behind them. */
enum herovinga_stored {
    HEROVINGA_OLD_NAME_ROOM = 16,
    HEROVINGA_OLD_ROW_SIZE = 32,
    HEROVINGA_OLD_LINE_SIZE = 65, /* bytes of a line of the old form, the newline included */
    HEROVINGA_LINE_SIZE = 97      /* the same of the new form, which is that of the rows above */
};

/* The tables that a lookup can find a name in. */
enum herovinga_table {
    HEROVINGA_NO_TABLE = 0,
    HEROVINGA_HALL = 1,
    HEROVINGA_LINE = 2
};

enum herovinga_limit {
    HEROVINGA_LONGEST_TEXT = 4096, /* bytes of a text that is read */
    HEROVINGA_LONGEST_FORM = 31,   /* bytes of a length that is written, at most */
    HEROVINGA_LONGEST_ISO = 35     /* the same for one that is written as ISO */
};

/* A length of time. The sign is minus if negative is not 0; in an answer and in a total that was added to it is 0 or 1. */
typedef struct herovinga_length {
    uint64_t negative;
    uint64_t seconds;
    uint64_t nanoseconds; /* 0 to 999999999; all else is refused by 11 */
} herovinga_length;

typedef struct herovinga_answer {
    uint64_t position;
    herovinga_length length;
} herovinga_answer;

/* What a lookup hands back. */
typedef struct herovinga_found {
    uint64_t position;
    uint64_t table;    /* one of enum herovinga_table */
    uint64_t row;      /* the number of the row in that table that has the name, 0 if none has it */
    uint64_t compared; /* how many names it was compared with */
} herovinga_found;

/* A word that may stand between two parts: 1 to 8 ASCII letters, the first in the low byte. */
typedef struct herovinga_conjunction {
    uint64_t size;
    uint64_t letters;
} herovinga_conjunction;

/* A switch is on if it is not 0. A count, a size or a kind that is too large is refused by 7, however large it is. */
typedef struct herovinga_settings {
    uint64_t negatives;   /* a part may be below zero */
    uint64_t fractions;   /* 1.5 */
    uint64_t exponents;   /* 1e3 */
    uint64_t infinity;    /* inf, infinity */
    uint64_t ago;         /* 5ms ago */
    uint64_t after_sign;  /* inner delimiters may follow a sign */
    uint64_t before_unit; /* inner delimiters may stand between a number and its unit */
    uint64_t inner[4];    /* delimiters within a part: byte b is held if bit b % 64 of word b / 64 is 1 */
    uint64_t outer[4];    /* delimiters between two parts */
    uint64_t conjunctions; /* how many of the four count */
    herovinga_conjunction conjunction[4];
    uint64_t default_kind; /* of a number without a unit */
} herovinga_settings;

/* What a text is read under: settings, the hall's table of units, the line's, and one of numerals. A table is lent, and with size 0 it is
 * empty and may be null. */
typedef struct herovinga_card {
    herovinga_settings settings;
    const uint8_t *hall;
    size_t hall_size;
    const uint8_t *line;
    size_t line_size;
    const uint8_t *numerals;
    size_t numerals_size;
} herovinga_card;

/* A card with an index beside each of its two unit tables, lent too. The index of an empty table is empty and may be null. */
typedef struct herovinga_indexed_card {
    herovinga_card card;
    const uint8_t *hall_index;
    size_t hall_index_size;
    const uint8_t *line_index;
    size_t line_index_size;
} herovinga_indexed_card;

/* How to make a card.
 *
 * Begin with all zeros (herovinga_card c = {0}): every switch is off, no byte delimits, there is no conjunction, a number without a unit
 * is nanoseconds, and every table is empty. Then set what is wanted:
 *
 *     c.settings.fractions = 1;
 *     c.settings.default_kind = HEROVINGA_SECOND;
 *     c.settings.inner[' ' / 64] |= (uint64_t)1 << (' ' % 64);
 *     c.settings.outer[' ' / 64] |= (uint64_t)1 << (' ' % 64);
 *     c.settings.conjunctions = 1;
 *     c.settings.conjunction[0].size = 3;
 *     c.settings.conjunction[0].letters = 'a' | 'n' << 8 | 'd' << 16;
 *
 * A delimiter is below 128 and is no letter, digit, '+', '-' or '.'. Where several conjunctions fit, the first listed one is taken,
 * and not the longest. Letters behind a conjunction's size and conjunctions behind the count are not looked at.
 *
 * A table of units is up to 64 rows of 48 bytes, one behind another, and its size is 48 times their number. A row names a unit: its kind,
 * times its coefficient, times ten to its power. So with the name "ms", HEROVINGA_MILLISECOND, 1 and 0 are a millisecond, and with the
 * name "turn", HEROVINGA_MILLISECOND, 123 and -1 are 12.3 of them:
 *
 *     uint8_t row[HEROVINGA_ROW_SIZE] = {0};
 *     row[HEROVINGA_NAME_SIZE_AT] = 4;
 *     memcpy(row + HEROVINGA_NAME_AT, "turn", 4);
 *     row[HEROVINGA_KIND_AT] = HEROVINGA_MILLISECOND;
 *     row[HEROVINGA_COEFFICIENT_AT] = 123;
 *     row[HEROVINGA_POWER_AT] = 0xff;
 *     row[HEROVINGA_POWER_AT + 1] = 0xff;
 *     c.hall = row;
 *     c.hall_size = sizeof row;
 *
 * There are two such tables: the hall's, and the line's own. A unit is looked for in the line's first and then in the hall's, so the line's
 * rows win: with a row "turn" of 15 ms in c.line, "1turn" is that, and behind it all else is the hall's. Each table is checked by itself,
 * and may have up to 64 rows beside the other's; a name may stand in both.
 *
 * A name has 1 to 32 bytes, so sixteen letters of two bytes each fill it. It holds no delimiter of either set, no digit, no '+', '-' or '.', and
 * no two rows of a table have the same. Names are compared byte for byte, so "S" is not "s". A name led by 'e' or 'E' needs exponents on
 * ("3e0eon"), or before_unit on and an inner set that is not empty ("3 eon"): straight after a number such a letter begins an exponent, and
 * nobody could type the unit. Kind times row, coefficients multiplied and powers added, lies within plus or minus 9223372036854775807 and -32768
 * to 32767.
 *
 * Numerals are words for numbers: up to 32 rows of the same form, or none. A numeral's name is 1 to 32 ASCII letters and nothing else, its kind
 * is HEROVINGA_SECOND, and it stands for its coefficient times ten to its power, in the same ranges: with the name "half", 5 and -1 are 0.5. No
 * two have the same name, but a unit may have it too. A text has a numeral in the place of a number, behind it inner delimiters, whatever
 * before_unit is, and then a unit: "five min", "-five min ago". Numeral times kind, and that times the unit's row, are in those ranges, or the
 * reading is refused by 16.
 *
 * Every call checks the card, and a wrong one is 7 whatever the text is. examples/c/read_line.c makes a whole card.
 */

/* Reads one part of a text from a place on, what connects it with the next one included, under settings, the hall's table, the line's and
 * numerals. Position: the place where the next part begins, which is the text's size after the last one. Length: the part's. */
uint8_t herovinga_read_part(const herovinga_settings *settings, const uint8_t *hall, size_t hall_size, const uint8_t *line,
                            size_t line_size, const uint8_t *numerals, size_t numerals_size, const uint8_t *text, size_t text_size,
                            size_t place, herovinga_answer *answer);

/* Reads all parts of a text under the same settings and tables. Position: the text's size. Length: their sum, each sum on the way held
 * between the least and the largest length. */
uint8_t herovinga_read_total(const herovinga_settings *settings, const uint8_t *hall, size_t hall_size, const uint8_t *line,
                             size_t line_size, const uint8_t *numerals, size_t numerals_size, const uint8_t *text, size_t text_size,
                             herovinga_answer *answer);

/* Writes a length at a place of the buffer, as "+0.0617": its sign, its seconds and, if there are nanoseconds, a point and nine digits less
 * trailing zeros. Position: the place behind it. Length: the one written. No other byte of the buffer changes, and none on a refusal. */
uint8_t herovinga_write(const herovinga_length *length, uint8_t *buffer, size_t buffer_size, size_t place, herovinga_answer *answer);

/* Adds a text's total, read under such settings and tables, to the shift total that is lent, held between the least and the largest length.
 * Position: the text's size. Length: the new total, which then also stands in *total. A refusal leaves *total as it was. */
uint8_t herovinga_add_total(herovinga_length *total, const herovinga_settings *settings, const uint8_t *hall, size_t hall_size,
                            const uint8_t *line, size_t line_size, const uint8_t *numerals, size_t numerals_size, const uint8_t *text,
                            size_t text_size, herovinga_answer *answer);

/* These three under a card, so that no two tables are mixed up: herovinga_read_part, herovinga_read_total and herovinga_add_total. */
static inline uint8_t herovinga_card_read_part(const herovinga_card *card, const uint8_t *text, size_t text_size, size_t place,
                                               herovinga_answer *answer)
{
    return herovinga_read_part(&card->settings, card->hall, card->hall_size, card->line, card->line_size, card->numerals,
                               card->numerals_size, text, text_size, place, answer);
}

static inline uint8_t herovinga_card_read_total(const herovinga_card *card, const uint8_t *text, size_t text_size, herovinga_answer *answer)
{
    return herovinga_read_total(&card->settings, card->hall, card->hall_size, card->line, card->line_size, card->numerals,
                                card->numerals_size, text, text_size, answer);
}

static inline uint8_t herovinga_card_add_total(herovinga_length *total, const herovinga_card *card, const uint8_t *text, size_t text_size,
                                               herovinga_answer *answer)
{
    return herovinga_add_total(total, &card->settings, card->hall, card->hall_size, card->line, card->line_size, card->numerals,
                               card->numerals_size, text, text_size, answer);
}

/* Reads an ISO 8601 duration, as "P2W", "P1DT12H" or "PT1H30M0,5S": weeks alone; or days, hours, minutes and seconds in that order, at least
 * one of them, with a 'T' before the first that is below days. The last number may have decimals, behind '.' or ','. A day has 24 hours.
 * There is no card, and no sign. Position: the text's size. Length: the exact sum, rounded down to nanoseconds once. A sum beyond the largest
 * length is not held to it, but refused by 14. */
uint8_t herovinga_read_iso(const uint8_t *text, size_t text_size, herovinga_answer *answer);

/* Writes a length at a place of the buffer as an ISO 8601 duration, as "PT1H30M0.5S": hours, minutes and seconds, the last two below 60, and
 * those of zero left out; zero is "PT0S". Position: the place behind it. Length: the one written, and herovinga_read_iso reads it back. No
 * other byte of the buffer changes, and none on a refusal. A length with a minus is refused by 5. */
uint8_t herovinga_write_iso(const herovinga_length *length, uint8_t *buffer, size_t buffer_size, size_t place, herovinga_answer *answer);

/* How to keep an index.
 *
 * Without an index a unit's name is compared with that of one row after another, so with up to 64 in each of the two tables. An index beside a
 * table has a byte for each row: the numbers of the rows in the order of their names. Names are ordered byte by byte, as numbers from 0 to 255,
 * and a name stands before those that it begins: "m", "min", "ms", and behind all letters "\xc2\xb5s". Through its index no more than 7 names of
 * a table are compared. An index changes no answer of a reading, but that a wrong one is 23.
 *
 *     uint8_t order[HEROVINGA_MOST_ROWS];
 *     herovinga_indexed_card i = {0};
 *     i.card = c;
 *     i.hall_index_size = c.hall_size / HEROVINGA_ROW_SIZE;
 *     herovinga_make_index(&c.settings, c.hall, c.hall_size, order, i.hall_index_size, &answer);
 *     i.hall_index = order;
 *
 * herovinga_replace_row changes a row of a table, and the index beside it with it: both, or neither. After any other change of a table its index
 * is to be made anew. The three functions over one table and its index do not ask whose they are: their positions have no 128.
 */

/* Makes the index of a unit table under settings. The index that is lent has as many bytes as the table has rows, and is written whole, or not
 * at all. Position: the number of rows. Length: zero. */
uint8_t herovinga_make_index(const herovinga_settings *settings, const uint8_t *table, size_t table_size, uint8_t *index, size_t index_size,
                             herovinga_answer *answer);

/* Checks a unit table and its index under settings, and changes neither. Position: the number of rows. Length: zero. */
uint8_t herovinga_check_index(const herovinga_settings *settings, const uint8_t *table, size_t table_size, const uint8_t *index,
                              size_t index_size, herovinga_answer *answer);

/* Puts a new row in the place of one of a unit table, by its number from 0 on, and makes the table's index the one of the new table. Both are
 * lent, and right before. A row past the last is refused by 10. A new row that has not 48 bytes, or with which the table would not pass,
 * whichever row is then bad, is refused by 7 at the number of the row that was to be replaced. Position: the number of rows. Length: zero. */
uint8_t herovinga_replace_row(const herovinga_settings *settings, uint8_t *table, size_t table_size, uint8_t *index, size_t index_size,
                              size_t row, const uint8_t *new_row, size_t new_row_size, herovinga_answer *answer);

/* herovinga_read_part, herovinga_read_total and herovinga_add_total through an index beside the hall's table and one beside the line's. What
 * they hand back is the same, but that a wrong index is refused by 23, after 7 and before all else. */
uint8_t herovinga_read_part_indexed(const herovinga_settings *settings, const uint8_t *hall, size_t hall_size, const uint8_t *hall_index,
                                    size_t hall_index_size, const uint8_t *line, size_t line_size, const uint8_t *line_index,
                                    size_t line_index_size, const uint8_t *numerals, size_t numerals_size, const uint8_t *text,
                                    size_t text_size, size_t place, herovinga_answer *answer);

uint8_t herovinga_read_total_indexed(const herovinga_settings *settings, const uint8_t *hall, size_t hall_size, const uint8_t *hall_index,
                                     size_t hall_index_size, const uint8_t *line, size_t line_size, const uint8_t *line_index,
                                     size_t line_index_size, const uint8_t *numerals, size_t numerals_size, const uint8_t *text,
                                     size_t text_size, herovinga_answer *answer);

uint8_t herovinga_add_total_indexed(herovinga_length *total, const herovinga_settings *settings, const uint8_t *hall, size_t hall_size,
                                    const uint8_t *hall_index, size_t hall_index_size, const uint8_t *line, size_t line_size,
                                    const uint8_t *line_index, size_t line_index_size, const uint8_t *numerals, size_t numerals_size,
                                    const uint8_t *text, size_t text_size, herovinga_answer *answer);

/* Looks a name up as a text's unit is looked up, in the line's table and, if that has not got it, in the hall's. It returns 0 whether a table
 * has the name or not; any bytes are a name, none at all too. Position: 0. Found: the table, the row and how many names were compared, of the
 * line's table and, if it was searched, of the hall's: each up to the one that is the same. Numerals are no part of it. */
uint8_t herovinga_look_up(const herovinga_settings *settings, const uint8_t *hall, size_t hall_size, const uint8_t *line, size_t line_size,
                          const uint8_t *name, size_t name_size, herovinga_found *found);

/* The same through indexes. Table and row are those of herovinga_look_up. Compared are the names that halving comes to: of the entries that are
 * left it takes the one in the middle, or the later of two, and then those before it or those behind it are left. A wrong index is 23, after 7. */
uint8_t herovinga_look_up_indexed(const herovinga_settings *settings, const uint8_t *hall, size_t hall_size, const uint8_t *hall_index,
                                  size_t hall_index_size, const uint8_t *line, size_t line_size, const uint8_t *line_index,
                                  size_t line_index_size, const uint8_t *name, size_t name_size, herovinga_found *found);

/* A name looked up under a card; and the four under a card with indexes. */
static inline uint8_t herovinga_card_look_up(const herovinga_card *card, const uint8_t *name, size_t name_size, herovinga_found *found)
{
    return herovinga_look_up(&card->settings, card->hall, card->hall_size, card->line, card->line_size, name, name_size, found);
}

static inline uint8_t herovinga_indexed_card_read_part(const herovinga_indexed_card *card, const uint8_t *text, size_t text_size, size_t place,
                                                       herovinga_answer *answer)
{
    return herovinga_read_part_indexed(&card->card.settings, card->card.hall, card->card.hall_size, card->hall_index, card->hall_index_size,
                                       card->card.line, card->card.line_size, card->line_index, card->line_index_size, card->card.numerals,
                                       card->card.numerals_size, text, text_size, place, answer);
}

static inline uint8_t herovinga_indexed_card_read_total(const herovinga_indexed_card *card, const uint8_t *text, size_t text_size,
                                                        herovinga_answer *answer)
{
    return herovinga_read_total_indexed(&card->card.settings, card->card.hall, card->card.hall_size, card->hall_index, card->hall_index_size,
                                        card->card.line, card->card.line_size, card->line_index, card->line_index_size, card->card.numerals,
                                        card->card.numerals_size, text, text_size, answer);
}

static inline uint8_t herovinga_indexed_card_add_total(herovinga_length *total, const herovinga_indexed_card *card, const uint8_t *text,
                                                       size_t text_size, herovinga_answer *answer)
{
    return herovinga_add_total_indexed(total, &card->card.settings, card->card.hall, card->card.hall_size, card->hall_index,
                                       card->hall_index_size, card->card.line, card->card.line_size, card->line_index, card->line_index_size,
                                       card->card.numerals, card->card.numerals_size, text, text_size, answer);
}

static inline uint8_t herovinga_indexed_card_look_up(const herovinga_indexed_card *card, const uint8_t *name, size_t name_size,
                                                     herovinga_found *found)
{
    return herovinga_look_up_indexed(&card->card.settings, card->card.hall, card->card.hall_size, card->hall_index, card->hall_index_size,
                                     card->card.line, card->card.line_size, card->line_index, card->line_index_size, name, name_size, found);
}

/* How stored rows are moved.
 *
 * A stored row is a line: HEROVINGA_LINE_SIZE bytes, or HEROVINGA_OLD_LINE_SIZE in the form that was before it. The entries above know the new
 * form alone, as bytes. The two below move lines that stand one behind another, as a file has them, from one form to the other. Size of the name,
 * name, kind, coefficient and power are carried as they are, whatever they are: no card is asked. Moved there and back, lines have the bytes that
 * they had; from the new form every line whose name has at most 16 bytes can be.
 *
 * Bytes behind the last newline are a line of wrong length. No bytes at all are no lines, and 0 at 0.
 */

/* Moves lines of the old form to the new one, from the target's first byte on: HEROVINGA_LINE_SIZE bytes for each HEROVINGA_OLD_LINE_SIZE.
 * Position: the place behind the last byte written. Length: zero. No other byte of the target changes, and none on a refusal. The first line that
 * is not of the old form is refused by 24 at its number; then a target that is too short for all of them by 9 at 0. */
uint8_t herovinga_move_to_new(const uint8_t *source, size_t source_size, uint8_t *target, size_t target_size, herovinga_answer *answer);

/* Moves lines of the new form to the old one in the same way. The first bad line may then also be one whose name has more than 16 bytes, which is
 * refused by 25. */
uint8_t herovinga_move_to_old(const uint8_t *source, size_t source_size, uint8_t *target, size_t target_size, herovinga_answer *answer);

#ifdef __cplusplus
}
#endif

#endif

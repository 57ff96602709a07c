/* Provokes each refusal once, in the order of their numbers, and prints its number and place. The exit status is 0 if each is the
 * one that the header's name stands for. */
#include <stdio.h>

#include "records.h"

enum { MOST = SUBGROUPS_RECORD * (SUBGROUPS_SLOTS + 1) };

static uint8_t system_of_two[MOST], target[SUBGROUPS_RECORD], words[MOST], moves[4 * SUBGROUPS_MOVE], product[SUBGROUPS_RECORD];
static subgroups_edge table[SUBGROUPS_EDGES];
static int wrong;

/* Prints a refusal, and counts it where it is not the one expected. */
static void expect(enum subgroups_refusal refusal, const char *name, const subgroups_answer *answer) {
    printf("%s: refused %d at %d\n", name, (int)answer->number, (int)answer->place);
    wrong += answer->verdict != SUBGROUPS_REFUSED || answer->number != refusal;
}

/* Tests a system of the words ab and b in which one byte is changed. */
static void expect_damaged(enum subgroups_refusal refusal, const char *name, size_t place, uint8_t byte) {
    subgroups_answer answer;
    uint8_t whole = system_of_two[place];
    system_of_two[place] = byte;
    subgroups_test(system_of_two, 2 * SUBGROUPS_RECORD, &answer);
    system_of_two[place] = whole;
    expect(refusal, name, &answer);
}

/* Replays a log over the words ab and b. */
static void expect_replay(enum subgroups_refusal refusal, const char *name, const char *log) {
    subgroups_answer answer;
    subgroups_replay(system_of_two, 2 * SUBGROUPS_RECORD, (const uint8_t *)log, strlen(log), 0, words, sizeof words, &answer);
    expect(refusal, name, &answer);
}

/* Asks about the target over the words ab and b, with so many bytes lent for the words, the log and the product. */
static void expect_member(enum subgroups_refusal refusal, const char *name, size_t word_room, size_t log_room, size_t product_room) {
    subgroups_answer answer;
    subgroups_member(system_of_two, 2 * SUBGROUPS_RECORD, target, sizeof target, words, word_room, moves, log_room, product,
                     product_room, &answer);
    expect(refusal, name, &answer);
}

/* Reads a text. */
static void expect_read(enum subgroups_refusal refusal, const char *name, const char *text) {
    subgroups_answer answer;
    subgroups_read_text((const uint8_t *)text, strlen(text), words, sizeof words, &answer);
    expect(refusal, name, &answer);
}

/* Takes the words ab and b from numbers back to letters, where one byte is changed. */
static void expect_number(enum subgroups_refusal refusal, const char *name, size_t place, uint8_t byte) {
    uint8_t numbers[2 * SUBGROUPS_NUMBERS_RECORD];
    subgroups_answer answer;
    subgroups_to_numbers(system_of_two, 2 * SUBGROUPS_RECORD, numbers, sizeof numbers, &answer);
    numbers[place] = byte;
    subgroups_from_numbers(numbers, sizeof numbers, words, sizeof words, &answer);
    expect(refusal, name, &answer);
}

int main(void) {
    static const char *const given[2] = {"ab", "b"};
    uint8_t longest[SUBGROUPS_RECORD];
    subgroups_answer answer;
    put_system(system_of_two, given, 2);
    put_record(target, "a");
    memset(longest, 'a', SUBGROUPS_LETTERS);
    longest[SUBGROUPS_LETTERS] = '\n';

    subgroups_test(system_of_two, 100, &answer);
    expect(SUBGROUPS_SYSTEM_UNEVEN, "system uneven", &answer);
    subgroups_test(system_of_two, sizeof system_of_two - 1, &answer); /* uneven too, but its size goes before that */
    expect(SUBGROUPS_SYSTEM_TOO_LONG, "system too long", &answer);
    expect_damaged(SUBGROUPS_NO_LINE_FEED, "no line feed", 127, '.');
    expect_damaged(SUBGROUPS_NEITHER_LETTER_NOR_STOP, "neither letter nor stop", 1, '+');
    expect_damaged(SUBGROUPS_LETTER_AFTER_STOP, "letter after stop", 70, 'c');

    target[2] = '?';
    expect_member(SUBGROUPS_TARGET_OR_PRODUCT_MALFORMED, "target or product malformed", sizeof words, sizeof moves, sizeof product);
    put_record(target, "a");

    expect_replay(SUBGROUPS_LOG_UNEVEN, "log uneven", "a4b s01");
    expect_replay(SUBGROUPS_LOG_RECORD_MALFORMED, "log record malformed", "a4b s01\nb1c s02\n");

    put_record(product, "aBc");
    subgroups_multiply(system_of_two, 2 * SUBGROUPS_RECORD, product, sizeof product, words, sizeof words, &answer);
    expect(SUBGROUPS_SLOT_MISSING, "slot missing", &answer);

    expect_member(SUBGROUPS_WORDS_BUFFER_SHORT, "words buffer short", 127, sizeof moves, sizeof product);
    expect_member(SUBGROUPS_PRODUCT_BUFFER_SHORT, "product buffer short", sizeof words, sizeof moves, 63);

    put_record(product, "aa");
    subgroups_multiply(longest, sizeof longest, product, sizeof product, words, sizeof words, &answer);
    expect(SUBGROUPS_WORD_TOO_LONG, "word too long", &answer);

    expect_member(SUBGROUPS_LOG_BUFFER_SHORT, "log buffer short", sizeof words, SUBGROUPS_MOVE - 1, sizeof product);

    subgroups_ask(system_of_two, 2 * SUBGROUPS_RECORD, target, sizeof target, product, sizeof product, &answer);
    expect(SUBGROUPS_SYSTEM_NOT_REDUCED, "system not reduced", &answer);

    expect_read(SUBGROUPS_TEXT_MALFORMED, "text malformed", "(ab)^-c");
    expect_read(SUBGROUPS_NESTING_TOO_DEEP, "nesting too deep", "(((((((([a,b]))))))))");
    expect_read(SUBGROUPS_EXPONENT_OUT_OF_RANGE, "exponent out of range", "(ab)^64");

    expect_number(SUBGROUPS_NUMBERS_MALFORMED, "numbers malformed", 132, 1);
    expect_number(SUBGROUPS_NUMBER_WITHOUT_LETTER, "number without letter", 2, 27);

    subgroups_trace(system_of_two, 2 * SUBGROUPS_RECORD, target, sizeof target, table, SUBGROUPS_EDGES - 1, &answer);
    expect(SUBGROUPS_EDGE_TABLE_SHORT, "edge table short", &answer);

    expect_replay(SUBGROUPS_LENGTH_DIFFERS, "length differs", "a4b s02\n");
    return wrong;
}

/* Takes a sheet as people write it, with powers and commutators: its texts become records, the system is reduced and asked about
 * targets that are typed the same way, and words and products are written back as texts. The last two texts are refused. */
#include <stdio.h>
#include <stdlib.h>
#include <string.h>

#include "subgroups.h"

enum { WORDS = 3, TARGETS = 4, REFUSED = 2 };

/* Ends the program where a call was refused. */
static void expect_done(const char *call, const subgroups_answer *answer) {
    if (answer->verdict == SUBGROUPS_REFUSED) {
        printf("%s: refused %d at %d\n", call, (int)answer->number, (int)answer->place);
        exit(1);
    }
}

/* Reads a text as the record of its word. */
static void read_word(const char *text, uint8_t *record) {
    subgroups_answer answer;
    subgroups_read_text((const uint8_t *)text, strlen(text), record, SUBGROUPS_RECORD, &answer);
    expect_done(text, &answer);
}

/* Prints the text of a record's word and ends the line. */
static void print_text(const uint8_t *record) {
    uint8_t text[SUBGROUPS_TEXT];
    uint64_t length;
    subgroups_answer answer;
    subgroups_write_text(record, SUBGROUPS_RECORD, text, sizeof text, &length, &answer);
    expect_done("write", &answer);
    printf("%.*s\n", (int)length, (const char *)text);
}

/* Prints whether a target is a member, and as which product. */
static void ask(const uint8_t *words, size_t words_len, const char *target) {
    uint8_t record[SUBGROUPS_RECORD], product[SUBGROUPS_RECORD];
    subgroups_answer answer;
    read_word(target, record);
    subgroups_ask(words, words_len, record, sizeof record, product, sizeof product, &answer);
    expect_done(target, &answer);
    if (answer.verdict == SUBGROUPS_MEMBER) {
        printf("%s: member, ", target);
        print_text(product);
    } else {
        printf("%s: not a member\n", target);
    }
}

int main(void) {
    static const char *const given[WORDS] = {"(ab)^-3", "[a,b]", "(ab)^2c^3"};
    static const char *const targets[TARGETS] = {"(ab)^6", "[[a,b],(ab)^3]", "((ab)^-1c^3)^2[b,a]^3", "c^3"};
    static const char *const refused[REFUSED] = {"(ab)^64", "[a,b"};
    uint8_t system[SUBGROUPS_RECORD * WORDS], words[SUBGROUPS_RECORD * WORDS], log[64 * SUBGROUPS_MOVE];
    subgroups_answer answer;
    for (int k = 0; k < WORDS; k++) {
        read_word(given[k], system + SUBGROUPS_RECORD * k);
        printf("%s is ", given[k]);
        print_text(system + SUBGROUPS_RECORD * k);
    }

    subgroups_reduce(system, sizeof system, words, sizeof words, log, sizeof log, &answer);
    expect_done("reduce", &answer);
    printf("moves %d rank %d independent %s\n", (int)answer.moves, (int)answer.rank, answer.independent ? "yes" : "no");
    for (int k = 0; k < WORDS; k++) {
        printf("slot %c: ", 'a' + k);
        print_text(words + SUBGROUPS_RECORD * k);
    }
    for (int t = 0; t < TARGETS; t++)
        ask(words, sizeof words, targets[t]);

    for (int t = 0; t < REFUSED; t++) {
        uint8_t record[SUBGROUPS_RECORD];
        subgroups_read_text((const uint8_t *)refused[t], strlen(refused[t]), record, sizeof record, &answer);
        printf("%s: refused %d at %d\n", refused[t], (int)answer.number, (int)answer.place);
    }
    return 0;
}

/* Walks a student's exercise as a service does it: the system is reduced once, its reduced words are kept, and they are asked
 * about thirty targets. Each product is multiplied out over the reduced words, as a reader would do it by hand. */
#include <stdio.h>

#include "records.h"

enum { WORDS = 3, TARGETS = 30 };

/* The most letters that so many words can have, and the bound on their moves: a log of MOVES log records is never too short. */
enum { LETTERS = WORDS * SUBGROUPS_LETTERS, MOVES = 2 * WORDS * (WORDS - 1) * (LETTERS + 1) + LETTERS };

/* Prints what a target is over the reduced words, and answers whether the product multiplies out to it. */
static int ask(const uint8_t *words, size_t words_len, const char *target) {
    uint8_t record[SUBGROUPS_RECORD], product[SUBGROUPS_RECORD], word[SUBGROUPS_RECORD], tidied[SUBGROUPS_RECORD];
    subgroups_answer answer;
    put_record(record, target);
    subgroups_ask(words, words_len, record, sizeof record, product, sizeof product, &answer);
    if (answer.verdict == SUBGROUPS_NOT_MEMBER) {
        printf("%s: not a member\n", target);
        return 1;
    }
    if (answer.verdict != SUBGROUPS_MEMBER) {
        printf("%s: refused %d at %d\n", target, (int)answer.number, (int)answer.place);
        return 0;
    }
    printf("%s: member, %.*s\n", target, word_length(product), (const char *)product);
    subgroups_answer multiplied, reduced;
    subgroups_multiply(words, words_len, product, sizeof product, word, sizeof word, &multiplied);
    subgroups_tidy(record, sizeof record, tidied, sizeof tidied, &reduced);
    return multiplied.verdict == SUBGROUPS_DONE && reduced.verdict == SUBGROUPS_DONE && memcmp(word, tidied, SUBGROUPS_RECORD) == 0;
}

int main(void) {
    static const char *const given[WORDS] = {"ab", "ac", "Bd"};
    static const char *const targets[TARGETS] = {
        "", "a", "b", "c", "d", "ab", "ac", "Bd", "ad", "BA", "CA", "Db", "DA", "Cd", "Cb", "Bc", "abac", "abBd", "acab", "adCA",
        "abab", "bcA", "abCA", "CdDb", "ba", "dA", "CbBd", "acCA", "abcd", "DbDbDb",
    };
    uint8_t system[SUBGROUPS_RECORD * WORDS], words[SUBGROUPS_RECORD * WORDS], log[MOVES * SUBGROUPS_MOVE];
    subgroups_answer answer;
    int agreed = 0;
    put_system(system, given, WORDS);
    subgroups_reduce(system, sizeof system, words, sizeof words, log, sizeof log, &answer);
    if (answer.verdict != SUBGROUPS_DONE) {
        printf("reduce: refused %d at %d\n", (int)answer.number, (int)answer.place);
        return 1;
    }
    for (int t = 0; t < TARGETS; t++)
        agreed += ask(words, sizeof words, targets[t]);
    printf("%d of %d answers hold\n", agreed, TARGETS);
    return agreed == TARGETS ? 0 : 1;
}

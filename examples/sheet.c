/* Walks a worked example through the C header: a system is reduced, its log is followed forward and backward, a product over the
 * reduced words is multiplied out, the given system is tested, and a system of 63 bytes is refused. */
#include <stdio.h>
#include <stdlib.h>

#include "records.h"

enum { WORDS = 3 };

/* Ends the program where a call was refused. */
static void expect_done(const char *call, const subgroups_answer *answer) {
    if (answer->verdict == SUBGROUPS_REFUSED) {
        printf("%s: refused %d at %d\n", call, (int)answer->number, (int)answer->place);
        exit(1);
    }
}

/* Prints the words of a system, without their full stops. */
static void print_words(const char *what, const uint8_t *system, size_t slots) {
    printf("%s:", what);
    for (size_t k = 0; k < slots; k++) {
        const uint8_t *record = system + SUBGROUPS_RECORD * k;
        printf(" [%.*s]", word_length(record), (const char *)record);
    }
    printf("\n");
}

int main(void) {
    static const char *const given[WORDS] = {"ab", "ac", "Bd"};
    uint8_t system[SUBGROUPS_RECORD * WORDS], words[SUBGROUPS_RECORD * WORDS], back[SUBGROUPS_RECORD * WORDS];
    uint8_t log[64 * SUBGROUPS_MOVE], product[SUBGROUPS_RECORD], word[SUBGROUPS_RECORD];
    subgroups_answer answer;
    put_system(system, given, WORDS);

    subgroups_reduce(system, sizeof system, words, sizeof words, log, sizeof log, &answer);
    expect_done("reduce", &answer);
    printf("moves %d rank %d independent %s\n", (int)answer.moves, (int)answer.rank, answer.independent ? "yes" : "no");
    print_words("reduced", words, WORDS);
    size_t log_len = SUBGROUPS_MOVE * (size_t)answer.moves;
    fwrite(log, 1, log_len, stdout);

    subgroups_replay(system, sizeof system, log, log_len, 0, back, sizeof back, &answer);
    expect_done("replay", &answer);
    print_words("forward", back, WORDS);
    subgroups_replay(words, sizeof words, log, log_len, 1, back, sizeof back, &answer);
    expect_done("replay", &answer);
    print_words("backward", back, WORDS);

    put_record(product, "Bc");
    subgroups_multiply(words, sizeof words, product, sizeof product, word, sizeof word, &answer);
    expect_done("multiply", &answer);
    print_words("Bc is", word, 1);

    subgroups_test(system, sizeof system, &answer);
    expect_done("test", &answer);
    printf("given reduced: %s\n", answer.reduced ? "yes" : "no");
    subgroups_tidy(system, SUBGROUPS_RECORD - 1, words, sizeof words, &answer);
    printf("63 bytes: refused %d at %d\n", (int)answer.number, (int)answer.place);
    return 0;
}

/* Decides about some targets both ways: by the folded graph, and by the product that the reduced words give; and compares. */
#include <stdio.h>
#include <stdlib.h>

#include "records.h"

enum { WORDS = 3, TARGETS = 5, MOVES = 100 };

/* Ends the program where a call was refused. */
static void expect_answer(const char *call, const subgroups_answer *answer) {
    if (answer->verdict == SUBGROUPS_REFUSED) {
        printf("%s: refused %d at %d\n", call, (int)answer->number, (int)answer->place);
        exit(1);
    }
}

int main(void) {
    static const char *const given[WORDS] = {"aa", "b", "abA"};
    static const char *const targets[TARGETS] = {"aBBa", "ab", "abbA", "a", ""};
    static subgroups_edge table[SUBGROUPS_EDGES];
    uint8_t system[SUBGROUPS_RECORD * WORDS], words[SUBGROUPS_RECORD * WORDS], log[SUBGROUPS_MOVE * MOVES];
    uint8_t target[SUBGROUPS_RECORD], product[SUBGROUPS_RECORD];
    subgroups_answer reduced, asked, traced;
    int differ = 0;
    put_system(system, given, WORDS);
    subgroups_reduce(system, sizeof system, words, sizeof words, log, sizeof log, &reduced);
    expect_answer("reduce", &reduced);

    /* trace takes the given words, ask the reduced ones; what the table holds before a call does not matter */
    for (size_t k = 0; k < TARGETS; k++) {
        put_record(target, targets[k]);
        subgroups_trace(system, sizeof system, target, sizeof target, table, SUBGROUPS_EDGES, &traced);
        expect_answer("trace", &traced);
        subgroups_ask(words, sizeof words, target, sizeof target, product, sizeof product, &asked);
        expect_answer("ask", &asked);
        printf("%-5s by the graph: %s", targets[k][0] ? targets[k] : "blank", traced.verdict == SUBGROUPS_MEMBER ? "member" : "not a member");
        if (asked.verdict == SUBGROUPS_MEMBER)
            printf("; by the reduced words: member, product %.*s\n", word_length(product), (const char *)product);
        else
            printf("; by the reduced words: not a member\n");
        differ += traced.verdict != asked.verdict;
    }

    subgroups_trace(system, sizeof system, target, sizeof target, table, SUBGROUPS_EDGES - 1, &traced);
    printf("a table of %d edges: refused %d at %d\n", SUBGROUPS_EDGES - 1, (int)traced.number, (int)traced.place);
    printf("verdicts that differ: %d\n", differ);
    return differ;
}

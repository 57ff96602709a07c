/* Lends NULL for buffers of length 0, each buffer of each call at least once, and prints the answers. */
#include <stdio.h>

#include "records.h"

/* Prints all numbers of an answer. */
static void print_answer(const char *call, const subgroups_answer *a) {
    printf("%s: %d %d %d %d %d %d %d\n", call, (int)a->verdict, (int)a->number, (int)a->place, (int)a->moves, (int)a->rank,
           (int)a->independent, (int)a->reduced);
}

int main(void) {
    uint8_t record[SUBGROUPS_RECORD], blank[SUBGROUPS_RECORD], out[SUBGROUPS_RECORD], product[SUBGROUPS_RECORD];
    uint8_t text[SUBGROUPS_TEXT], numbers[SUBGROUPS_NUMBERS_RECORD];
    static subgroups_edge table[SUBGROUPS_EDGES];
    uint64_t length;
    subgroups_answer answer;
    put_record(record, "abB");
    put_record(blank, "");

    subgroups_tidy(NULL, 0, NULL, 0, &answer);
    print_answer("tidy no words", &answer);
    subgroups_tidy(record, sizeof record, NULL, 0, &answer);
    print_answer("tidy into nothing", &answer);
    subgroups_test(NULL, 0, &answer);
    print_answer("test no words", &answer);
    subgroups_reduce(NULL, 0, NULL, 0, NULL, 0, &answer);
    print_answer("reduce no words", &answer);
    subgroups_reduce(record, sizeof record, out, sizeof out, NULL, 0, &answer);
    print_answer("reduce with no log", &answer);
    subgroups_replay(NULL, 0, NULL, 0, 0, NULL, 0, &answer);
    print_answer("replay no words", &answer);
    subgroups_replay(record, sizeof record, NULL, 0, 1, out, sizeof out, &answer);
    print_answer("replay no log", &answer);
    printf("%.*s\n", word_length(out), (const char *)out);
    subgroups_multiply(NULL, 0, blank, sizeof blank, out, sizeof out, &answer);
    print_answer("multiply over no words", &answer);
    subgroups_multiply(record, sizeof record, NULL, 0, NULL, 0, &answer);
    print_answer("multiply nothing", &answer);
    subgroups_ask(NULL, 0, blank, sizeof blank, product, sizeof product, &answer);
    print_answer("ask no words", &answer);
    subgroups_ask(record, sizeof record, NULL, 0, product, sizeof product, &answer);
    print_answer("ask, no target", &answer);
    subgroups_ask(record, sizeof record, blank, sizeof blank, NULL, 0, &answer);
    print_answer("ask, no product", &answer);
    subgroups_member(NULL, 0, blank, sizeof blank, NULL, 0, NULL, 0, product, sizeof product, &answer);
    print_answer("member of no words", &answer);
    subgroups_member(record, sizeof record, NULL, 0, out, sizeof out, NULL, 0, NULL, 0, &answer);
    print_answer("member, no target", &answer);
    subgroups_member(record, sizeof record, blank, sizeof blank, out, sizeof out, NULL, 0, NULL, 0, &answer);
    print_answer("member, no product", &answer);
    subgroups_read_text(NULL, 0, out, sizeof out, &answer);
    print_answer("read no text", &answer);
    subgroups_read_text(record, 1, NULL, 0, &answer);
    print_answer("read into nothing", &answer);
    subgroups_write_text(NULL, 0, text, sizeof text, &length, &answer);
    print_answer("write no record", &answer);
    subgroups_write_text(record, sizeof record, NULL, 0, &length, &answer);
    print_answer("write into nothing", &answer);
    subgroups_to_numbers(NULL, 0, NULL, 0, &answer);
    print_answer("to numbers, no words", &answer);
    subgroups_to_numbers(record, sizeof record, NULL, 0, &answer);
    print_answer("to numbers into nothing", &answer);
    subgroups_to_numbers(record, sizeof record, numbers, sizeof numbers, &answer);
    print_answer("to numbers", &answer);
    subgroups_from_numbers(NULL, 0, NULL, 0, &answer);
    print_answer("from numbers, no words", &answer);
    subgroups_from_numbers(numbers, sizeof numbers, NULL, 0, &answer);
    print_answer("from numbers into nothing", &answer);
    subgroups_tidy_numbers(NULL, 0, NULL, 0, &answer);
    print_answer("tidy numbers, no words", &answer);
    subgroups_tidy_numbers(numbers, sizeof numbers, NULL, 0, &answer);
    print_answer("tidy numbers into nothing", &answer);
    subgroups_trace(NULL, 0, blank, sizeof blank, NULL, 0, &answer);
    print_answer("trace with no table", &answer);
    subgroups_trace(record, sizeof record, NULL, 0, NULL, 0, &answer);
    print_answer("trace, no target", &answer);
    subgroups_trace(NULL, 0, blank, sizeof blank, table, SUBGROUPS_EDGES, &answer);
    print_answer("trace no words", &answer);
    return 0;
}

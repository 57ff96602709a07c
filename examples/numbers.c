/* Keeps a system as signed numbers: its letters become numbers, a fourth word with numbers beyond 26 joins them, all are tidied,
 * and the first three return to letters. With the fourth word from_numbers refuses. */
#include <stdio.h>
#include <stdlib.h>

#include "records.h"

enum { WORDS = 3, STORED = WORDS + 1 };

/* Ends the program where a call was refused. */
static void expect_done(const char *call, const subgroups_answer *answer) {
    if (answer->verdict != SUBGROUPS_DONE) {
        printf("%s: refused %d at %d\n", call, (int)answer->number, (int)answer->place);
        exit(1);
    }
}

/* The number at a place of a record: two bytes, the low one first. */
static int16_t number_at(const uint8_t *record, size_t place) {
    int number = record[2 * place] + 256 * record[2 * place + 1];
    return (int16_t)(number < 32768 ? number : number - 65536);
}

/* Writes at most 63 numbers as a record, with zeros behind. */
static void put_numbers(uint8_t *record, const int16_t *numbers, size_t count) {
    memset(record, 0, SUBGROUPS_NUMBERS_RECORD);
    for (size_t k = 0; k < count; k++) {
        record[2 * k] = (uint8_t)numbers[k];
        record[2 * k + 1] = (uint8_t)((uint16_t)numbers[k] >> 8);
    }
}

/* Prints the numbers of each word, one word on a line. */
static void print_numbers(const char *title, const uint8_t *numbers, size_t words) {
    printf("%s\n", title);
    for (size_t k = 0; k < words; k++) {
        const uint8_t *record = numbers + SUBGROUPS_NUMBERS_RECORD * k;
        printf("  slot %c:", (int)('a' + k));
        for (size_t place = 0; number_at(record, place) != 0; place++)
            printf(" %d", number_at(record, place));
        printf("\n");
    }
}

int main(void) {
    static const char *const given[WORDS] = {"aAbBc", "zYzZ", "abC"};
    static const int16_t joined[5] = {27, 1000, -1000, -300, 5};
    uint8_t system[SUBGROUPS_RECORD * WORDS], words[SUBGROUPS_RECORD * STORED];
    uint8_t numbers[SUBGROUPS_NUMBERS_RECORD * STORED], tidied[SUBGROUPS_NUMBERS_RECORD * STORED];
    size_t letters_len = SUBGROUPS_NUMBERS_RECORD * WORDS; /* the first three words */
    subgroups_answer answer;
    put_system(system, given, WORDS);

    subgroups_to_numbers(system, sizeof system, numbers, sizeof numbers, &answer);
    expect_done("to numbers", &answer);
    printf("the second word begins with %d and %d\n", number_at(numbers + SUBGROUPS_NUMBERS_RECORD, 0),
           number_at(numbers + SUBGROUPS_NUMBERS_RECORD, 1));
    subgroups_from_numbers(numbers, letters_len, words, sizeof words, &answer);
    expect_done("there and back", &answer);
    printf("there and back: %s\n", memcmp(words, system, sizeof system) == 0 ? "the same bytes" : "other bytes");

    put_numbers(numbers + letters_len, joined, 5);
    print_numbers("stored", numbers, STORED);
    subgroups_tidy_numbers(numbers, sizeof numbers, tidied, sizeof tidied, &answer);
    expect_done("tidy numbers", &answer);
    print_numbers("tidied", tidied, STORED);

    subgroups_from_numbers(tidied, letters_len, words, sizeof words, &answer);
    expect_done("from numbers", &answer);
    for (int k = 0; k < WORDS; k++) {
        const uint8_t *record = words + SUBGROUPS_RECORD * k;
        printf("slot %c in letters: %.*s\n", 'a' + k, word_length(record), (const char *)record);
    }
    subgroups_from_numbers(tidied, sizeof tidied, words, sizeof words, &answer);
    printf("all four in letters: refused %d at %d\n", (int)answer.number, (int)answer.place);
    return answer.number != SUBGROUPS_NUMBER_WITHOUT_LETTER;
}

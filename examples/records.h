/* Records for the examples: a word written as its record, and read back. */
#ifndef RECORDS_H
#define RECORDS_H

#include <string.h>

#include "subgroups.h"

/* Writes a word of at most 63 letters as its record. */
static inline void put_record(uint8_t *record, const char *word) {
    memset(record, '.', SUBGROUPS_RECORD - 1);
    memcpy(record, word, strlen(word));
    record[SUBGROUPS_RECORD - 1] = '\n';
}

/* Writes words as the records of a system. */
static inline void put_system(uint8_t *system, const char *const *words, size_t count) {
    for (size_t k = 0; k < count; k++)
        put_record(system + SUBGROUPS_RECORD * k, words[k]);
}

/* The length of the word in a record. */
static inline int word_length(const uint8_t *record) {
    int n = 0;
    while (record[n] != '.' && record[n] != '\n')
        n++;
    return n;
}

#endif

/* Proved routines for subgroups of free groups, for C.
 *
 * A few words generate a subgroup of a free group. The calls below reduce such a system of words in Nielsen's sense, decide
 * whether a word lies in the subgroup and give the product that it is, follow a log of moves forward and backward, and
 * multiply a product out; two more read and write words as people write them, with powers and commutators, three keep words as
 * signed numbers, and one decides by Stallings' folded graph. Every call takes buffers of any length and content, and either does
 * its work or refuses; its answer and each byte that it leaves are proved for all of them, but for the table of trace after an
 * answer, which may then hold anything. docs/REQUIREMENTS.md says in full what is promised.
 *
 *                (cd crates/subgroups_c && rt lib)
 *                gcc -Iinclude program.c crates/subgroups_c/out/libsubgroups_c.a
 *
 * Words      A generator is a letter a to z, its inverse the capital: aB is a, then the inverse of b. A word has at most
 *            63 letters. Free reduction removes neighbours such as aA and Aa until none are left.
 *
 * Records    A record is 64 bytes: the letters of a word, then full stops up to byte 62, then a line feed at byte 63.
 *
 *                byte   0    1    2    3   ..   62    63
 *                aBc    a    B    c    .   ..   .     \n
 *
 *            A record of 63 full stops and a line feed is blank: the empty word.
 *
 * Systems    A system is 0 to 16 records, one after the other. Its records sit in slots a to p, the first in slot a.
 *
 * Products   A product over the slots of a system is a record too: a slot's letter stands for its word, the capital for the
 *            inverse of its word. Over the slots ab, ac, ad the product Bc is the inverse of ac, then ad: it comes to Cd.
 *
 * Logs       A log is log records of 8 bytes, one for each move, the first move first, with no header and no end mark. Slots are
 *            named by their small letters, a to p, and a move has two different ones:
 *
 *                byte       0               1       2             3        4         5, 6          7
 *                a4b s01    slot changed    form    other slot    space    s or h    new length    \n
 *
 *            With w the word of the slot changed and v that of the other slot, form 1 makes it v w, form 2 the inverse of v,
 *            then w, form 3 w v, and form 4 w, then the inverse of v; the result is freely reduced. The letter is s where the
 *            move is a shortening and h where it is a half-end move, which keeps the length; the two digits are the length of
 *            the changed word after the move, 00 where it is blank.
 *
 * Buffers    words needs 64 bytes for each record of the system, product and word 64, log 8 for each move, the text of
 *            write_text 256, the numbers of to_numbers, and tidied, 128 for each record, and table 1,008 edges, which are
 *            counted as edges and not as bytes. A longer buffer does no harm: bytes after the last one written stay as they
 *            were, but for those of table after an answer. A refusal changes nothing but the answer, and the length
 *            that write_text gives, except that under SUBGROUPS_LOG_BUFFER_SHORT the log holds, as whole log records, the
 *            first moves that fit.
 *            How many moves a system takes is not known beforehand: 16 random words take some dozens, and 1,681 are the most
 *            that were found. With m the number of records and g the letters of the given words after free reduction, they are
 *            never more than 2 m (m - 1) (g + 1) + g, which for the largest system is SUBGROUPS_MOST_MOVES. A log with room for
 *            that many moves is never refused with SUBGROUPS_LOG_BUFFER_SHORT, and one of SUBGROUPS_LONGEST_LOG bytes is not
 *            for any system. A caller that lends less, and gets that refusal, lends a longer log and calls again.
 *            What is written (words, log, product, word, text, length, answer, the numbers of to_numbers, tidied, table) must
 *            not overlap any other buffer; buffers that are only read may. Where a buffer's length is 0 its pointer may be
 *            anything, NULL too; answer and length must not be NULL.
 *
 * Targets    A service with many targets for one system calls reduce once, keeps the reduced words (64 bytes for each record of
 *            the system), and calls ask with those bytes for each target. Member does both for one target, and gives what the
 *            two in turn give.
 *
 * Texts      A text is a word as people write it, at most 256 bytes without an end mark: letters, a power such as (ab)^-3, and
 *            [u,v], which is the inverse of u, the inverse of v, u, v. A text is a product of any number of factors, none
 *            included; a factor is a letter, a group ( ) of a product, or a bracket [ , ] of two, with at most one power after
 *            it, which repeats that factor alone, or its inverse: ab^2 is abb. There are no spaces, and a line feed or zero byte
 *            at the end does not belong to a text. Groups and brackets nest at most 8 deep, both kinds counted together;
 *            exponents run from -63 to 63, in 1 or 2 digits and without a plus sign.
 *
 *                (ab)^-3       BABABA
 *                [a,b]         ABab
 *                [a,bc]^2c     ACBabcACBabcc
 *
 *            read_text turns a text into a record, write_text a record into a text, in which a run of equal letters is a
 *            power: aaBBB is a^2b^-3.
 *
 * Numbers    A record of numbers keeps a word as 64 signed 16-bit numbers, low byte first, in 128 bytes, a negative -x as
 *            65,536 - x (two's complement): up to 63 numbers from 1 to 1,000, or from -1 to -1,000 for inverses, then zeros,
 *            the last always zero. a is 1, A is -1, z is 26.
 *
 *                byte   0    1    2    3    4    5    6    ..   127
 *                aBc    1    0    254  255  3    0    0    ..   0
 *
 *            A system of numbers is 0 to 16 such records. to_numbers writes a system as a system of numbers, and from_numbers
 *            writes it back, where every number is from -26 to 26; there and back, and back and there, give the same bytes.
 *            tidy_numbers removes neighbours x and -x until none are left.
 *
 * Graphs     The graph of a system has a loop at a base point for each word that is not empty after free reduction; two edges
 *            with the same letter that leave, or enter, one point are folded together until none are left. The system generates
 *            a target exactly when the target's freely reduced letters trace a path from the base back to the base. trace
 *            decides by this, and agrees with member wherever both have enough room. It lays the edges of the loops in a table
 *            that the caller lends, keeps on its stack what they are folded to, and hands back no product. Each trace folds
 *            the graph anew: for many targets of one system reduce and ask are quicker.
 *
 * Stack      trace takes some 120,000 bytes of stack, in which it keeps where each point leads by each letter; a thread with a
 *            small stack needs more for it. No other call takes as much.
 *
 * Threads    The library keeps nothing between calls and allocates nothing. Calls may run side by side in any number of
 *            threads, as long as no call writes a buffer that another one uses.
 *
 * Example    The words ab and b, and the target a (examples/ has whole programs):
 *
 *                uint8_t system[2 * SUBGROUPS_RECORD], target[SUBGROUPS_RECORD];
 *                uint8_t words[2 * SUBGROUPS_RECORD], log[100 * SUBGROUPS_MOVE], product[SUBGROUPS_RECORD];
 *                subgroups_answer answer;
 *
 *                memset(system, '.', sizeof system);
 *                memcpy(system, "ab", 2);
 *                memcpy(system + SUBGROUPS_RECORD, "b", 1);
 *                system[63] = system[127] = '\n';
 *                memset(target, '.', sizeof target);
 *                target[0] = 'a';
 *                target[63] = '\n';
 *
 *                subgroups_member(system, sizeof system, target, sizeof target,
 *                                 words, sizeof words, log, sizeof log, product, sizeof product, &answer);
 *
 *            answer.verdict is SUBGROUPS_MEMBER, answer.moves 1, answer.rank 2, answer.independent 1; words holds the
 *            records of a and b, log the 8 bytes "a4b s01\n", product the record of a. So the target is the word of slot a. */
#ifndef SUBGROUPS_H
#define SUBGROUPS_H

#include <stddef.h>
#include <stdint.h>

#ifdef __cplusplus
extern "C" {
#endif

enum {
    SUBGROUPS_RECORD = 64,           /* the bytes of a record */
    SUBGROUPS_LETTERS = 63,          /* the most letters of a word */
    SUBGROUPS_SLOTS = 16,            /* the most records of a system */
    SUBGROUPS_MOVE = 8,              /* the bytes of a log record, which is one move */
    SUBGROUPS_MOST_MOVES = 485328,   /* no system takes more moves */
    SUBGROUPS_LONGEST_LOG = 3882624, /* the bytes of so many log records: no system needs a longer log */
    SUBGROUPS_TEXT = 256,            /* the most bytes of a text to read, and the room that write_text asks for */
    SUBGROUPS_NUMBERS_RECORD = 128,  /* the bytes of a record of numbers */
    SUBGROUPS_EDGES = 1008,          /* the edges that trace asks for */
    SUBGROUPS_LARGEST_NUMBER = 1000  /* the largest number of a generator */
};

/* What a call says: answer.verdict. */
enum subgroups_verdict {
    SUBGROUPS_DONE = 0,       /* every call but ask, member and trace, where it is not refused */
    SUBGROUPS_MEMBER = 1,     /* ask, member and trace alone */
    SUBGROUPS_NOT_MEMBER = 2, /* ask, member and trace alone */
    SUBGROUPS_REFUSED = 3     /* number and place say why and where */
};

/* Why a call refuses: answer.number. Each call tests the refusals that stand at it below, in the order in which they stand
 * there, 3 to 5 record by record, and so 19 with 20, and gives the first. answer.place is 0 where nothing else is said here; a
 * place that is a byte counts from 0 at the beginning of its buffer. 14 belongs to a call that has no entry for C. */
enum subgroups_refusal {
    SUBGROUPS_SYSTEM_UNEVEN = 1,               /* the system's length is not a multiple of 64, or, for a system of
                                                  numbers, of 128 */
    SUBGROUPS_SYSTEM_TOO_LONG = 2,             /* the system has more than 1,024 bytes, or, for a system of numbers, 2,048,
                                                  those of 16 records; tested before 1 */
    SUBGROUPS_NO_LINE_FEED = 3,                /* byte 63 of a record is not a line feed; place: that byte in the system */
    SUBGROUPS_NEITHER_LETTER_NOR_STOP = 4,     /* a byte before it is neither letter nor full stop; place: the first such
                                                  byte in the system */
    SUBGROUPS_LETTER_AFTER_STOP = 5,           /* a letter stands after a full stop; place: the first such in the system */
    SUBGROUPS_TARGET_OR_PRODUCT_MALFORMED = 6, /* target, product, or the word to write as text, is not 64 bytes long or breaks
                                                  3, 4 or 5; place: the first failing byte in it, 0 where its length is wrong */
    SUBGROUPS_LOG_UNEVEN = 7,                  /* the length of the log to replay is not a multiple of 8 */
    SUBGROUPS_LOG_RECORD_MALFORMED = 8,        /* a log record is not slot letter, digit 1 to 4, slot letter, space, s or h, two
                                                  digits, line feed, with two different slots that the system has; place: the
                                                  first byte of the first such in the log */
    SUBGROUPS_SLOT_MISSING = 9,                /* the product names a slot that the system does not have; place: the first
                                                  such letter in the product */
    SUBGROUPS_WORDS_BUFFER_SHORT = 10,         /* words, word, numbers or tidied has no room for the output, or the
                                                  text buffer of write_text has less than 256 bytes */
    SUBGROUPS_PRODUCT_BUFFER_SHORT = 11,       /* the product buffer is shorter than 64 bytes */
    SUBGROUPS_WORD_TOO_LONG = 12,              /* a move of replay, or multiply, comes to more than 63 letters; place: in
                                                  replay the move's number in the log, counted from 1. In
                                                  read_text: a factor, with or without its power, or the first
                                                  factors of a product, inside ( ) and [ ] too, come to more
                                                  than 63 letters, even where later ones cancel: a^63aA */
    SUBGROUPS_LOG_BUFFER_SHORT = 13,           /* the moves do not fit the log */
    SUBGROUPS_SYSTEM_NOT_REDUCED = 15,         /* the system is not reduced after free reduction */
    SUBGROUPS_TEXT_MALFORMED = 16,             /* the text has more than 256 bytes, or is malformed; place: the first byte with
                                                  which no well-formed text can go on, or the text's length where it only ends
                                                  too early; 0 where it is too long */
    SUBGROUPS_NESTING_TOO_DEEP = 17,           /* the text nests more than 8 deep; place: the first sign ( or [ that does */
    SUBGROUPS_EXPONENT_OUT_OF_RANGE = 18,      /* an exponent is not from -63 to 63; place: the first such caret */
    SUBGROUPS_NUMBERS_MALFORMED = 19,          /* a number of a record is not from -1,000 to 1,000, or it is not zero and stands
                                                  after a zero or is the last of its record; place: the first such
                                                  number's first byte */
    SUBGROUPS_NUMBER_WITHOUT_LETTER = 20,      /* from_numbers: a number is above 26 or below -26; place: the first such
                                                  number's first byte */
    SUBGROUPS_EDGE_TABLE_SHORT = 21,           /* the table has fewer than 1,008 edges */
    SUBGROUPS_LENGTH_DIFFERS = 22              /* replay: a log record's two digits are not the length of the changed word
                                                  after its move, which backward is the slot's word before the undoing;
                                                  tested at each move after 12; place: the move's number in the log,
                                                  counted from 1 */
};

/* The answer of a call. number and place are those of a refusal; what a call does not give is 0, and under a refusal all that
 * follows place is. independent and reduced are 0 or 1. */
typedef struct {
    uint64_t verdict, number, place, moves, rank, independent, reduced;
} subgroups_answer;

/* An edge of a graph: the point that it leaves, the byte of its letter, and the point that it enters. */
typedef struct {
    uint16_t from, letter, to;
} subgroups_edge;

/* Writes each record of a system, freely reduced, into the same slot of words. Refusals 2, 1, 3 to 5 and 10. */
void subgroups_tidy(const uint8_t *system, size_t system_len, uint8_t *words, size_t words_len,
                    subgroups_answer *answer);

/* Says in reduced whether the freely reduced words of a system are reduced in Nielsen's sense (docs/REQUIREMENTS.md, 'Reduced
 * systems, rank and independence'). Refusals 2, 1 and 3 to 5. */
void subgroups_test(const uint8_t *system, size_t system_len, subgroups_answer *answer);

/* Writes the reduced words, each into its slot, and the log of the moves, and gives the number of moves, the rank (the number
 * of reduced words that are not empty), and says in independent whether the given words are independent: 1 exactly when no slot
 * is blank at the end, so 0 where a given word cancels to nothing, and 1 for a system of no records.
 * Refusals 2, 1, 3 to 5, 10 and 13. */
void subgroups_reduce(const uint8_t *system, size_t system_len, uint8_t *words, size_t words_len,
                      uint8_t *log, size_t log_len, subgroups_answer *answer);

/* Writes the words of a system after the moves of a log, forward where backward is 0, and otherwise undone, the last first. The
 * words are freely reduced first; moves may name blank slots. The length in each log record must be that of the changed word
 * after the move: forward the word that the move makes, backward the one that is there before the undoing. The letter s or h may
 * be either at every move. Refusals 2, 1, 3 to 5, 7, 8 and 10, and then at each move 12 and 22. */
void subgroups_replay(const uint8_t *system, size_t system_len, const uint8_t *log, size_t log_len,
                      uint8_t backward, uint8_t *words, size_t words_len, subgroups_answer *answer);

/* Writes the freely reduced word that a product over the slots of a system multiplies out to, as one record.
 * Refusals 2, 1, 3 to 6, 9, 10 and 12. */
void subgroups_multiply(const uint8_t *system, size_t system_len, const uint8_t *product, size_t product_len,
                        uint8_t *word, size_t word_len, subgroups_answer *answer);

/* Asks a system that is reduced after free reduction, such as the words that reduce writes, about a target: gives the verdict
 * member or not a member, and no number but those of a refusal; for a member it writes the product over the freely reduced
 * words that comes to the freely reduced target, and otherwise leaves product alone. Refusals 2, 1, 3 to 6, 15 and 11. */
void subgroups_ask(const uint8_t *system, size_t system_len, const uint8_t *target, size_t target_len,
                   uint8_t *product, size_t product_len, subgroups_answer *answer);

/* Reduces a system and asks the reduced words about one target: writes all that reduce writes and gives its numbers, with the
 * verdict and the product that ask gives for the words that reduce writes. Refusals 2, 1, 3 to 6, 10, 11 and 13. */
void subgroups_member(const uint8_t *system, size_t system_len, const uint8_t *target, size_t target_len,
                      uint8_t *words, size_t words_len, uint8_t *log, size_t log_len,
                      uint8_t *product, size_t product_len, subgroups_answer *answer);

/* Reads a text and writes the freely reduced word that it stands for, as one record. Refusals 16, 17 and 18, each tried over the
 * whole text, then 10 and 12. */
void subgroups_read_text(const uint8_t *text, size_t text_len, uint8_t *word, size_t word_len, subgroups_answer *answer);

/* Writes the word of a record as text, not freely reduced first, and gives the text's length, at most 125 bytes; under a refusal
 * length is 0. There is no end mark. For a freely reduced word read_text gives the word back, and any other word freely reduced.
 * Refusals 6 and 10. */
void subgroups_write_text(const uint8_t *word, size_t word_len, uint8_t *text, size_t text_len, uint64_t *length,
                          subgroups_answer *answer);

/* Writes each word of a system, not freely reduced first, as a record of numbers into the same slot. Refusals 2, 1, 3 to 5 and
 * 10. */
void subgroups_to_numbers(const uint8_t *system, size_t system_len, uint8_t *numbers, size_t numbers_len,
                          subgroups_answer *answer);

/* Writes each record of numbers as a record of letters into the same slot. Refusals 2, 1, 19 and 20, record by record and in
 * each 19 first, and 10. */
void subgroups_from_numbers(const uint8_t *numbers, size_t numbers_len, uint8_t *words, size_t words_len,
                            subgroups_answer *answer);

/* Writes each record of a system of numbers, freely reduced, into the same slot of tidied. Refusals 2, 1, 19 and 10. */
void subgroups_tidy_numbers(const uint8_t *numbers, size_t numbers_len, uint8_t *tidied, size_t tidied_len,
                            subgroups_answer *answer);

/* Decides by the folded graph of a system whether it generates a target: gives the verdict member or not a member, and no number
 * but those of a refusal. What the table holds after an answer is not promised; a refusal leaves it as it was. Refusals 2, 1,
 * 3 to 6 and 21. */
void subgroups_trace(const uint8_t *system, size_t system_len, const uint8_t *target, size_t target_len,
                     subgroups_edge *table, size_t edges, subgroups_answer *answer);

#ifdef __cplusplus
}
#endif

#endif

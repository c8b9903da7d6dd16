/* Girvotal: classification of EL+ catalogues, changes of the axioms in force, and
 * calls that read a store. For C99 and C++11; link with -lgirvotal.
 * docs/FORMAT.md has the bytes of catalogues, stores and lists, docs/REFUSALS.md
 * the questions and what to do.
 *
 * Buffers: a buffer passes as a pointer and its length, an answer's in entries. A
 * pointer is never null; where the length is 0, any other will do. A buffer that a
 * call may write (one that is not const) overlaps no other buffer of that call.
 *
 * Results: every call returns
 *   0                        accepted: answer[0] to answer[3] are written;
 *   number + 65536 * record  refused: the number of the question that was
 *                            answered no, and the record at fault or 0;
 *   GIRVOTAL_SHORT_ANSWER    answer has fewer than GIRVOTAL_ENTRIES entries.
 * Where it does not return 0, no byte and no entry of any buffer is changed.
 * Entries of answer from GIRVOTAL_ENTRIES on are never written.
 *
 * Lengths: girvotal_check answers what a catalogue needs; with n concepts, m roles
 * and w = (n + 7) / 8 bytes in a row these are
 *   store   at least n * w * (m + 2)  rows of axioms, of pairs, of links
 *   work    at least n * w * (m + 1)
 *   list    at least 2 * n
 *   output  what girvotal_write gives, at most the bytes before the axioms
 *           and 4 * min(n * n, 4096)
 * Bytes beyond these are kept. GIRVOTAL_.._MOST is enough for every catalogue,
 * GIRVOTAL_CATALOGUE_MOST for an output too.
 *
 * Stores: a store belongs to the catalogue that it was classified from. It holds
 * numbers alone: lent with a catalogue that has other concepts, roles, inclusions
 * or compositions, it is no store of that one, and where its length and its spare
 * bits happen to fit, no call can tell and the answers mean nothing. Keep the two
 * together, as a state file does (girvotal_state.h). Only the axioms may differ:
 * those in force are the store's.
 *
 * Threads: nothing is kept between calls, nothing is allocated, and there are no
 * global variables. Any number of calls may run at once, as long as no buffer that
 * one of them writes is used by another.
 *
 * Stack, measured on the deepest catalogues and rounded up: have 1024 KiB for
 * girvotal_classify and girvotal_change, 48 KiB for girvotal_lookup, girvotal_list
 * and girvotal_row, 4 KiB for girvotal_check and girvotal_write. Too little stack
 * is a crash, not a refusal: no call can find out how much there is. A thread's
 * stack may be smaller than the main one's, so set its size.
 */
#ifndef GIRVOTAL_H
#define GIRVOTAL_H

#include <stddef.h>
#include <stdint.h>

#ifdef __cplusplus
extern "C" {
#endif

/* Raised by every change after which a program must be compiled again. */
#define GIRVOTAL_ABI 1

#define GIRVOTAL_VERSION "0.1.0"

/* The most bytes that a catalogue has, and that any catalogue asks for its store,
 * its work space and a list. */
#define GIRVOTAL_CATALOGUE_MOST 20116
#define GIRVOTAL_STORE_MOST 589824
#define GIRVOTAL_WORK_MOST 557056
#define GIRVOTAL_LIST_MOST 1024

/* The most bytes of a list of axioms that girvotal_change takes. */
#define GIRVOTAL_AXIOMS_LENGTH 256

/* How many entries an answer has at least. */
#define GIRVOTAL_ENTRIES 4

/* The number of the question that refused a call, and the record at fault. */
#define GIRVOTAL_NUMBER(result) ((result) % 65536)
#define GIRVOTAL_RECORD(result) ((result) / 65536)

/* The questions; girvotal_meaning has their sentences. */
enum girvotal_question {
    GIRVOTAL_HEADER = 1,
    GIRVOTAL_TOTAL = 2,
    GIRVOTAL_COUNTS = 3,
    GIRVOTAL_OFFSETS = 4,
    GIRVOTAL_KIND = 5,
    GIRVOTAL_FIELDS = 6,
    GIRVOTAL_ROLES = 7,
    GIRVOTAL_SIDES = 8,
    GIRVOTAL_ORDER = 9,
    GIRVOTAL_STORE = 10,
    GIRVOTAL_WORK = 11,
    GIRVOTAL_LIST = 12,
    GIRVOTAL_SPARE = 13,
    GIRVOTAL_LIMIT = 14,
    GIRVOTAL_CONCEPT = 15,
    GIRVOTAL_IN_FORCE = 16,
    GIRVOTAL_FULL = 17,
    GIRVOTAL_NOT_IN_FORCE = 18,
    GIRVOTAL_OCCURS = 19,
    GIRVOTAL_OUTPUT = 20,
    GIRVOTAL_WHOLE = 22,
    GIRVOTAL_TWICE = 23,
    GIRVOTAL_SHORT_ANSWER = 65535
};

/* What a result means, in a sentence; never null. */
static inline const char *girvotal_meaning(size_t result) {
    if (result == 0) {
        return "accepted";
    }
    switch (GIRVOTAL_NUMBER(result)) {
    case GIRVOTAL_HEADER:
        return "the catalogue is shorter than its header of 20 bytes";
    case GIRVOTAL_TOTAL:
        return "the catalogue's total is not the length lent";
    case GIRVOTAL_COUNTS:
        return "a count is outside its limits: 1 to 512 concepts, at most 16 roles, "
               "64 inclusions, 64 compositions, 4,096 axioms";
    case GIRVOTAL_OFFSETS:
        return "the offsets and the total are not what the counts give";
    case GIRVOTAL_KIND:
        return "a concept's kind is above 3";
    case GIRVOTAL_FIELDS:
        return "a concept's fields are not as its kind lays down";
    case GIRVOTAL_ROLES:
        return "an inclusion or a composition names a role that is not there";
    case GIRVOTAL_SIDES:
        return "an axiom names a concept that is not there";
    case GIRVOTAL_ORDER:
        return "an axiom is not above the one before it";
    case GIRVOTAL_STORE:
        return "the store is too short";
    case GIRVOTAL_WORK:
        return "the work space is too short";
    case GIRVOTAL_LIST:
        return "the list is too short";
    case GIRVOTAL_SPARE:
        return "a row of the store has a bit set past the last concept";
    case GIRVOTAL_LIMIT:
        return "the store has more than 4,096 axioms";
    case GIRVOTAL_CONCEPT:
        return "a concept named is not in the catalogue";
    case GIRVOTAL_IN_FORCE:
        return "an axiom to add is in force already";
    case GIRVOTAL_FULL:
        return "more than 4,096 axioms would be in force";
    case GIRVOTAL_NOT_IN_FORCE:
        return "an axiom to withdraw is not in force";
    case GIRVOTAL_OCCURS:
        return "a concept named does not occur: it is in no axiom in force";
    case GIRVOTAL_OUTPUT:
        return "the output is too short";
    case GIRVOTAL_WHOLE:
        return "a list of axioms has more than 64, or not whole ones";
    case GIRVOTAL_TWICE:
        return "an axiom stands twice in the two lists together";
    case GIRVOTAL_SHORT_ANSWER:
        return "the answer has fewer than four entries";
    default:
        return "no question has this number";
    }
}

/* The i-th number of a list, counted from 0. */
static inline size_t girvotal_entry(const uint8_t *list, size_t i) {
    return list[2 * i] + 256u * list[2 * i + 1];
}

/* Bit i of a row, for concept i: 0 or 1. */
static inline int girvotal_bit(const uint8_t *row, size_t i) {
    return (row[i / 8] >> (i % 8)) & 1;
}

/* Is this a catalogue? How much does it need?
 * Answer: bytes of store, of work, of a list, and the most that girvotal_write
 * gives. Questions 1 to 9. */
size_t girvotal_check(const uint8_t *catalogue, size_t catalogue_length,
                      uint64_t *answer, size_t answer_length);

/* Classifies the catalogue's axioms into the store. What store and work held
 * does not matter; the used part of work is zero afterwards.
 * Answer: pairs, links, 0, 0. Questions 1 to 11. */
size_t girvotal_classify(const uint8_t *catalogue, size_t catalogue_length,
                         uint8_t *store, size_t store_length,
                         uint8_t *work, size_t work_length,
                         uint64_t *answer, size_t answer_length);

/* Withdraws the axioms of one list from those in force in the store and adds those
 * of the other, at once: what no longer follows goes, and what follows newly comes.
 * An axiom has four bytes as in the catalogue: left, then right, low byte first. A
 * list may be empty; the order inside it is without effect. What the store holds
 * may be right or wrong. The concepts of which a pair or link was removed, also one
 * that returned, or gained are listed, rising, two bytes each, low byte first;
 * bytes of the list past them are kept. What work held does not matter; its used
 * part is zero afterwards.
 * Answer: pairs and links removed, of these returned, pairs and links gained,
 * concepts listed. Questions 1 to 12, 22 (a list over GIRVOTAL_AXIOMS_LENGTH or
 * not of whole axioms), 23, 13 to 15, 18, 16, 17. */
size_t girvotal_change(const uint8_t *catalogue, size_t catalogue_length,
                       const uint8_t *withdrawn, size_t withdrawn_length,
                       const uint8_t *added, size_t added_length,
                       uint8_t *store, size_t store_length,
                       uint8_t *work, size_t work_length,
                       uint8_t *list, size_t list_length,
                       uint64_t *answer, size_t answer_length);

/* Does concept first lie under concept second, by the store?
 * Answer: 1 for yes or 0 for no, 0, 0, 0. Questions 1 to 10, 13 to 15, 19. */
size_t girvotal_lookup(const uint8_t *catalogue, size_t catalogue_length,
                       size_t first, size_t second,
                       const uint8_t *store, size_t store_length,
                       uint64_t *answer, size_t answer_length);

/* Lists the atomic concepts under concept second, rising, two bytes each, low
 * byte first. Bytes of the list past them are kept.
 * Answer: count, 0, 0, 0. Questions 1 to 10, 12 to 15, 19. */
size_t girvotal_list(const uint8_t *catalogue, size_t catalogue_length,
                     size_t second,
                     const uint8_t *store, size_t store_length,
                     uint8_t *list, size_t list_length,
                     uint64_t *answer, size_t answer_length);

/* Where the row of pairs of a concept stands in the store; girvotal_bit reads it.
 * Answer: offset in the store, width in bytes, 0, 0. Questions 1 to 10, 13 to
 * 15, 19. */
size_t girvotal_row(const uint8_t *catalogue, size_t catalogue_length,
                    size_t concept_number,
                    const uint8_t *store, size_t store_length,
                    uint64_t *answer, size_t answer_length);

/* Writes the catalogue with the axioms in force in the store. Bytes of the
 * output past it are kept.
 * Answer: length, 0, 0, 0. Questions 1 to 10, 13, 14, 20. */
size_t girvotal_write(const uint8_t *catalogue, size_t catalogue_length,
                      const uint8_t *store, size_t store_length,
                      uint8_t *output, size_t output_length,
                      uint64_t *answer, size_t answer_length);

#ifdef __cplusplus
}
#endif

#endif

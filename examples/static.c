/* Lists, for each concept of the catalogue on standard input, the kinds that lie under
 * it. Its buffers are static, and large enough for every catalogue: no heap. */
#include "girvotal.h"

#include <stdio.h>

static uint8_t catalogue[GIRVOTAL_CATALOGUE_MOST + 1]; /* a longer input is refused */
static uint8_t store[GIRVOTAL_STORE_MOST], work[GIRVOTAL_WORK_MOST], list[GIRVOTAL_LIST_MOST];
static uint64_t answer[GIRVOTAL_ENTRIES];

static int refused(size_t result) {
    fprintf(stderr, "refused (%zu): %s\n", GIRVOTAL_NUMBER(result), girvotal_meaning(result));
    return 2;
}

int main(void) {
    size_t length = fread(catalogue, 1, sizeof catalogue, stdin);
    size_t result = girvotal_check(catalogue, length, answer, GIRVOTAL_ENTRIES);
    if (result != 0) {
        return refused(result);
    }
    size_t concepts = answer[2] / 2;
    result = girvotal_classify(catalogue, length, store, sizeof store, work, sizeof work, answer,
                               GIRVOTAL_ENTRIES);
    if (result != 0) {
        return refused(result);
    }
    for (size_t d = 0; d < concepts; d++) {
        result = girvotal_list(catalogue, length, d, store, sizeof store, list, sizeof list, answer,
                               GIRVOTAL_ENTRIES);
        switch (GIRVOTAL_NUMBER(result)) {
        case 0:
            printf("%zu:", d);
            for (size_t i = 0; i < answer[0]; i++) {
                printf(" %zu", girvotal_entry(list, i));
            }
            printf("\n");
            break;
        case GIRVOTAL_OCCURS: /* a composite that no axiom has */
            break;
        default:
            return refused(result);
        }
    }
    return 0;
}

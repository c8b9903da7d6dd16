/* Classifies a catalogue file, looks up the pair (0, 3), withdraws the axiom (1, 5)
 * and looks the pair up again: in example W1, is the corner pitch a powered pitch,
 * and is it one still if a pillar no longer supplies electricity?
 *
 * cc example.c $(pkg-config --cflags --libs girvotal) -o example */
#include "girvotal.h"

#include <inttypes.h>
#include <stdio.h>
#include <stdlib.h>

/* What the calls are lent. One byte more than a catalogue has: a longer file is
 * refused too. */
struct lent {
    uint8_t catalogue[GIRVOTAL_CATALOGUE_MOST + 1];
    size_t length;
    uint8_t *store, *work, *list;
    size_t store_length, work_length, list_length;
    uint64_t answer[GIRVOTAL_ENTRIES];
};

/* Ends the program where a call was refused; questions 5 to 9 name a record. */
static void accepted(const char *call, size_t result) {
    size_t number = GIRVOTAL_NUMBER(result);
    if (result == 0) {
        return;
    }
    fprintf(stderr, "%s: refused (%zu): %s", call, number, girvotal_meaning(result));
    if (number >= GIRVOTAL_KIND && number <= GIRVOTAL_ORDER) {
        fprintf(stderr, " (record %zu)", GIRVOTAL_RECORD(result));
    }
    fprintf(stderr, "\n");
    exit(2);
}

/* A buffer of so many bytes, at least one. */
static uint8_t *buffer(size_t length) {
    uint8_t *bytes = (uint8_t *)malloc(length);
    if (bytes == NULL) {
        fprintf(stderr, "no memory\n");
        exit(4);
    }
    return bytes;
}

/* Buffers as long as the catalogue asks. */
static void make_room(struct lent *l) {
    accepted("check", girvotal_check(l->catalogue, l->length, l->answer, GIRVOTAL_ENTRIES));
    l->store_length = l->answer[0];
    l->work_length = l->answer[1];
    l->list_length = l->answer[2];
    l->store = buffer(l->store_length);
    l->work = buffer(l->work_length);
    l->list = buffer(l->list_length);
}

static void classify(struct lent *l) {
    accepted("classify", girvotal_classify(l->catalogue, l->length, l->store, l->store_length,
                                           l->work, l->work_length, l->answer, GIRVOTAL_ENTRIES));
    printf("pairs %" PRIu64 ", links %" PRIu64 "\n", l->answer[0], l->answer[1]);
}

static void look_up(struct lent *l, size_t first, size_t second) {
    accepted("lookup", girvotal_lookup(l->catalogue, l->length, first, second, l->store,
                                       l->store_length, l->answer, GIRVOTAL_ENTRIES));
    printf("%zu under %zu: %s\n", first, second, l->answer[0] == 1 ? "yes" : "no");
}

/* Withdraws one axiom and adds none; a second list of axioms would be added at once. */
static void withdraw(struct lent *l, const uint8_t *axiom) {
    accepted("change", girvotal_change(l->catalogue, l->length, axiom, 4, axiom, 0, l->store,
                                       l->store_length, l->work, l->work_length, l->list,
                                       l->list_length, l->answer, GIRVOTAL_ENTRIES));
    printf("removed %" PRIu64 ", returned %" PRIu64 ", gained %" PRIu64 ", touched", l->answer[0],
           l->answer[1], l->answer[2]);
    for (size_t i = 0; i < l->answer[3]; i++) {
        printf(" %zu", girvotal_entry(l->list, i));
    }
    printf("\n");
}

int main(int argc, char **argv) {
    static struct lent l;
    static const uint8_t axiom[] = {1, 0, 5, 0};
    if (argc != 2) {
        fprintf(stderr, "usage: example CATALOGUE\n");
        return 3;
    }
    FILE *file = fopen(argv[1], "rb");
    if (file == NULL) {
        perror(argv[1]);
        return 4;
    }
    l.length = fread(l.catalogue, 1, sizeof l.catalogue, file);
    if (ferror(file)) {
        perror(argv[1]);
        return 4;
    }
    fclose(file);

    make_room(&l);
    classify(&l);
    look_up(&l, 0, 3);
    withdraw(&l, axiom);
    look_up(&l, 0, 3);
    free(l.store);
    free(l.work);
    free(l.list);
    return 0;
}

/* Measures how much stack each call takes: on the catalogue files given, and on one of
 * 512 concepts and 16 roles whose parts are as deep as can be. Each call runs in a
 * thread whose stack is painted first. Prints the most bytes of each call. */
#include "girvotal.h"

#include <pthread.h>
#include <stdio.h>
#include <stdlib.h>

#define STACK (1 << 21)
#define PAINT 0xa5

static uint8_t stack[STACK] __attribute__((aligned(4096)));
static uint8_t catalogue[GIRVOTAL_CATALOGUE_MOST], output[GIRVOTAL_CATALOGUE_MOST];
static uint8_t store[GIRVOTAL_STORE_MOST], work[GIRVOTAL_WORK_MOST], list[GIRVOTAL_LIST_MOST];
static uint8_t axiom[4]; /* the catalogue's first */
static size_t length;
static uint64_t answer[GIRVOTAL_ENTRIES];

static size_t check(void) { return girvotal_check(catalogue, length, answer, GIRVOTAL_ENTRIES); }

static size_t classify(void) {
    return girvotal_classify(catalogue, length, store, sizeof store, work, sizeof work, answer,
                             GIRVOTAL_ENTRIES);
}

static size_t change(size_t out, size_t in) {
    return girvotal_change(catalogue, length, axiom, out, axiom, in, store, sizeof store, work,
                           sizeof work, list, sizeof list, answer, GIRVOTAL_ENTRIES);
}

static size_t withdraw(void) { return change(4, 0); }

static size_t add(void) { return change(0, 4); }

static size_t lookup(void) {
    return girvotal_lookup(catalogue, length, girvotal_entry(axiom, 0), girvotal_entry(axiom, 1),
                           store, sizeof store, answer, GIRVOTAL_ENTRIES);
}

static size_t list_under(void) {
    return girvotal_list(catalogue, length, girvotal_entry(axiom, 0), store, sizeof store, list,
                         sizeof list, answer, GIRVOTAL_ENTRIES);
}

static size_t row(void) {
    return girvotal_row(catalogue, length, girvotal_entry(axiom, 0), store, sizeof store, answer,
                        GIRVOTAL_ENTRIES);
}

static size_t write_out(void) {
    return girvotal_write(catalogue, length, store, sizeof store, output, sizeof output, answer,
                          GIRVOTAL_ENTRIES);
}

/* A call, and the most bytes of stack that it took. */
static struct call {
    const char *name;
    size_t (*run)(void);
    size_t most;
} calls[] = {
    {"check", check, 0}, {"classify", classify, 0}, {"lookup", lookup, 0},
    {"list", list_under, 0}, {"row", row, 0}, {"write", write_out, 0},
    {"withdraw", withdraw, 0}, {"add", add, 0},
};

/* Runs a call on a stack that is painted but for its last 256 bytes. */
static void *measure(void *given) {
    struct call *call = (struct call *)given;
    volatile uint8_t here = 0;
    volatile uint8_t *bottom = stack;
    size_t top = (size_t)(&here - bottom), lowest = 0;
    for (size_t i = 0; i + 256 < top; i++) {
        bottom[i] = PAINT;
    }
    size_t result = call->run();
    while (bottom[lowest] == PAINT) {
        lowest++;
    }
    if (result != 0) {
        fprintf(stderr, "%s: refused (%zu)\n", call->name, GIRVOTAL_NUMBER(result));
        exit(2);
    }
    if (call->most < top - lowest) {
        call->most = top - lowest;
    }
    return NULL;
}

/* Runs every call on the catalogue, each in a thread. */
static void measure_all(void) {
    for (size_t i = 0; i < 4; i++) {
        axiom[i] = catalogue[girvotal_entry(catalogue, 9) + i];
    }
    for (size_t i = 0; i < sizeof calls / sizeof calls[0]; i++) {
        pthread_attr_t attributes;
        pthread_t thread;
        if (pthread_attr_init(&attributes) != 0 ||
            pthread_attr_setstack(&attributes, stack, STACK) != 0 ||
            pthread_create(&thread, &attributes, measure, &calls[i]) != 0 ||
            pthread_join(thread, NULL) != 0) {
            fprintf(stderr, "no thread\n");
            exit(4);
        }
        pthread_attr_destroy(&attributes);
    }
}

/* Puts the next two-byte number of the catalogue. */
static void put(size_t number) {
    catalogue[length++] = (uint8_t)(number % 256);
    catalogue[length++] = (uint8_t)(number / 256);
}

/* One atomic concept, 511 conjunctions, each of the one before, and the last under the
 * first. */
static void deepest(void) {
    const size_t header[] = {20 + 6 * 512 + 4, 512, 16, 0, 0, 1, 20, 3092, 3092, 3092};
    length = 0;
    for (size_t i = 0; i < 10; i++) {
        put(header[i]);
    }
    for (size_t i = 0; i < 512; i++) {
        put(i == 0 ? 0 : 2);
        put(i == 0 ? 0 : i - 1);
        put(i == 0 ? 0 : i - 1);
    }
    put(511);
    put(0);
}

int main(int argc, char **argv) {
    for (int i = 1; i < argc; i++) {
        FILE *file = fopen(argv[i], "rb");
        if (file == NULL) {
            perror(argv[i]);
            return 4;
        }
        length = fread(catalogue, 1, sizeof catalogue, file);
        fclose(file);
        measure_all();
    }
    deepest();
    measure_all();
    for (size_t i = 0; i < sizeof calls / sizeof calls[0]; i++) {
        printf("%s %zu\n", calls[i].name, calls[i].most);
    }
    return 0;
}

/* Tests girvotal_state.h on a state file: state STATE. Every byte is changed to every value, with
 * the checksum as it was and made anew; every shorter length is lent. Where the parts are found,
 * all of them are read. Prints how often each fault was found; ends with 1 if one is missed. */
#include "girvotal_state.h"

#include <stdio.h>
#include <stdlib.h>

static size_t found[7]; /* by the fault's number, 0 for none */

static void ask(int good, const char *what) {
    if (!good) {
        fprintf(stderr, "state: %s\n", what);
        exit(1);
    }
}

/* Makes the checksum anew. */
static void sum(uint8_t *file, size_t length) {
    uint32_t checksum = girvotal_state_checksum(file + 16, length - 16);
    for (int i = 0; i < 4; i++) {
        file[12 + i] = (uint8_t)(checksum >> 8 * i);
    }
}

/* The sum of some bytes, so that each is read. */
static size_t read_all(const uint8_t *bytes, size_t length) {
    size_t total = 0;
    for (size_t i = 0; i < length; i++) {
        total += bytes[i];
    }
    return total;
}

/* Finds the parts, in a block of exactly this length, and reads them. */
static int find(const uint8_t *bytes, size_t length) {
    uint8_t *file = (uint8_t *)malloc(length + !length);
    struct girvotal_state state;
    ask(file != NULL, "no memory");
    memcpy(file, bytes, length);
    int fault = girvotal_state_find(file, length, &state);
    ask(fault >= 0 && fault <= 6, "an unknown fault");
    ask(strcmp(girvotal_state_meaning(fault), girvotal_state_meaning(7)) != 0, "no sentence");
    found[fault]++;
    if (fault == 0) {
        size_t total = read_all(state.names, state.names_length) +
                       read_all(state.catalogue, state.catalogue_length) +
                       read_all(state.store, state.store_length);
        for (size_t i = 0; i < state.concepts + state.roles; i++) {
            size_t name_length;
            const char *name = girvotal_state_name(&state, i, &name_length);
            total += read_all((const uint8_t *)name, name_length);
        }
        ask(total > 0, "a state of zeros");
        ask(girvotal_state_concept(&state, "corner-pitch?", 13) == state.concepts, "a name made up");
    }
    free(file);
    return fault;
}

/* The state as it is: its names, and a lookup by them. */
static void whole(const uint8_t *file, size_t length) {
    struct girvotal_state state;
    uint64_t answer[GIRVOTAL_ENTRIES];
    ask(girvotal_state_find(file, length, &state) == 0, "the state is found");
    ask(state.concepts == 7 && state.roles == 3, "W1 has 7 concepts and 3 roles");
    size_t corner = girvotal_state_concept(&state, "corner-pitch", 12);
    size_t powered = girvotal_state_concept(&state, "powered-pitch", 13);
    ask(corner == 0 && powered == 3, "the kinds by name");
    ask(girvotal_state_concept(&state, "has", 3) == 7, "a role is no concept");
    ask(girvotal_state_concept(&state, "", 0) == 7, "no name is a composite's");
    size_t name_length;
    const char *name = girvotal_state_name(&state, 9, &name_length);
    ask(name_length == 6 && memcmp(name, "offers", 6) == 0, "the last role's name");
    size_t result =
        girvotal_lookup(state.catalogue, state.catalogue_length, corner, powered, state.store,
                        state.store_length, answer, GIRVOTAL_ENTRIES);
    ask(result == 0 && answer[0] == 1, "the corner pitch is a powered pitch");
    ask(girvotal_state_checksum((const uint8_t *)"123456789", 9) == 0xcbf43926, "CRC-32");
}

int main(int argc, char **argv) {
    static uint8_t file[4096], changed[4096];
    FILE *opened = argc == 2 ? fopen(argv[1], "rb") : NULL;
    ask(opened != NULL, "usage: state STATE");
    size_t length = fread(file, 1, sizeof file, opened);
    fclose(opened);
    whole(file, length);
    for (size_t i = 0; i < length; i++) {
        ask(find(file, i) != 0, "a state cut short");
        for (unsigned value = 0; value < 256; value++) {
            memcpy(changed, file, length);
            changed[i] = (uint8_t)value;
            ask((find(changed, length) == 0) == (value == file[i]), "a byte changed");
            sum(changed, length);
            find(changed, length);
        }
    }
    for (int fault = 0; fault < 7; fault++) {
        printf("%s%zu", fault == 0 ? "" : " ", found[fault]);
        ask(found[fault] > 0, girvotal_state_meaning(fault));
    }
    printf("\n");
    return 0;
}

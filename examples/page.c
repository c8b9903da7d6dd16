/* Maps a state file and answers one lookup of two kinds by name: page STATE A B.
 * Prints yes and ends with 0, or no and 1; refused: 2, usage: 3, the file: 4.
 * Any bytes may stand in the file. */
#ifndef _POSIX_C_SOURCE
#define _POSIX_C_SOURCE 200809L
#endif
#include "girvotal_state.h"

#include <errno.h>
#include <fcntl.h>
#include <stdio.h>
#include <stdlib.h>
#include <sys/mman.h>
#include <sys/stat.h>
#include <unistd.h>

/* Ends the program with a status and what is wrong with a file or a name. */
static void stop(int status, const char *subject, const char *fault) {
    fprintf(stderr, "page: %s: %s\n", subject, fault);
    exit(status);
}

/* The state in a file, which stays mapped. */
static struct girvotal_state mapped(const char *path) {
    struct girvotal_state state;
    struct stat status;
    int opened = open(path, O_RDONLY), fault;
    if (opened < 0 || fstat(opened, &status) != 0) {
        stop(4, path, strerror(errno));
    }
    size_t length = (size_t)status.st_size;
    void *file = mmap(NULL, length, PROT_READ, MAP_PRIVATE, opened, 0);
    if (file == MAP_FAILED) {
        stop(4, path, "can't be mapped: empty, or no plain file");
    }
    close(opened);
    fault = girvotal_state_find((const uint8_t *)file, length, &state);
    if (fault != 0) {
        stop(4, path, girvotal_state_meaning(fault));
    }
    return state;
}

/* The number of the concept with a name. */
static size_t named(const struct girvotal_state *state, const char *name) {
    size_t concept_number = girvotal_state_concept(state, name, strlen(name));
    if (concept_number == state->concepts) {
        stop(3, name, "no kind has this name");
    }
    return concept_number;
}

int main(int argc, char **argv) {
    uint64_t answer[GIRVOTAL_ENTRIES];
    if (argc != 4) {
        fprintf(stderr, "usage: page STATE A B\n");
        return 3;
    }
    struct girvotal_state state = mapped(argv[1]);
    size_t first = named(&state, argv[2]), second = named(&state, argv[3]);
    size_t result =
        girvotal_lookup(state.catalogue, state.catalogue_length, first, second, state.store,
                        state.store_length, answer, GIRVOTAL_ENTRIES);
    if (result != 0) {
        stop(2, "refused", girvotal_meaning(result));
    }
    printf("%s\n", answer[0] == 1 ? "yes" : "no");
    return answer[0] == 1 ? 0 : 1;
}

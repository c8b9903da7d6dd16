/* Girvotal: the names, the catalogue and the store of a state file, as the command
 * writes it, in memory that holds the whole file, for example mapped. For C99 and
 * C++11; docs/FORMAT.md has the file's layout, examples/page.c is an example.
 *
 * The bytes may be any: what does not fit is a fault, and nothing outside of them is
 * read. A change of a state makes a new file and renames it, so what is mapped stays
 * as it is; to see the change, map the file anew.
 */
#ifndef GIRVOTAL_STATE_H
#define GIRVOTAL_STATE_H

#include "girvotal.h"

#include <string.h>

#ifdef __cplusplus
extern "C" {
#endif

/* The version of the file that is read here. */
#define GIRVOTAL_STATE_FILE 1

/* Where the parts of a state stand; they live as long as the file's bytes. */
struct girvotal_state {
    const uint8_t *names;
    size_t names_length;
    const uint8_t *catalogue;
    size_t catalogue_length;
    const uint8_t *store;
    size_t store_length;
    size_t concepts; /* how many names there are, of concepts and then of roles */
    size_t roles;
};

/* Why bytes are no state; girvotal_state_meaning has their sentences. */
enum girvotal_state_fault {
    GIRVOTAL_STATE_MAGIC = 1,
    GIRVOTAL_STATE_VERSION = 2,
    GIRVOTAL_STATE_LENGTH = 3,
    GIRVOTAL_STATE_CHECKSUM = 4,
    GIRVOTAL_STATE_SECTIONS = 5,
    GIRVOTAL_STATE_NAMES = 6
};

/* What girvotal_state_find found, in a sentence; never null. */
static inline const char *girvotal_state_meaning(int fault) {
    switch (fault) {
    case 0:
        return "a state file";
    case GIRVOTAL_STATE_MAGIC:
        return "not a state file";
    case GIRVOTAL_STATE_VERSION:
        return "a state file of another version";
    case GIRVOTAL_STATE_LENGTH:
        return "damaged: its length is not the one it states";
    case GIRVOTAL_STATE_CHECKSUM:
        return "damaged: its checksum is wrong";
    case GIRVOTAL_STATE_SECTIONS:
        return "damaged: a section is not where it belongs";
    case GIRVOTAL_STATE_NAMES:
        return "damaged: its names are not where they belong";
    default:
        return "no fault has this number";
    }
}

/* The four-byte number at an offset, low byte first. */
static inline size_t girvotal_state_number(const uint8_t *bytes, size_t at) {
    return bytes[at] + 256u * (size_t)bytes[at + 1] + 65536u * (size_t)bytes[at + 2] +
           16777216u * (size_t)bytes[at + 3];
}

/* The checksum of bytes: CRC-32 as zlib has it, by half bytes. */
static inline uint32_t girvotal_state_checksum(const uint8_t *bytes, size_t length) {
    static const uint32_t table[16] = {
        0x00000000, 0x1db71064, 0x3b6e20c8, 0x26d930ac, 0x76dc4190, 0x6b6b51f4,
        0x4db26158, 0x5005713c, 0xedb88320, 0xf00f9344, 0xd6d6a3e8, 0xcb61b38c,
        0x9b64c2b0, 0x86d3d2d4, 0xa00ae278, 0xbdbdf21c};
    uint32_t sum = 0xffffffff;
    for (size_t i = 0; i < length; i++) {
        sum ^= bytes[i];
        sum = sum >> 4 ^ table[sum & 15];
        sum = sum >> 4 ^ table[sum & 15];
    }
    return ~sum;
}

/* The section whose offset and length stand at a field of the header: it must begin at
 * the first multiple of 8 from *end on, and lie in the file. *end becomes its end. */
static inline int girvotal_state_section(const uint8_t *file, size_t file_length, size_t field,
                                         size_t *end, const uint8_t **section, size_t *length) {
    size_t offset = girvotal_state_number(file, field);
    *length = girvotal_state_number(file, field + 4);
    if (offset != (*end + 7) / 8 * 8 || offset > file_length || *length > file_length - offset) {
        return GIRVOTAL_STATE_SECTIONS;
    }
    *section = file + offset;
    *end = offset + *length;
    return 0;
}

/* Whether the names are as many as the catalogue has concepts and roles, one after
 * the other from the end of their offsets to the end of the section. */
static inline int girvotal_state_names(const struct girvotal_state *state) {
    size_t count = state->concepts + state->roles;
    if (state->catalogue_length < 20 || girvotal_entry(state->catalogue, 1) != state->concepts ||
        girvotal_entry(state->catalogue, 2) != state->roles ||
        4 * (count + 1) > state->names_length ||
        girvotal_state_number(state->names, 0) != 4 * (count + 1) ||
        girvotal_state_number(state->names, 4 * count) != state->names_length) {
        return GIRVOTAL_STATE_NAMES;
    }
    for (size_t i = 0; i < count; i++) {
        if (girvotal_state_number(state->names, 4 * i) >
            girvotal_state_number(state->names, 4 * i + 4)) {
            return GIRVOTAL_STATE_NAMES;
        }
    }
    return 0;
}

/* Finds the parts of a state in a file's bytes; 0, or why they are none. Asked are the
 * magic, the version, the length, the checksum, where the sections lie, and where the
 * names do. The calls ask the catalogue and the store their questions themselves. That
 * the store's axioms are the catalogue's, girvotal_write says, which gives the same
 * bytes again; a file that only the command wrote needs no such question. */
static inline int girvotal_state_find(const uint8_t *file, size_t length,
                                      struct girvotal_state *state) {
    size_t end = 64; /* the header's */
    if (length < end || memcmp(file, "GIRVOTAL", 8) != 0) {
        return GIRVOTAL_STATE_MAGIC;
    }
    if (girvotal_state_number(file, 8) != GIRVOTAL_STATE_FILE) {
        return GIRVOTAL_STATE_VERSION;
    }
    if (girvotal_state_number(file, 16) != length) {
        return GIRVOTAL_STATE_LENGTH;
    }
    if (girvotal_state_number(file, 12) != girvotal_state_checksum(file + 16, length - 16)) {
        return GIRVOTAL_STATE_CHECKSUM;
    }
    if (girvotal_state_section(file, length, 20, &end, &state->names, &state->names_length) ||
        girvotal_state_section(file, length, 28, &end, &state->catalogue,
                               &state->catalogue_length) ||
        girvotal_state_section(file, length, 36, &end, &state->store, &state->store_length) ||
        end != length) {
        return GIRVOTAL_STATE_SECTIONS;
    }
    state->concepts = girvotal_state_number(file, 44);
    state->roles = girvotal_state_number(file, 48);
    return girvotal_state_names(state);
}

/* The name of concept i, or of role i - concepts: its bytes, UTF-8 with no zero after
 * them, and their count. That of a composite may be empty. */
static inline const char *girvotal_state_name(const struct girvotal_state *state, size_t i,
                                              size_t *length) {
    size_t start = girvotal_state_number(state->names, 4 * i);
    *length = girvotal_state_number(state->names, 4 * i + 4) - start;
    return (const char *)state->names + start;
}

/* The concept with a name, or state->concepts, which every call refuses, if there is
 * none. */
static inline size_t girvotal_state_concept(const struct girvotal_state *state, const char *name,
                                            size_t length) {
    size_t i = 0, its_length;
    for (; i < state->concepts; i++) {
        const char *its_name = girvotal_state_name(state, i, &its_length);
        if (length > 0 && its_length == length && memcmp(its_name, name, length) == 0) {
            break;
        }
    }
    return i;
}

#ifdef __cplusplus
}
#endif

#endif

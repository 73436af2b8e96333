/* The layout of a table as one block of bytes (docs/LIBRARY.md says it for users). No program includes this.
 *
 * A header, and the arrays one after another in the order of enum array, each at the next multiple of 8 bytes, with zeros in the gaps. All numbers are
 * little-endian. The numbers of entries determine each byte of the header and of the gaps. */
#ifndef COMPOSECHECK_BLOCK_H
#define COMPOSECHECK_BLOCK_H
#include "arrays.h"

#if defined __BYTE_ORDER__ && __BYTE_ORDER__ != __ORDER_LITTLE_ENDIAN__
#error "the numbers of a table are little-endian"
#endif

enum array { NODES, EDGES, RESULTS, TEXTS, LONG_TEXTS, HINTS, ARRAYS };

/* What a block begins with: that it is one, of which layout, its whole length in bytes, and of each array the number of entries and the offset. */
struct block_header {
    char magic[8];
    uint64_t layout, length;
    struct { uint64_t count, offset; } arrays[ARRAYS];
};

/* The address of an array in a block. (The first one is behind the header: a key takes fewer steps by that.) */
static inline void *array_of(const void *block, enum array array)
{
    const struct block_header *header = block;
    return (char *) block + (array == NODES ? sizeof *header : header->arrays[array].offset);
}

/* How many entries an array of a block has. */
static inline size_t count_of(const void *block, enum array array)
{
    return (size_t) ((const struct block_header *) block)->arrays[array].count;
}

/* The whole length of a block. */
static inline size_t length_of(const void *block)
{
    return (size_t) ((const struct block_header *) block)->length;
}

/* How many bytes an entry of each array has, and how many a block has whose arrays have these numbers of entries. */
COMPOSECHECK_HIDDEN extern const size_t composecheck_widths[ARRAYS];
COMPOSECHECK_HIDDEN size_t composecheck_block_length(const uint64_t counts[ARRAYS]);

/* Writes the header of such a block, and the zeros of its gaps. */
COMPOSECHECK_HIDDEN void composecheck_begin_block(void *block, const uint64_t counts[ARRAYS]);

/* Whether any bytes at any address are a block of this layout, with two hints for each edge, a result keysym for each text, and keysyms among the
 * results. What the other arrays hold, and whether they are a table, it doesn't ask. */
COMPOSECHECK_HIDDEN bool composecheck_is_block(const void *bytes, size_t length);
#endif

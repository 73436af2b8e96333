/* The layout of a table as one block of bytes. C, and unproved. */
#include "block.h"
#include <string.h>

const size_t composecheck_widths[ARRAYS] = { sizeof(struct composecheck_node), sizeof(struct composecheck_edge), sizeof(uint32_t), 1, 1, 1 };

/* The header of the block whose arrays have these numbers of entries. */
static struct block_header header_of(const uint64_t counts[ARRAYS])
{
    struct block_header header = { .magic = "compose", .layout = 1 };
    uint64_t at = sizeof header;
    for (int i = 0; i < ARRAYS; i++) {
        header.arrays[i].count = counts[i];
        header.arrays[i].offset = at;
        at = (at + counts[i] * composecheck_widths[i] + 7) / 8 * 8;
    }
    header.length = at;
    return header;
}

/* The gap behind an array: where it begins, and how many bytes it has. */
static uint64_t gap_behind(const struct block_header *header, int array, size_t *size)
{
    uint64_t at = header->arrays[array].offset + header->arrays[array].count * composecheck_widths[array];
    *size = (size_t) ((array + 1 < ARRAYS ? header->arrays[array + 1].offset : header->length) - at);
    return at;
}

size_t composecheck_block_length(const uint64_t counts[ARRAYS])
{
    return (size_t) header_of(counts).length;
}

void composecheck_begin_block(void *block, const uint64_t counts[ARRAYS])
{
    struct block_header header = header_of(counts);
    memcpy(block, &header, sizeof header);
    for (int i = 0; i < ARRAYS; i++) {
        size_t size;
        uint64_t at = gap_behind(&header, i, &size);
        memset((uint8_t *) block + at, 0, size);
    }
}

/* Whether the bytes begin with the header of a block of this length, and which it is. */
static bool read_header(const void *bytes, size_t length, struct block_header *header)
{
    uint64_t counts[ARRAYS];
    memcpy(header, bytes, sizeof *header);
    for (int i = 0; i < ARRAYS; i++) {
        counts[i] = header->arrays[i].count;
        if (counts[i] > length / composecheck_widths[i])
            return false;
    }
    *header = header_of(counts);
    return header->length == length && memcmp(header, bytes, sizeof *header) == 0;
}

static bool has_clear_gaps(const uint8_t *bytes, const struct block_header *header)
{
    static const uint8_t zeros[8];
    for (int i = 0; i < ARRAYS; i++) {
        size_t size;
        uint64_t at = gap_behind(header, i, &size);
        if (memcmp(bytes + at, zeros, size) != 0)
            return false;
    }
    return true;
}

static bool are_keysyms(const uint32_t *numbers, size_t count)
{
    for (size_t i = 0; i < count; i++)
        if (numbers[i] > COMPOSECHECK_GREATEST_KEYSYM)
            return false;
    return true;
}

bool composecheck_is_block(const void *bytes, size_t length)
{
    struct block_header header;
    if ((uintptr_t) bytes % 8 != 0 || length < sizeof header || !read_header(bytes, length, &header))
        return false;
    return header.arrays[TEXTS].count == 4 * header.arrays[RESULTS].count && header.arrays[HINTS].count == 2 * header.arrays[EDGES].count
           && has_clear_gaps(bytes, &header) && are_keysyms(array_of(bytes, RESULTS), count_of(bytes, RESULTS));
}

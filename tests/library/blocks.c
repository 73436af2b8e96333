/* A table as one block of bytes: its layout as docs/LIBRARY.md says it; each byte that is another one, each length and each address that is not the
 * table's, is refused, or the bytes are a table, which is typed with; a table that is mapped from a file; and copies. Compiled with
 * -fsanitize=address,undefined. The argument is a folder that may be written to. */
#define _POSIX_C_SOURCE 200809L
#include <composecheck.h>
#include <fcntl.h>
#include <stdio.h>
#include <stdlib.h>
#include <string.h>
#include <sys/mman.h>
#include <unistd.h>

static const char text[] = "<Multi_key> <apostrophe> <e> : \"\xc3\xa9\"\n<Multi_key> <a> : \"long texts\" F1\n<x> : \"y\"\n";
static const char same_text[] = "# the same\n<x> : \"z\"\n<Multi_key>  <a>:\"long texts\" F1\n\n<x> : \"y\"\n<Multi_key> <apostrophe> <e> : \"\xc3\xa9\"\n";
enum { HEADER = 120, ARRAYS = 6 };
static int failed;

static void expect(bool holds, const char *what)
{
    if (!holds && failed++ < 20)
        printf("FAILED: %s\n", what);
}

static void *block_of(size_t size)
{
    void *block = malloc(size ? size : 1);
    if (!block)
        abort();
    return block;
}

static void *table_of(const char *given, size_t *size)
{
    struct composecheck_source source = { "r", given, strlen(given) };
    struct composecheck_input input = { .sources = &source, .source_count = 1, .longest = true };
    return composecheck_table_new(&input, size, NULL);
}

/* Types the sequences of a table, of at most three keys and at most eight that follow one another, and says how many they are. */
static unsigned type_all(const void *table, size_t size)
{
    unsigned composed = 0;
    struct composecheck_state states[4] = { { .count = 0 } };
    uint32_t next[4] = { 0 }, keysym, status, length;
    uint8_t typed[COMPOSECHECK_MOST_TEXT];
    for (int depth = 0; depth >= 0;) {
        if (depth == 3 || next[depth] == 8 || !composecheck_table_following(table, size, &states[depth], next[depth]++, &keysym, &status, typed, &length)) {
            depth--;
            continue;
        }
        expect(composecheck_table_result(table, size, &states[depth], keysym) <= COMPOSECHECK_GREATEST_KEYSYM, "a result is a keysym");
        states[depth + 1] = states[depth];
        expect(composecheck_table_feed(table, size, &states[depth + 1], keysym, typed, &length) != COMPOSECHECK_NO_KEYSYM, "what follows is a keysym");
        expect(composecheck_status(&states[depth + 1]) == status, "what a key that follows does");
        composed += status == COMPOSECHECK_COMPOSED;
        composecheck_table_refeed(table, size, &states[depth + 1]);
        if (status == COMPOSECHECK_COMPOSING)
            next[++depth] = 0;
    }
    return composed;
}

static uint64_t word_at(const uint8_t *at)
{
    uint64_t word = 0;
    for (int i = 8; i > 0; i--)
        word = word << 8 | at[i - 1];
    return word;
}

static uint64_t count_of(const uint8_t *table, int array)
{
    return word_at(table + 24 + 16 * array);
}

static uint64_t offset_of(const uint8_t *table, int array)
{
    return word_at(table + 32 + 16 * array);
}

enum { NODES, EDGES, RESULTS, TEXTS, LONG_TEXTS, HINTS };
static const size_t widths[ARRAYS] = { 8, 8, 4, 1, 1, 1 };

/* Whether an array has the byte at this place. */
static bool is_in(const uint8_t *table, int array, size_t at)
{
    return at >= offset_of(table, array) && at < offset_of(table, array) + count_of(table, array) * widths[array];
}

static bool is_in_gap(const uint8_t *table, size_t at)
{
    bool is_in_none = at >= HEADER;
    for (int i = 0; i < ARRAYS; i++)
        is_in_none = is_in_none && !is_in(table, i, at);
    return is_in_none;
}

/* Each number of the header, as the document has it. */
static void layout(const uint8_t *table, size_t size)
{
    uint64_t at = HEADER;
    expect((uintptr_t) table % 8 == 0 && size % 8 == 0, "a table is aligned");
    expect(memcmp(table, "compose", 8) == 0 && word_at(table + 8) == 1 && word_at(table + 16) == size, "what a table begins with");
    for (int i = 0; i < ARRAYS; i++) {
        expect(offset_of(table, i) == at, "an array is behind the one before it");
        for (at += count_of(table, i) * widths[i]; at % 8; at++)
            expect(table[at] == 0, "a gap has zeros");
    }
    expect(at == size, "the last array ends the table");
    /* three sequences over five edges, with a text each, of which one is among the long ones */
    expect(count_of(table, EDGES) == 5 && count_of(table, RESULTS) == 3 && count_of(table, TEXTS) == 12, "the numbers of entries");
    expect(count_of(table, HINTS) == 2 * count_of(table, EDGES), "two hints for each edge");
    expect(count_of(table, LONG_TEXTS) == 10 && memcmp(table + offset_of(table, LONG_TEXTS), "long texts", 10) == 0, "the long texts");
}

/* ---- tables of any bytes */

/* Each byte of the table as each other one: any byte is a hint, and a result has to be a keysym. */
static void other_bytes(const uint8_t *table, size_t size)
{
    uint8_t *copy = block_of(size);
    size_t tables = 0;
    memcpy(copy, table, size);
    for (size_t at = 0; at < size; at++) {
        for (int other = 1; other < 256; other++) {
            copy[at] = table[at] ^ (uint8_t) other;
            uint32_t is = composecheck_table_is_table(copy, size);
            expect(is == 0 || is == 1, "bytes are a table or none");
            expect((at >= HEADER && !is_in_gap(table, at)) || is == 0, "another byte of the header or of a gap");
            expect(!is_in(table, NODES, at) || is == 0, "another node");
            expect(!is_in(table, HINTS, at) || is == 1, "another hint");
            expect(!is_in(table, RESULTS, at) || is == (at % 4 < 3 || copy[at] < 0x20), "another result");
            tables += is;
            if (is == 1 && other % 16 == 1)
                type_all(copy, size);
        }
        copy[at] = table[at];
    }
    expect(composecheck_table_is_table(copy, size) == 1 && type_all(copy, size) == 3, "the bytes of the table");
    printf("%zu of %zu are tables\n", tables, size * 255);
    free(copy);
}

/* Lengths that are not the table's, with bytes behind it or without its last ones, each in a block of just that size. */
static void other_lengths(const uint8_t *table, size_t size)
{
    for (size_t length = 0; length < size + 17; length++) {
        uint8_t *copy = block_of(length);
        struct composecheck_fault fault = { 0 };
        memset(copy, 0, length);
        memcpy(copy, table, length < size ? length : size);
        expect(composecheck_table_is_table(copy, length) == (length == size), "another length");
        void *made = composecheck_table_copy(copy, length, &fault);
        expect(made ? length == size : fault.part == COMPOSECHECK_TABLE && fault.code == 1, "a copy of another length");
        composecheck_table_free(made);
        free(copy);
    }
}

/* Each number of the header as some other ones; and the length as another one with the bytes that it says. */
static void other_headers(const uint8_t *table, size_t size)
{
    static const uint64_t numbers[] = { UINT64_MAX, (uint64_t) 1 << 61, (uint64_t) 1 << 62, (uint64_t) 1 << 63, ((uint64_t) 1 << 61) + 1, 1 << 20, 0 };
    uint8_t *copy = block_of(2 * size);
    memset(copy, 0, 2 * size);
    memcpy(copy, table, size);
    for (size_t at = 8; at < HEADER; at += 8)
        for (size_t i = 0; i < sizeof numbers / sizeof *numbers; i++) {
            memcpy(copy + at, &numbers[i], 8);
            expect(composecheck_table_is_table(copy, size) == (word_at(table + at) == numbers[i]), "another number in the header");
            memcpy(copy + at, table + at, 8);
        }
    uint64_t longer = size + 8;
    memcpy(copy + 16, &longer, 8);
    expect(composecheck_table_is_table(copy, size + 8) == 0, "a longer table with zeros at its end");
    free(copy);
}

/* Each array with more entries, of which a number of 64 bits can't count the bytes. */
static void many_entries(const uint8_t *table, size_t size)
{
    uint8_t *copy = block_of(size);
    memcpy(copy, table, size);
    for (int array = 0; array < ARRAYS; array++) {
        uint64_t count = count_of(table, array) + UINT64_MAX / widths[array] + 1;
        memcpy(copy + 24 + 16 * array, &count, 8);
        expect(widths[array] == 1 || composecheck_table_is_table(copy, size) == 0, "a number of entries whose bytes are too many for a number");
        memcpy(copy + 24 + 16 * array, table + 24 + 16 * array, 8);
    }
    free(copy);
}

/* Each address that is not a multiple of eight: such bytes are no table, and a copy of them is one. */
static void other_addresses(const uint8_t *table, size_t size)
{
    for (size_t by = 0; by < 8; by++) {
        uint8_t *room = block_of(size + by);
        memcpy(room + by, table, size);
        expect(composecheck_table_is_table(room + by, size) == (by == 0), "another address");
        void *copy = composecheck_table_copy(room + by, size, NULL);
        expect(copy && copy != room + by && memcmp(copy, table, size) == 0 && type_all(copy, size) == 3, "a copy of a table from any address");
        composecheck_table_free(copy);
        free(room);
    }
}

static void copies(const uint8_t *table, size_t size)
{
    uint8_t *bytes = block_of(size);
    struct composecheck_fault fault = { .part = 77 };
    memcpy(bytes, table, size);
    void *copy = composecheck_table_copy(bytes, size, &fault);
    expect(copy && fault.part == 0, "a copy");
    bytes[HEADER]++;
    expect(!composecheck_table_copy(bytes, size, &fault) && fault.part == COMPOSECHECK_TABLE && fault.code == 2, "the arrays of no table");
    memset(bytes, 0, size);
    expect(!composecheck_table_copy(bytes, size, &fault) && fault.part == COMPOSECHECK_TABLE && fault.code == 1, "no block");
    free(bytes);
    expect(copy && composecheck_table_is_table(copy, size) == 1 && type_all(copy, size) == 3, "a copy stays when the bytes go");
    composecheck_table_free(copy);
}

/* ---- one table, one block */

static void same_tables(const void *table, size_t size)
{
    size_t same_size, copy_size, zeros_size;
    void *same = table_of(same_text, &same_size), *copy = table_of(text, &copy_size), *zeros;
    expect(copy && copy_size == size && memcmp(copy, table, size) == 0, "the same sources make the same bytes");
    expect(same && same_size == size && memcmp(same, table, size) == 0, "the same sequences make the same bytes");
    expect(!table_of("<a", &zeros_size) && zeros_size == 0, "a table that is refused has no length");
    zeros = table_of("", &zeros_size);
    expect(zeros && composecheck_table_is_table(zeros, zeros_size) == 1 && type_all(zeros, zeros_size) == 0, "a table without sequences");
    many_entries(zeros, zeros_size);
    composecheck_table_free(same);
    composecheck_table_free(copy);
    composecheck_table_free(zeros);
}

/* A table in a file, which is mapped, and typed with where it is. */
static void mapped(const char *folder, const void *table, size_t size)
{
    char path[512];
    snprintf(path, sizeof path, "%s/mapped", folder);
    FILE *file = fopen(path, "wb");
    expect(file && fwrite(table, 1, size, file) == size && fclose(file) == 0, "a table is written");
    int opened = open(path, O_RDONLY);
    void *found = opened < 0 ? MAP_FAILED : mmap(NULL, size, PROT_READ, MAP_SHARED, opened, 0);
    expect(found != MAP_FAILED, "a table is mapped");
    if (found != MAP_FAILED) {
        expect(composecheck_table_is_table(found, size) == 1 && type_all(found, size) == 3, "a table that is mapped");
        munmap(found, size);
    }
    close(opened);
    unlink(path);
}

int main(int count, char **arguments)
{
    size_t size;
    void *table = table_of(text, &size);
    /* (what is printed is seen also if the program is ended) */
    if (!table || setvbuf(stdout, NULL, _IOLBF, 0) != 0)
        return 1;
    layout(table, size);
    expect(type_all(table, size) == 3, "the sequences of a table");
    other_bytes(table, size);
    other_lengths(table, size);
    other_headers(table, size);
    many_entries(table, size);
    other_addresses(table, size);
    copies(table, size);
    same_tables(table, size);
    if (count > 1)
        mapped(arguments[1], table, size);
    composecheck_table_free(table);
    return failed ? 1 : 0;
}

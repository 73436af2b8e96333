/* States of any numbers, tables of any bytes, rooms of any size and lines of any bytes: nothing may be read or written outside, and what the header says
 * of each has to hold. Compiled with -fsanitize=address,undefined. */
#include "block.h"
#include <stdio.h>
#include <stdlib.h>
#include <string.h>

static const char table_text[] = "<Multi_key> <apostrophe> <e> : \"\xc3\xa9\"\n<Multi_key> <a> <b> <c> : \"abc\"\n<Multi_key> <a> <d> : \"\\\"\\\\\"\n<x> : \"y\"\n"
                                 "<z> <a> : \"abcdef\"\n<z> <b> : \"abcdef\"\n<z> <c> : \"xxabcdef\"\n";
static uint64_t seed = 1;
static int failed;

static uint32_t chance(void)
{
    seed = seed * 6364136223846793005u + 1442695040888963407u;
    return (uint32_t) (seed >> 32);
}

static void expect(bool holds, const char *what)
{
    if (!holds && failed++ < 10)
        printf("FAILED: %s\n", what);
}

/* A number that is often small. */
static uint32_t number(void)
{
    uint32_t wide = chance();
    return wide >> (chance() % 32);
}

/* A copy of some entries in a block of just their size. */
static void *copied(const void *entries, size_t size)
{
    void *copy = malloc(size ? size : 1);
    if (!copy)
        abort();
    memcpy(copy, entries, size);
    return copy;
}

static void states(const void *table, size_t size, int rounds)
{
    for (int round = 0; round < rounds; round++) {
        struct composecheck_state state, before;
        uint32_t *words = (uint32_t *) &state, length = 999, keysym, status, index = number();
        uint32_t pending[COMPOSECHECK_MOST_PENDING];
        uint8_t text[COMPOSECHECK_MOST_TEXT];
        for (size_t i = 0; i < sizeof state / sizeof *words; i++)
            words[i] = number();
        before = state;
        uint32_t fed = composecheck_table_feed(table, size, &state, chance() % 3 ? number() : 0xff20, text, &length);
        expect(fed <= 2 && length <= COMPOSECHECK_MOST_TEXT, "what a feed answers");
        expect(fed != 2 || memcmp(&state, &before, sizeof state) == 0, "no keysym changes nothing");
        expect(memcmp(state.reserved, before.reserved, sizeof state.reserved) == 0, "what is reserved stays");
        expect(composecheck_status(&state) <= 3 && composecheck_pending(&state, pending) <= 31, "status and pending");
        uint32_t result = composecheck_table_result(table, size, &state, chance() % 3 ? number() : 0x78);
        expect(result <= COMPOSECHECK_GREATEST_KEYSYM, "a result keysym");
        composecheck_table_following(table, size, &state, index, &keysym, &status, text, &length);
        composecheck_table_refeed(table, size, &state);
        expect((composecheck_pending(&state, pending) > 0) == (composecheck_status(&state) == COMPOSECHECK_COMPOSING), "composing where something is pending");
        composecheck_reset(&state);
        expect(composecheck_status(&state) == 0 && composecheck_pending(&state, pending) == 0, "at rest");
    }
}

/* Numbers of a table that are changed: what is a table then is typed with. */
static void other_tables(const void *table, size_t size)
{
    int tables = 0;
    expect(composecheck_table_is_table(table, size) == 1, "what was compiled is a table");
    for (int round = 0; round < 5000; round++) {
        uint32_t *copy = copied(table, size);
        for (uint32_t changes = chance() % 3; changes > 0; changes--)
            copy[chance() % (size / sizeof *copy)] = number();
        bool differs = memcmp(copy, table, size) != 0;
        uint32_t is = composecheck_table_is_table(copy, size);
        expect(differs || is == 1, "the same bytes are a table");
        tables += differs && is == 1;
        if (is == 1)
            states(copy, size, 100);
        free(copy);
    }
    printf("%d other tables among the changed ones\n", tables);
    expect(tables > 100, "results and hints may be others");
}

/* Arrays of which one depth or one target is another number are the arrays of no table. */
static void other_numbers(const void *table, size_t size)
{
    void *copy = copied(table, size);
    struct composecheck_node *nodes = array_of(copy, NODES);
    struct composecheck_edge *edges = array_of(copy, EDGES);
    for (size_t i = 0; i < count_of(copy, NODES); i++) {
        nodes[i].depth++;
        expect(composecheck_table_is_table(copy, size) == 0, "another depth");
        nodes[i].depth--;
    }
    for (size_t i = 0; i < count_of(copy, EDGES); i++) {
        edges[i].target++;
        expect(composecheck_table_is_table(copy, size) == 0, "another target");
        edges[i].target--;
    }
    expect(composecheck_table_is_table(copy, size) == 1, "the numbers of the table");
    free(copy);
}

/* A text of more than three bytes is kept once, and its entries may lead to any place where it is. */
static void other_places(const void *table, size_t size)
{
    void *copy = copied(table, size);
    uint8_t *entry = array_of(copy, TEXTS);
    expect(count_of(copy, LONG_TEXTS) == 14 && memcmp(array_of(copy, LONG_TEXTS), "abcdefxxabcdef", 14) == 0, "two equal texts are kept once");
    while (entry[3] != 6)
        entry += 4;
    for (uint8_t half = 0; half < 8; half++) {
        entry[0] = half;
        expect(composecheck_table_is_table(copy, size) == (half == 0 || half == 4), "a text is where its entry says");
    }
    free(copy);
}

static void rooms(const struct composecheck_input *input)
{
    size_t header, length;
    const uint8_t *names = composecheck_builtin_names(&header);
    uint8_t bundle[1024] = { 0, 1, 0, 1, 'r', 0, 0, 0, (uint8_t) (sizeof table_text - 1) };
    memcpy(bundle + 9, table_text, sizeof table_text - 1);
    length = 9 + sizeof table_text - 1 + 4;
    size_t size;
    void *table = composecheck_table_new(input, &size, NULL);
    for (int round = 0; round < 500 && table; round++) {
        size_t room[5];
        const struct composecheck_sizes wanted = { count_of(table, NODES), count_of(table, EDGES), count_of(table, TEXTS), count_of(table, LONG_TEXTS),
                                                   count_of(table, HINTS), { 0 } };
        const size_t *needed = &wanted.nodes;
        bool fits = true;
        for (int i = 0; i < 5; i++) {
            room[i] = needed[i] + chance() % 3 - 1;
            fits = fits && room[i] >= needed[i];
        }
        struct composecheck_node *nodes = malloc(room[0] * sizeof *nodes);
        struct composecheck_edge *edges = calloc(room[1], sizeof *edges);
        uint8_t *texts = malloc(room[2]), *long_texts = malloc(room[3]), *hints = malloc(room[4]);
        size_t count = 999, result_room = count_of(table, RESULTS) + chance() % 3 - 1;
        uint32_t *results = malloc(result_room * sizeof *results);
        struct composecheck_sizes sizes;
        struct composecheck_fault fault = { .part = 77 };
        uint32_t done = composecheck_compile(names, header, bundle, length, true, nodes, room[0], edges, room[1], texts, room[2], long_texts, room[3], hints,
                                             room[4], &sizes, &fault);
        expect(done == (fits ? COMPOSECHECK_DONE : COMPOSECHECK_TOO_SMALL) && fault.part == 77, "rooms");
        expect(memcmp(&sizes, &wanted, sizeof sizes) == 0, "what is needed");
        done = composecheck_compile_with_results(names, header, bundle, length, true, nodes, room[0], edges, room[1], texts, room[2], long_texts, room[3],
                                                 hints, room[4], results, result_room, &sizes, &count, &fault);
        fits = fits && result_room >= count_of(table, RESULTS);
        expect(done == (fits ? COMPOSECHECK_DONE : COMPOSECHECK_TOO_SMALL) && fault.part == 77, "rooms with results");
        expect(count == count_of(table, RESULTS) && 4 * count == sizes.texts && memcmp(&sizes, &wanted, sizeof sizes) == 0, "what is needed with results");
        expect(!fits || memcmp(results, array_of(table, RESULTS), count * sizeof *results) == 0, "the same results");
        free(results);
        free(nodes);
        free(edges);
        free(texts);
        free(long_texts);
        free(hints);
    }
    composecheck_table_free(table);
}

/* A source of short lines, whose table has more entries than sources of its length mostly have: it is read once more, with more room. */
static void short_lines(void)
{
    enum { COUNT = 1000, LINE = 10 };
    static char text[COUNT * LINE + 1];
    for (int i = 0; i < COUNT; i++)
        snprintf(text + i * LINE, LINE + 1, "<U%04X>:a\n", 0x4e00 + i);
    struct composecheck_source source = { "root", text, COUNT * LINE };
    struct composecheck_input input = { .sources = &source, .source_count = 1, .longest = true };
    struct composecheck_fault fault;
    size_t size, same_size;
    void *table = composecheck_table_new(&input, &size, &fault);
    expect(table && fault.part == 0 && count_of(table, EDGES) == COUNT && count_of(table, RESULTS) == COUNT, "a table of short lines");
    expect(table && composecheck_table_is_table(table, size) == 1, "short lines make a table");
    void *same = table ? composecheck_table_load(table, size, &input, &same_size, &fault) : NULL;
    expect(!same && fault.part != 0, "without a certificate it is no load");
    composecheck_table_free(table);
}

static void lines(void)
{
    static const char good[] = " include \"%S/en\\\"x\" # more";
    for (int round = 0; round < 20000; round++) {
        size_t size = chance() % sizeof good, room = chance() % 12, length = 999;
        uint8_t *line = copied(good, size), *name = malloc(room ? room : 1);
        if (size)
            line[chance() % size] ^= (uint8_t) (chance() % 8 ? 0 : chance());
        uint32_t is = composecheck_include(line, size, name, room, &length);
        expect(is <= 2 && (is != 1 || length <= room) && (is != 2 || length > room), "includes");
        free(line);
        free(name);
    }
}

static uint32_t find(const uint8_t *answers, size_t length, uint8_t *target, size_t room, size_t *needed, struct composecheck_fault *fault)
{
    static const uint8_t root[] = "/r", system[] = "/s", none[1];
    return composecheck_find(answers, length, root, 2, system, 2, none, 0, none, 0, none, 0, none, 0, target, room, needed, fault);
}

/* Answers of any bytes, for targets of any size. */
static void searches(void)
{
    static const char good[] = "\0\3\0\2/r\1\0\0\0\26include \"s\"\n<a> : \"x\"\n\0\1s\0\0\2/s\1\0\0\0\0";
    int counts[4] = { 0 };
    for (int round = 0; round < 20000; round++) {
        size_t size = chance() % 4 ? sizeof good - 1 : chance() % sizeof good, room = chance() % 80, length = 999;
        uint8_t *answers = copied(good, size), *target = malloc(room ? room : 1);
        struct composecheck_fault fault = { .part = 77 };
        if (size)
            answers[chance() % size] ^= (uint8_t) (chance() % 2 ? 0 : chance() >> chance() % 32);
        uint32_t done = find(answers, size, target, room, &length, &fault);
        expect(done <= 3 && (done == COMPOSECHECK_REFUSED) == (fault.part != 77), "what a search answers");
        expect(done == COMPOSECHECK_REFUSED || (done == COMPOSECHECK_TOO_SMALL) == (length > room), "the room of a search");
        counts[done & 3]++;
        if (done == COMPOSECHECK_TOO_SMALL) {
            size_t again = 999;
            uint8_t *wider = malloc(length);
            done = find(answers, size, wider, length, &again, &fault);
            expect((done == COMPOSECHECK_DONE || done == COMPOSECHECK_WANTED) && again == length && fault.part == 77, "the room that is needed");
            free(wider);
        }
        free(answers);
        free(target);
    }
    printf("searches: %d done, %d refused, %d too small, %d wanted\n", counts[0], counts[1], counts[2], counts[3]);
    expect(counts[0] > 0 && counts[1] > 0 && counts[2] > 0 && counts[3] > 0, "searches of each kind");
}

static bool written(const char *path, const char *text)
{
    FILE *file = fopen(path, "wb");
    if (!file)
        return false;
    fputs(text, file);
    return fclose(file) == 0;
}

/* Files that are read by stdio: the first argument is a folder that may be written to. */
static void files(const char *folder)
{
    char root[256], other[256], text[256];
    struct composecheck_fault fault;
    struct composecheck_places places = { folder, NULL, NULL, NULL };
    size_t size;
    expect(!composecheck_table_from_file(folder, NULL, true, &size, &fault, NULL, 0) && fault.part == COMPOSECHECK_SEARCH && fault.code == 2, "a folder is no file");
    snprintf(root, sizeof root, "%s/root", folder);
    snprintf(other, sizeof other, "%s/other", folder);
    expect(!composecheck_table_from_file(root, NULL, true, &size, &fault, text, sizeof text) && fault.code == 2 && strstr(text, "/root: the file isn't there"), "no root");
    expect(written(root, "include \"%S/other\"\n<b> : \"y\"\n"), "a file that is written");
    expect(!composecheck_table_from_file(root, &places, true, &size, &fault, text, sizeof text) && fault.code == 3 && strstr(text, "/root:1:9: "), "no file of an include");
    expect(written(other, ""), "a file that is written");
    void *table = composecheck_table_from_file(root, &places, true, &size, &fault, text, sizeof text);
    expect(table && fault.part == 0 && composecheck_table_is_table(table, size) == 1, "a table with an empty include");
    composecheck_table_free(table);
    expect(written(other, "<a> : \"x\"\n <nosuch> : \"x\"\n"), "a file that is written");
    expect(!composecheck_table_from_file(root, &places, true, &size, &fault, text, sizeof text) && fault.part == COMPOSECHECK_SOURCE && fault.source == 1
           && strcmp(text, "%S/other:2:2: no keysym has the name \"nosuch\"") == 0, "a fault of an include");
    expect(!composecheck_table_from_file(root, &places, true, &size, &fault, text, 9) && strcmp(text, "%S/other") == 0, "a line that is cut");
    expect(written(other, "include \"root\"\n"), "a file that is written");
    expect(!composecheck_table_from_file(root, &places, true, &size, &fault, text, sizeof text) && fault.part == COMPOSECHECK_SOURCE && fault.code == 7, "a circle");
    remove(root);
    remove(other);
}

int main(int count, char **arguments)
{
    struct composecheck_source source = { "root", table_text, sizeof table_text - 1 };
    struct composecheck_input input = { .sources = &source, .source_count = 1, .longest = true };
    struct composecheck_fault fault;
    size_t size;
    void *table = composecheck_table_new(&input, &size, &fault);
    if (!table)
        return 1;
    states(table, size, 20000);
    other_tables(table, size);
    other_numbers(table, size);
    other_places(table, size);
    rooms(&input);
    short_lines();
    lines();
    searches();
    if (count > 1)
        files(arguments[1]);
    composecheck_table_free(table);
    return failed ? 1 : 0;
}

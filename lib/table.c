/* Tables as blocks of bytes, over the proved calls on their arrays. C, and unproved. */
#include "block.h"
#include <stdlib.h>
#include <string.h>

/* ---- bundles */

/* The bytes of a bundle, and the block of malloc that they are in, if one was made for them. */
struct bundle { const uint8_t *bytes; size_t length; uint8_t *block; };

static uint8_t *put_number(uint8_t *at, size_t number, int bytes)
{
    while (bytes-- > 0)
        *at++ = (uint8_t) (number >> (8 * bytes));
    return at;
}

static uint8_t *put_bytes(uint8_t *at, const void *bytes, size_t length)
{
    if (length)
        memcpy(at, bytes, length);
    return at + length;
}

/* Whether every length has room in the bytes that a bundle has for it, and how many bytes the bundle needs. */
static bool measure(const struct composecheck_input *input, size_t *needed)
{
    size_t all = 2 + 4;
    if (input->source_count > 64 || input->certificate_length > 1u << 30)
        return false;
    for (size_t i = 0; i < input->source_count; i++) {
        size_t name = strlen(input->sources[i].name);
        if (name > 0xffff || input->sources[i].length > 1u << 30)
            return false;
        all += 2 + name + 4 + input->sources[i].length;
    }
    *needed = all + input->certificate_length;
    return true;
}

static void fill_bundle(uint8_t *at, const struct composecheck_input *input)
{
    at = put_number(at, input->source_count, 2);
    for (size_t i = 0; i < input->source_count; i++) {
        const struct composecheck_source *source = &input->sources[i];
        size_t name = strlen(source->name);
        at = put_bytes(put_number(at, name, 2), source->name, name);
        at = put_bytes(put_number(at, source->length, 4), source->bytes, source->length);
    }
    put_bytes(put_number(at, input->certificate_length, 4), input->certificate, input->certificate_length);
}

static struct composecheck_fault fault_of(uint32_t part, uint32_t code)
{
    struct composecheck_fault fault = { .part = part, .code = code };
    return fault;
}

static bool bundle_of(const struct composecheck_input *input, struct bundle *bundle, struct composecheck_fault *fault)
{
    bundle->block = NULL;
    bundle->bytes = input->bundle;
    bundle->length = input->bundle_length;
    if (input->bundle)
        return true;
    if (!measure(input, &bundle->length)) {
        *fault = fault_of(COMPOSECHECK_BUNDLE, 2);
        return false;
    }
    if (!(bundle->bytes = bundle->block = malloc(bundle->length))) {
        *fault = fault_of(COMPOSECHECK_MEMORY, 0);
        return false;
    }
    fill_bundle(bundle->block, input);
    return true;
}

/* ---- blocks */

/* A block with arrays of this many entries, which may hold anything. A text has a result keysym, and four bytes. */
static void *new_block(const struct composecheck_sizes *sizes)
{
    const uint64_t counts[ARRAYS] = { sizes->nodes, sizes->edges, sizes->texts / 4, sizes->texts, sizes->long_texts, sizes->hints };
    void *block = malloc(composecheck_block_length(counts));
    if (block)
        composecheck_begin_block(block, counts);
    return block;
}

/* A block of just the entries that count. */
static void *table_of(const void *wide, const struct composecheck_sizes *sizes)
{
    void *block = new_block(sizes);
    for (int i = 0; block && i < ARRAYS; i++)
        memcpy(array_of(block, i), array_of(wide, i), count_of(block, i) * composecheck_widths[i]);
    return block;
}

/* Room for the table of most sources of this number of bytes. An event has three bytes and a line five, so only the edges and their hints can be too
 * few: the room of edges is cleared, and most tables have far fewer than one for each three bytes. A table with more is read once more. */
static struct composecheck_sizes guess(size_t bytes)
{
    size_t edges = bytes / 12 + 1;
    struct composecheck_sizes sizes = { bytes / 3 + 2, edges, 4 * (bytes / 5 + 2), bytes + 1, 2 * edges, { 0 } };
    return sizes;
}

/* ---- reading */

static const uint8_t *or_nothing(const void *bytes)
{
    return bytes ? bytes : (const uint8_t *) "";
}

static const uint8_t *header_of(const struct composecheck_input *input, size_t *length)
{
    *length = input->header_length;
    return input->header ? input->header : composecheck_builtin_names(length);
}

static uint32_t fill(const struct composecheck_input *input, const struct bundle *bundle, void *wide, struct composecheck_sizes *sizes,
                     struct composecheck_fault *fault)
{
    size_t length, results;
    const uint8_t *header = header_of(input, &length);
    return composecheck_compile_with_results(header, length, bundle->bytes, bundle->length, input->longest, array_of(wide, NODES), count_of(wide, NODES),
                                             array_of(wide, EDGES), count_of(wide, EDGES), array_of(wide, TEXTS), count_of(wide, TEXTS),
                                             array_of(wide, LONG_TEXTS), count_of(wide, LONG_TEXTS), array_of(wide, HINTS), count_of(wide, HINTS),
                                             array_of(wide, RESULTS), count_of(wide, RESULTS), sizes, &results, fault);
}

/* Whether the certificate lets the table be loaded; its arrays are filled then. */
static uint32_t load(const void *in_use, const struct composecheck_input *input, const struct bundle *bundle, void *wide,
                     struct composecheck_sizes *sizes, struct composecheck_fault *fault)
{
    size_t length;
    const uint8_t *header = header_of(input, &length);
    return composecheck_load(header, length, array_of(in_use, NODES), count_of(in_use, NODES), array_of(in_use, EDGES), count_of(in_use, EDGES),
                             array_of(in_use, TEXTS), count_of(in_use, TEXTS), array_of(in_use, LONG_TEXTS), count_of(in_use, LONG_TEXTS),
                             array_of(in_use, HINTS), count_of(in_use, HINTS), or_nothing(input->repertoire), input->repertoire_length, bundle->bytes,
                             bundle->length, input->longest, array_of(wide, NODES), count_of(wide, NODES), array_of(wide, EDGES), count_of(wide, EDGES),
                             array_of(wide, TEXTS), count_of(wide, TEXTS), array_of(wide, LONG_TEXTS), count_of(wide, LONG_TEXTS),
                             array_of(wide, HINTS), count_of(wide, HINTS), sizes, fault);
}

/* Reads into a block of this room. TOO_SMALL changes the room to what is needed. */
static uint32_t read_into(const void *in_use, const struct composecheck_input *input, const struct bundle *bundle, struct composecheck_sizes *sizes,
                          void **table, struct composecheck_fault *fault)
{
    void *wide = new_block(sizes);
    *table = NULL;
    *fault = fault_of(COMPOSECHECK_MEMORY, 0);
    if (!wide)
        return COMPOSECHECK_REFUSED;
    /* (an edge holds a keysym before the call too; the other entries may hold anything) */
    memset(array_of(wide, EDGES), 0, count_of(wide, EDGES) * sizeof(struct composecheck_edge));
    uint32_t done = in_use ? load(in_use, input, bundle, wide, sizes, fault) : COMPOSECHECK_DONE;
    if (done == COMPOSECHECK_DONE)
        done = fill(input, bundle, wide, sizes, fault);
    if (done == COMPOSECHECK_DONE)
        *table = table_of(wide, sizes);
    free(wide);
    return done;
}

static void *read_table(const void *in_use, const struct composecheck_input *input, size_t *length, struct composecheck_fault *wanted)
{
    struct bundle bundle;
    void *table;
    struct composecheck_fault unwanted, *fault = wanted ? wanted : &unwanted;
    *length = 0;
    if (!bundle_of(input, &bundle, fault))
        return NULL;
    struct composecheck_sizes sizes = guess(bundle.length);
    if (read_into(in_use, input, &bundle, &sizes, &table, fault) == COMPOSECHECK_TOO_SMALL)
        read_into(in_use, input, &bundle, &sizes, &table, fault);
    free(bundle.block);
    if (table) {
        *fault = fault_of(0, 0);
        *length = length_of(table);
    }
    return table;
}

void *composecheck_table_new(const struct composecheck_input *input, size_t *length, struct composecheck_fault *fault)
{
    return read_table(NULL, input, length, fault);
}

void *composecheck_table_load(const void *in_use, size_t in_use_length, const struct composecheck_input *input, size_t *length,
                              struct composecheck_fault *fault)
{
    (void) in_use_length;
    return read_table(in_use, input, length, fault);
}

void composecheck_table_free(void *table)
{
    free(table);
}

/* ---- tables of any bytes */

uint32_t composecheck_table_is_table(const void *bytes, size_t length)
{
    if (!composecheck_is_block(bytes, length))
        return 0;
    return composecheck_is_table(array_of(bytes, NODES), count_of(bytes, NODES), array_of(bytes, EDGES), count_of(bytes, EDGES), array_of(bytes, TEXTS),
                                 count_of(bytes, TEXTS), array_of(bytes, LONG_TEXTS), count_of(bytes, LONG_TEXTS));
}

void *composecheck_table_copy(const void *bytes, size_t length, struct composecheck_fault *wanted)
{
    enum { NO_BLOCK = 1, NO_TABLE = 2 };
    struct composecheck_fault unwanted, *fault = wanted ? wanted : &unwanted;
    void *copy = malloc(length + 1);
    *fault = fault_of(COMPOSECHECK_MEMORY, 0);
    if (!copy)
        return NULL;
    /* (what is checked is the copy, which nobody else can change) */
    memcpy(copy, bytes, length);
    uint32_t is = composecheck_table_is_table(copy, length);
    if (is == 1) {
        *fault = fault_of(0, 0);
        return copy;
    }
    if (is == 0)
        *fault = fault_of(COMPOSECHECK_TABLE, composecheck_is_block(copy, length) ? NO_TABLE : NO_BLOCK);
    free(copy);
    return NULL;
}

/* ---- what is printed */

static void cut(char *text, size_t room, const uint8_t *said, size_t length)
{
    if (room == 0)
        return;
    size_t kept = length < room ? length : room - 1;
    memcpy(text, said, kept);
    text[kept] = 0;
}

/* The sentence in a block of this room; where it has none, the room that it needs. */
static uint8_t *sentence_in(const struct composecheck_input *input, const struct bundle *bundle, size_t room, size_t *length)
{
    size_t header_length;
    const uint8_t *header = header_of(input, &header_length);
    uint8_t *said = malloc(room);
    if (said && composecheck_explain(header, header_length, bundle->bytes, bundle->length, input->longest, said, room, length) == 0)
        return said;
    free(said);
    return NULL;
}

static size_t put_sentence(const struct composecheck_input *input, const struct bundle *bundle, char *text, size_t room)
{
    size_t length = 0;
    uint8_t *said = sentence_in(input, bundle, 1024, &length);
    if (!said && length > 1024)
        said = sentence_in(input, bundle, length, &length);
    if (!said) {
        length = strlen("out of memory");
        cut(text, room, (const uint8_t *) "out of memory", length);
        return length;
    }
    cut(text, room, said, length);
    free(said);
    return length;
}

size_t composecheck_table_explain(const struct composecheck_input *input, char *text, size_t room)
{
    static const char large[] = "the bundle is too large";
    struct bundle bundle;
    struct composecheck_fault fault;
    if (!bundle_of(input, &bundle, &fault)) {
        const char *said = fault.part == COMPOSECHECK_MEMORY ? "out of memory" : large;
        cut(text, room, (const uint8_t *) said, strlen(said));
        return strlen(said);
    }
    size_t length = put_sentence(input, &bundle, text, room);
    free(bundle.block);
    return length;
}

bool composecheck_table_check(const void *old_table, size_t old_length, const void *new_table, size_t new_length,
                              const struct composecheck_input *input, struct composecheck_fault *wanted)
{
    const void *a = old_table, *b = new_table;
    struct composecheck_fault unwanted, *fault = wanted ? wanted : &unwanted;
    size_t length;
    const uint8_t *header = header_of(input, &length);
    (void) old_length;
    (void) new_length;
    return composecheck_check(header, length, array_of(a, NODES), count_of(a, NODES), array_of(a, EDGES), count_of(a, EDGES), array_of(a, TEXTS),
                              count_of(a, TEXTS), array_of(a, LONG_TEXTS), count_of(a, LONG_TEXTS), array_of(a, HINTS), count_of(a, HINTS),
                              array_of(b, NODES), count_of(b, NODES), array_of(b, EDGES), count_of(b, EDGES), array_of(b, TEXTS), count_of(b, TEXTS),
                              array_of(b, LONG_TEXTS), count_of(b, LONG_TEXTS), array_of(b, HINTS), count_of(b, HINTS), or_nothing(input->repertoire),
                              input->repertoire_length, or_nothing(input->certificate), input->certificate_length, fault);
}

/* ---- typing: the block is a table, and nothing of it is checked at a key */

uint32_t composecheck_table_feed(const void *table, size_t length, struct composecheck_state *state, uint32_t keysym,
                                 uint8_t text[COMPOSECHECK_MOST_TEXT], uint32_t *text_length)
{
    (void) length;
    return composecheck_feed(array_of(table, NODES), count_of(table, NODES), array_of(table, EDGES), count_of(table, EDGES), array_of(table, TEXTS),
                             count_of(table, TEXTS), array_of(table, LONG_TEXTS), count_of(table, LONG_TEXTS), array_of(table, HINTS),
                             count_of(table, HINTS), state, keysym, text, text_length);
}

void composecheck_table_refeed(const void *table, size_t length, struct composecheck_state *state)
{
    (void) length;
    composecheck_refeed(array_of(table, NODES), count_of(table, NODES), array_of(table, EDGES), count_of(table, EDGES), array_of(table, TEXTS),
                        count_of(table, TEXTS), array_of(table, LONG_TEXTS), count_of(table, LONG_TEXTS), array_of(table, HINTS),
                        count_of(table, HINTS), state);
}

bool composecheck_table_following(const void *table, size_t length, const struct composecheck_state *state, uint32_t index,
                                  uint32_t *keysym, uint32_t *status, uint8_t text[COMPOSECHECK_MOST_TEXT], uint32_t *text_length)
{
    (void) length;
    return composecheck_following(array_of(table, NODES), count_of(table, NODES), array_of(table, EDGES), count_of(table, EDGES), array_of(table, TEXTS),
                                  count_of(table, TEXTS), array_of(table, LONG_TEXTS), count_of(table, LONG_TEXTS), array_of(table, HINTS),
                                  count_of(table, HINTS), state, index, keysym, status, text, text_length);
}

uint32_t composecheck_table_result(const void *table, size_t length, const struct composecheck_state *state, uint32_t keysym)
{
    (void) length;
    return composecheck_result(array_of(table, NODES), count_of(table, NODES), array_of(table, EDGES), count_of(table, EDGES), array_of(table, TEXTS),
                               count_of(table, TEXTS), array_of(table, LONG_TEXTS), count_of(table, LONG_TEXTS), array_of(table, HINTS),
                               count_of(table, HINTS), array_of(table, RESULTS), count_of(table, RESULTS), state, keysym);
}

/* ---- keys */

/* Puts a character's UTF-8 with an end mark, and gives its length; none for 0. */
static size_t put_character(uint32_t character, char text[5])
{
    size_t length = character == 0 ? 0 : character < 0x80 ? 1 : character < 0x800 ? 2 : character < 0x10000 ? 3 : 4;
    static const uint8_t heads[] = { 0, 0, 0xc0, 0xe0, 0xf0 };
    text[length] = 0;
    for (size_t i = length; i > 1; i--, character >>= 6)
        text[i - 1] = (char) (0x80 | (character & 0x3f));
    if (length)
        text[0] = (char) (heads[length] | character);
    return length;
}

size_t composecheck_key_text(uint32_t keysym, char text[5])
{
    struct composecheck_fault fault;
    uint32_t character = 0;
    size_t length;
    const uint8_t *header = composecheck_builtin_names(&length);
    if (composecheck_characters(header, length, &keysym, 1, &character, 1, &fault) != 0)
        character = 0;
    return put_character(character, text);
}

/* ---- includes */

bool composecheck_next_include(const void *bytes, size_t length, size_t *offset, char *name, size_t room)
{
    const uint8_t *all = bytes;
    if (*offset == 0 && length >= 3 && memcmp(all, "\xef\xbb\xbf", 3) == 0)
        *offset = 3;
    while (room > 0 && *offset < length) {
        const uint8_t *line = all + *offset, *end = memchr(line, '\n', length - *offset);
        size_t got, size = end ? (size_t) (end - line) : length - *offset;
        *offset += size + (end ? 1 : 0);
        if (composecheck_include(line, size, (uint8_t *) name, room - 1, &got) == 1) {
            name[got] = 0;
            return true;
        }
    }
    return false;
}

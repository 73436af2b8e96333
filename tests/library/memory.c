/* Each call that allocates, with each of its allocations refused in turn: it says so, nothing is lost and nothing is leaked. Linked with
 * --wrap=malloc, calloc, realloc and free. The argument is a folder that may be written to. */
#include <composecheck.h>
#include <stdio.h>
#include <stdlib.h>
#include <string.h>

void *__real_malloc(size_t size);
void *__real_calloc(size_t count, size_t size);
void *__real_realloc(void *block, size_t size);
void __real_free(void *block);
void *__wrap_malloc(size_t size);
void *__wrap_calloc(size_t count, size_t size);
void *__wrap_realloc(void *block, size_t size);
void __wrap_free(void *block);

static const char certificate[] = "compose-certificate 1\nbound 1\npairs 2\n0 0\n1 1\ntypings 0\n";
static const char old_text[] = "<a> <b> : \"x\"\n", new_text[] = "<a> <b> : \"x\"\n<a> <c> : \"a longer text\"\n", faulty_text[] = "<a> : \"x\"\n<nosuch> : \"x\"\n";
static long left, held;
static int failed;
static char root[512];

static void expect(bool holds, const char *what)
{
    if (!holds && failed++ < 20)
        printf("FAILED: %s, without allocation %ld\n", what, left);
}

static bool is_refused(void)
{
    return left > 0 && --left == 0;
}

static void *counted(void *block)
{
    held += block != NULL;
    return block;
}

void *__wrap_malloc(size_t size)
{
    return is_refused() ? NULL : counted(__real_malloc(size));
}

void *__wrap_calloc(size_t count, size_t size)
{
    return is_refused() ? NULL : counted(__real_calloc(count, size));
}

void *__wrap_realloc(void *block, size_t size)
{
    if (is_refused())
        return NULL;
    held -= block != NULL;
    return counted(__real_realloc(block, size));
}

void __wrap_free(void *block)
{
    held -= block != NULL;
    __real_free(block);
}

static void *table_of(const char *text, size_t *size, struct composecheck_fault *fault)
{
    struct composecheck_source source = { "r", text, strlen(text) };
    struct composecheck_input input = { .sources = &source, .source_count = 1 };
    return composecheck_table_new(&input, size, fault);
}

static bool ends(void *table, const struct composecheck_fault *fault)
{
    bool is_done = table && fault->part == 0, is_out_of_memory = !table && fault->part == COMPOSECHECK_MEMORY;
    expect(is_done || is_out_of_memory, "a table, or the fault that says that there is no memory");
    composecheck_table_free(table);
    return is_done;
}

/* ---- the calls: each says whether it was done, and expects that it says so if it wasn't */

static bool reads(void)
{
    struct composecheck_fault fault = { 0 };
    size_t size;
    return ends(table_of(new_text, &size, &fault), &fault);
}

static bool loads(void)
{
    long refused = left;
    struct composecheck_fault fault = { 0 };
    struct composecheck_source source = { "r", new_text, strlen(new_text) };
    struct composecheck_input input = { .sources = &source, .source_count = 1, .certificate = certificate, .certificate_length = strlen(certificate) };
    left = 0;
    size_t size, new_size;
    void *in_use = table_of(old_text, &size, &fault);
    left = refused;
    bool is_done = ends(composecheck_table_load(in_use, size, &input, &new_size, &fault), &fault);
    composecheck_table_free(in_use);
    return is_done;
}

static bool copies(void)
{
    long refused = left;
    struct composecheck_fault fault = { 0 };
    size_t size;
    left = 0;
    void *table = table_of(new_text, &size, &fault);
    left = refused;
    bool is_done = ends(composecheck_table_copy(table, size, &fault), &fault);
    composecheck_table_free(table);
    return is_done;
}

static bool reads_files(void)
{
    struct composecheck_fault fault = { 0 };
    char text[256] = "";
    size_t size;
    bool is_done = ends(composecheck_table_from_file(root, NULL, true, &size, &fault, text, sizeof text), &fault);
    expect(is_done || strstr(text, "out of memory"), "a line that says that there is no memory");
    return is_done;
}

static bool explains(void)
{
    static const char sentence[] = "no keysym has the name \"nosuch\"";
    struct composecheck_source source = { "r", faulty_text, strlen(faulty_text) };
    struct composecheck_input input = { .sources = &source, .source_count = 1 };
    char text[64];
    size_t length = composecheck_table_explain(&input, text, sizeof text);
    bool is_done = strcmp(text, sentence) == 0;
    expect((is_done || strcmp(text, "out of memory") == 0) && length == strlen(text), "a sentence");
    return is_done;
}

static bool finds_locale(void)
{
    static const uint8_t files[] = "en/Compose: en\n";
    uint8_t path[64] = "-";
    size_t length = 999;
    uint32_t done = composecheck_locale_file((const uint8_t *) "/f", 2, files, sizeof files - 1, files, 0, (const uint8_t *) "en", 2, path, sizeof path, &length);
    expect(done == 1 ? length == 13 : done == 3 && path[0] == '-', "the path of a locale's table");
    return done == 1;
}

static bool tells_key(void)
{
    char text[5] = "----";
    size_t length = composecheck_key_text(0x10020ac, text);
    expect(length == 3 ? strcmp(text, "\xe2\x82\xac") == 0 : length == 0 && text[0] == 0, "the text of a key");
    return length == 3;
}

static void tell(void *context, const struct composecheck_message *message)
{
    *(bool *) context = message->fault.part == COMPOSECHECK_MEMORY || strstr(message->text, "out of memory") != NULL;
}

/* Whether the table of the user types; from the cache it does so too if what fails is the cache. */
static bool reads_user_with(bool is_cached)
{
    bool is_told = false;
    struct composecheck_options options = { .system = "/nowhere", .is_cached = is_cached, .context = &is_told };
    size_t size;
    void *table = composecheck_table_from_locale("xx", &options, tell, &size);
    struct composecheck_state state = { 0 };
    uint8_t text[COMPOSECHECK_MOST_TEXT];
    uint32_t length = 0;
    if (table) {
        composecheck_table_feed(table, size, &state, 'a', text, &length);
        composecheck_table_feed(table, size, &state, 'b', text, &length);
    }
    expect(table || is_told, "no table without a message");
    composecheck_table_free(table);
    return length == 1;
}

static bool reads_user(void)
{
    return reads_user_with(false);
}

static bool reads_cached(void)
{
    return reads_user_with(true);
}

/* The table is made anew, since its file is another one each time. */
static bool caches(void)
{
    static int number;
    long refused = left;
    left = 0;
    FILE *file = fopen(root, "wb");
    if (!file || fprintf(file, "%s# %d\n", new_text, number++) < 0 || fclose(file) != 0)
        return false;
    left = refused;
    return reads_user_with(true);
}

/* ---- each with each allocation refused */

static void sweep(bool (*call)(void), const char *what)
{
    for (long nth = 0; nth < 5000; nth++) {
        long before = held;
        left = nth;
        bool is_done = call(), was_refused = nth > 0 && left == 0;
        left = 0;
        if (held != before) {
            failed++;
            printf("FAILED: %s without allocation %ld leaves %ld blocks\n", what, nth, held - before);
        }
        expect(is_done || was_refused, what);
        if (nth > 0 && !was_refused) {
            printf("%s: %ld allocations\n", what, nth - 1);
            return;
        }
    }
    expect(false, "a call that ends");
}

int main(int count, char **arguments)
{
    snprintf(root, sizeof root, "%s/memory", count > 1 ? arguments[1] : ".");
    FILE *file = fopen(root, "wb");
    if (!file || fputs(new_text, file) < 0 || fclose(file) != 0 || setenv("XCOMPOSEFILE", root, 1) != 0)
        return 1;
    if (count < 2 || arguments[1][0] != '/' || setenv("XDG_CACHE_HOME", arguments[1], 1) != 0)
        return 1;
    sweep(reads, "a table of sources");
    sweep(loads, "a load");
    sweep(copies, "a copy");
    sweep(reads_files, "a table of files");
    sweep(explains, "a sentence");
    sweep(finds_locale, "a locale");
    sweep(tells_key, "the text of a key");
    sweep(reads_user, "the table of the user");
    sweep(caches, "a table that is cached");
    sweep(reads_cached, "the table of the cache");
    remove(root);
    return failed ? 1 : 0;
}

/* Eight threads type over one table, each with a state of its own, while a ninth one compiles tables and changes to them in mid-sequence. */
#include <composecheck.h>
#include <pthread.h>
#include <stdio.h>
#include <string.h>

static const char first[] = "<Multi_key> <apostrophe> <e> : \"\xc3\xa9\"\n", second[] = "<Multi_key> <apostrophe> <e> : \"E\"\n<Multi_key> <a> : \"a\"\n";
static const uint32_t keys[] = { 0xff20, 0x27, 0x65 };
static void *shared;
static size_t shared_size;

static void *read_text(const char *text, size_t *size)
{
    struct composecheck_source source = { "root", text, strlen(text) };
    struct composecheck_input input = { .sources = &source, .source_count = 1 };
    struct composecheck_fault fault;
    return composecheck_table_new(&input, size, &fault);
}

static void *type(void *wrong)
{
    struct composecheck_state state = { 0 };
    for (int i = 0; i < 300000; i++) {
        uint8_t text[COMPOSECHECK_MOST_TEXT];
        uint32_t length;
        composecheck_table_feed(shared, shared_size, &state, keys[i % 3], text, &length);
        if (length != (i % 3 == 2 ? 2 : 0) || (length && memcmp(text, "\xc3\xa9", 2)))
            ++*(int *) wrong;
    }
    return NULL;
}

static void *change(void *wrong)
{
    for (int i = 0; i < 200; i++) {
        struct composecheck_state state = { 0 };
        size_t size;
        void *table = read_text(second, &size);
        uint8_t text[COMPOSECHECK_MOST_TEXT];
        uint32_t length = 0;
        if (!table)
            return ++*(int *) wrong, NULL;
        composecheck_table_feed(shared, shared_size, &state, keys[0], text, &length);
        composecheck_table_feed(shared, shared_size, &state, keys[1], text, &length);
        composecheck_table_refeed(table, size, &state);
        composecheck_table_feed(table, size, &state, keys[2], text, &length);
        *(int *) wrong += length != 1 || text[0] != 'E';
        composecheck_table_free(table);
    }
    return NULL;
}

int main(void)
{
    pthread_t threads[9];
    int wrong[9] = { 0 }, all = 0;
    if (!(shared = read_text(first, &shared_size)))
        return 1;
    for (int i = 0; i < 9; i++)
        if (pthread_create(&threads[i], NULL, i < 8 ? type : change, &wrong[i]))
            return 1;
    for (int i = 0; i < 9; i++) {
        pthread_join(threads[i], NULL);
        all += wrong[i];
    }
    composecheck_table_free(shared);
    printf("%d wrong\n", all);
    return all ? 1 : 0;
}

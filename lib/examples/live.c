/* Changes the table in the middle of a sequence, once a certificate says that typing goes on: live OLD NEW REPERTOIRE CERTIFICATE */
#include <composecheck.h>
#include <stdio.h>

static struct composecheck_source read_file(const char *path, char *bytes, size_t room)
{
    FILE *file = fopen(path, "rb");
    struct composecheck_source source = { "root", bytes, file ? fread(bytes, 1, room, file) : 0 };
    if (file)
        fclose(file);
    return source;
}

int main(int count, char **arguments)
{
    static char bytes[4][1 << 16];
    struct composecheck_source files[4];
    for (int i = 0; i < 4 && i + 1 < count; i++)
        files[i] = read_file(arguments[i + 1], bytes[i], sizeof bytes[i]);
    if (count != 5)
        return 2;
    struct composecheck_input old = { .sources = &files[0], .source_count = 1 };
    struct composecheck_input new = { .sources = &files[1], .source_count = 1, .repertoire = files[2].bytes, .repertoire_length = files[2].length,
                                      .certificate = files[3].bytes, .certificate_length = files[3].length };
    struct composecheck_fault fault;
    struct composecheck_state state = { 0 };
    uint8_t text[COMPOSECHECK_MOST_TEXT];
    uint32_t length;
    size_t size, next_size;
    void *table = composecheck_table_new(&old, &size, &fault);
    if (!table)
        return 1;
    composecheck_table_feed(table, size, &state, 'a', text, &length);
    void *next = composecheck_table_load(table, size, &new, &next_size, &fault);
    printf("%s: part %u, code %u\n", next ? "loaded" : "refused", fault.part, fault.code);
    if (next) {
        composecheck_table_free(table);
        table = next;
        size = next_size;
        composecheck_table_refeed(table, size, &state);
    }
    composecheck_table_feed(table, size, &state, 'b', text, &length);
    printf("%.*s\n", (int) length, (const char *) text);
    composecheck_table_free(table);
}

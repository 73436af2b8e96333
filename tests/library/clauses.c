/* Clauses of composecheck.h that no other test asks for, each on blocks of just the size that is said: loads and checks of every kind, what texts and
 * paths need, includes, texts of keys, and which file a fault names. Compiled with -fsanitize=address,undefined. The argument is a folder that may be
 * written to. */
#define _POSIX_C_SOURCE 200809L
#include <composecheck.h>
#include <stdio.h>
#include <stdlib.h>
#include <string.h>
#include <sys/stat.h>
#include <unistd.h>

static const char valid[] = "compose-certificate 1\nbound 1\npairs 2\n0 0\n1 1\ntypings 0\n";
static const char old_text[] = "<a> <b> : \"x\"\n", new_text[] = "<a> <b> : \"x\"\n<a> <c> : \"y\"\n", other_text[] = "<a> <b> : \"z\"\n";
static int failed;

static void expect(bool holds, const char *what)
{
    if (!holds && failed++ < 20)
        printf("FAILED: %s\n", what);
}

static void *block_of(size_t size)
{
    void *block = malloc(size ? size : 1);
    if (!block)
        abort();
    return block;
}

static uint8_t *put(uint8_t *at, size_t number, int bytes)
{
    while (bytes-- > 0)
        *at++ = (uint8_t) (number >> (8 * bytes));
    return at;
}

/* The bundle of one source and a certificate, as composecheck_compile describes it. */
static size_t bundle_of(uint8_t bundle[512], const char *text, const char *certificate)
{
    uint8_t *at = put(put(bundle, 1, 2), 1, 2);
    *at++ = 'r';
    at = put(at, strlen(text), 4);
    memcpy(at, text, strlen(text));
    at = put(at + strlen(text), strlen(certificate), 4);
    memcpy(at, certificate, strlen(certificate));
    return (size_t) (at - bundle) + strlen(certificate);
}

/* A block, and its length. */
struct table { void *block; size_t size; };

static struct table table_of(const char *text)
{
    struct composecheck_source source = { "r", text, strlen(text) };
    struct composecheck_input input = { .sources = &source, .source_count = 1 };
    struct composecheck_fault fault;
    struct table table;
    table.block = composecheck_table_new(&input, &table.size, &fault);
    return table;
}

/* ---- loads */

/* Whether a load of this text by this certificate and repertoire is refused by the part, or for part 0 done; of sources, and of a bundle. */
static bool loads(const char *text, const char *certificate, const char *repertoire, uint32_t part)
{
    uint8_t bundle[512];
    bool holds = true;
    struct table in_use = table_of(old_text);
    struct composecheck_source source = { "r", text, strlen(text) };
    struct composecheck_input inputs[2] = { { .sources = &source, .source_count = 1, .certificate = certificate, .certificate_length = strlen(certificate) },
                                            { .bundle = bundle, .bundle_length = bundle_of(bundle, text, certificate) } };
    for (int i = 0; i < 2; i++) {
        struct composecheck_fault fault = { .part = 77 };
        inputs[i].repertoire = repertoire;
        inputs[i].repertoire_length = strlen(repertoire);
        size_t size;
        void *table = composecheck_table_load(in_use.block, in_use.size, &inputs[i], &size, &fault);
        holds = holds && fault.part == part && (part == 0) == (table != NULL) && (size > 0) == (table != NULL);
        composecheck_table_free(table);
    }
    composecheck_table_free(in_use.block);
    return holds;
}

static void all_loads(void)
{
    expect(loads(new_text, valid, "", 0), "a load with a valid certificate");
    expect(loads(new_text, "", "", COMPOSECHECK_CERTIFICATE), "a load without a certificate is refused");
    expect(loads(new_text, "compose-certificate 1\n", "", COMPOSECHECK_CERTIFICATE), "a load with a certificate that is cut is refused");
    expect(loads(other_text, valid, "", COMPOSECHECK_CONDITION), "a load whose certificate is another move's is refused");
    expect(loads(new_text, valid, "U+0078\n", COMPOSECHECK_CONDITION), "a load with a character of the repertoire that no typing has is refused");
    expect(loads(new_text, valid, "x\n", COMPOSECHECK_REPERTOIRE), "a load with a repertoire of another form is refused");
    expect(loads("<a\n", valid, "", COMPOSECHECK_SOURCE), "a load of a table with a fault is refused");
}

static bool checks(struct table new_table, const char *certificate, const char *repertoire, uint32_t part)
{
    struct composecheck_input input = { .certificate = certificate, .certificate_length = strlen(certificate), .repertoire = repertoire,
                                        .repertoire_length = strlen(repertoire) };
    struct composecheck_fault fault = { 0 };
    struct table old_table = table_of(old_text);
    bool is_valid = composecheck_table_check(old_table.block, old_table.size, new_table.block, new_table.size, &input, &fault);
    composecheck_table_free(old_table.block);
    return is_valid == (part == 0) && fault.part == part;
}

static void all_checks(void)
{
    struct table new_table = table_of(new_text), other = table_of(other_text);
    expect(checks(new_table, valid, "", 0), "a valid certificate");
    expect(checks(other, valid, "", COMPOSECHECK_CONDITION), "a certificate of another move");
    expect(checks(new_table, "", "", COMPOSECHECK_CERTIFICATE), "no certificate");
    expect(checks(new_table, valid, "U+0078\n", COMPOSECHECK_CONDITION), "a character of the repertoire that no typing has");
    expect(checks(new_table, valid, "x\n", COMPOSECHECK_REPERTOIRE), "a repertoire of another form");
    composecheck_table_free(new_table.block);
    composecheck_table_free(other.block);
}

/* ---- what is needed */

/* A text that is cut to each room: the whole length is returned, and nothing is written behind the room. */
static void explanations(void)
{
    static const char text[] = "<a> : \"x\"\n <nosuch> : \"x\"\n", sentence[] = "no keysym has the name \"nosuch\"";
    struct composecheck_source source = { "r", text, strlen(text) };
    struct composecheck_input input = { .sources = &source, .source_count = 1 };
    size_t whole = strlen(sentence), header, length;
    const uint8_t *names = composecheck_builtin_names(&header);
    uint8_t bundle[512];
    size_t bundle_length = bundle_of(bundle, text, "");
    for (size_t room = 0; room < whole + 3; room++) {
        char *said = block_of(room);
        expect(composecheck_table_explain(&input, said, room) == whole, "the length of a sentence");
        expect(room == 0 || (strlen(said) == (room <= whole ? room - 1 : whole) && strncmp(said, sentence, room - 1) == 0), "a sentence is cut to its room");
        memset(said, '-', room);
        length = 999;
        uint32_t done = composecheck_explain(names, header, bundle, bundle_length, false, (uint8_t *) said, room, &length);
        expect(done == (room < whole ? 1 : 0) && length == whole, "the length is what a sentence needs");
        expect(memcmp(said, room < whole ? "----" : sentence, room < 4 ? room : 4) == 0, "a sentence without room isn't written");
        free(said);
    }
    source.length = 0;
    expect(composecheck_table_explain(&input, NULL, 0) == 0, "a table without a fault has no sentence");
}

/* The path of a locale's table: 0 there is none, 1 it is there, 2 it has no room. (memory.c has 3.) */
static void locale_files(void)
{
    static const char files[] = "en/Compose: en_US.UTF-8\n/abs/Compose: de_DE.UTF-8\n", aliases[] = "en: en_US.UTF-8\n";
    static const struct { const char *folder, *locale, *path; } cases[] = {
        { "/f", "en_US.UTF-8", "/f/en/Compose" }, { "/f", "en", "/f/en/Compose" }, { "/f", "de_DE.UTF-8", "/abs/Compose" },
        { "/f", "fr_FR.UTF-8", NULL }, { "/f", "", NULL }, { "/f", "\xff", NULL }, { "/\xff", "en", NULL },
    };
    for (size_t i = 0; i < sizeof cases / sizeof *cases; i++) {
        size_t whole = cases[i].path ? strlen(cases[i].path) : 0;
        for (size_t room = 0; room < whole + 2; room++) {
            char *path = block_of(room);
            size_t length = 999;
            memset(path, '-', room);
            uint32_t done = composecheck_locale_file((const uint8_t *) cases[i].folder, strlen(cases[i].folder), (const uint8_t *) files, strlen(files),
                                                     (const uint8_t *) aliases, strlen(aliases), (const uint8_t *) cases[i].locale, strlen(cases[i].locale),
                                                     (uint8_t *) path, room, &length);
            expect(done == (!cases[i].path ? 0 : room < whole ? 2 : 1), "whether a locale has a table, and its path has room");
            expect(!cases[i].path || length == whole, "the length of a path is what it needs");
            expect(done == 1 ? memcmp(path, cases[i].path, whole) == 0 : room == 0 || path[0] == '-', "a path is written if it has room");
            free(path);
        }
    }
}

/* ---- texts of keys, and includes */

static void key_texts(void)
{
    static const struct { uint32_t keysym; const char *text; } cases[] = {
        { 'a', "a" }, { 0xe9, "\xc3\xa9" }, { 0x7e1, "\xce\xb1" }, { 0x10020ac, "\xe2\x82\xac" }, { 0x1010000, "\xf0\x90\x80\x80" },
        { 0x101f600, "\xf0\x9f\x98\x80" }, { 0x110ffff, "\xf4\x8f\xbf\xbf" }, { 0x1000100, "\xc4\x80" }, { 0x10007ff, "\xdf\xbf" },
        { 0x1000800, "\xe0\xa0\x80" }, { 0x100fffd, "\xef\xbf\xbd" }, { 0x100d800, "" }, { 0x1110000, "" }, { 0xff20, "" }, { 0, "" },
        { 0x1fffffff, "" }, { 0x20000000, "" }, { 0xffffffff, "" },
    };
    for (size_t i = 0; i < sizeof cases / sizeof *cases; i++) {
        char text[5] = "----";
        size_t length = composecheck_key_text(cases[i].keysym, text);
        expect(length == strlen(cases[i].text) && strcmp(text, cases[i].text) == 0, "the text of a key");
    }
}

static void includes(void)
{
    static const char text[] = "\xef\xbb\xbfinclude \"a\"\n# include \"b\"\n include \"%S/cdefghij\"\n<a> : \"include\"\ninclude \"e\\\"\xc3\xa9\"";
    static const char *const wide[] = { "a", "%S/cdefghij", "e\\\"\xc3\xa9" }, *const narrow[] = { "a", "e\\\"\xc3\xa9" };
    for (int is_narrow = 0; is_narrow < 2; is_narrow++) {
        size_t offset = 0, room = is_narrow ? 6 : 12, count = is_narrow ? 2 : 3;
        char *name = block_of(room), *copy = block_of(strlen(text));
        memcpy(copy, text, strlen(text));
        for (size_t i = 0; i < count; i++)
            expect(composecheck_next_include(copy, strlen(text), &offset, name, room) && strcmp(name, (is_narrow ? narrow : wide)[i]) == 0, "the next include");
        expect(!composecheck_next_include(copy, strlen(text), &offset, name, room) && offset == strlen(text), "no include follows the last one");
        offset = 0;
        expect(!composecheck_next_include(copy, strlen(text), &offset, name, 0), "no name has room in none");
        free(copy);
        free(name);
    }
}

/* ---- files */

static void write_file(const char *folder, const char *name, const char *text)
{
    char path[512];
    snprintf(path, sizeof path, "%s/%s", folder, name);
    FILE *file = fopen(path, "wb");
    expect(file && fputs(text, file) >= 0 && fclose(file) == 0, "a file is written");
}

/* Whether the table of `root` in the folder is refused with this line, after the folder; with its whole length, however little room it has. */
static bool is_refused(const char *folder, const char *line)
{
    char path[512], wanted[1024], text[1024];
    struct composecheck_files files;
    struct composecheck_fault fault;
    struct composecheck_places places = { folder, NULL, NULL, NULL };
    snprintf(path, sizeof path, "%s/root", folder);
    snprintf(wanted, sizeof wanted, "%s%s", line[0] == '/' ? folder : "", line);
    size_t size;
    bool is_read = composecheck_table_from_file(path, &places, true, &size, &fault, text, sizeof text) != NULL, holds = !is_read && strcmp(text, wanted) == 0;
    if (composecheck_files_find(&files, path, NULL, 0, &places, &fault)) {
        struct composecheck_input input = { .bundle = files.bundle, .bundle_length = files.bundle_length, .longest = true };
        holds = holds && !composecheck_table_new(&input, &size, &fault) && size == 0;
    }
    for (size_t room = 0; room < strlen(wanted) + 2; room++) {
        char *cut = block_of(room);
        holds = holds && composecheck_files_explain(&files, true, &fault, cut, room) == strlen(wanted);
        holds = holds && (room == 0 || (strlen(cut) < room && strncmp(cut, wanted, strlen(cut)) == 0));
        free(cut);
    }
    composecheck_files_free(&files);
    if (!holds)
        printf("%s, not %s\n", text, wanted);
    return holds;
}

static void faults_of_files(const char *folder)
{
    write_file(folder, "root", "include \"%S/first\"\ninclude \"%S/second\"\n");
    write_file(folder, "first", "<a> : \"x\"\n");
    write_file(folder, "second", "\n include \"%S/none\"\n");
    expect(is_refused(folder, "/second:2:10: the file of the include isn't there"), "a fault of a search names the file of the include");
    write_file(folder, "second", "include \"%x\"\n");
    expect(is_refused(folder, "/second:1:9: a percent sign is followed by none of %, S, L and H"), "a fault of a search says what is wrong");
    write_file(folder, "second", "include \"%H\"\n");
    expect(is_refused(folder, "/second:1:9: %H isn't known"), "a home that isn't known");
    write_file(folder, "second", "\n\n<a> <b : \"x\"\n");
    expect(is_refused(folder, "%S/second:3:8: expected \">\", found \":\""), "a fault of a source names its include");
}

/* Whether the search for this file, and for an include of it, ends with this value, and these words. */
static bool is_unread(const char *folder, const char *name, uint32_t value, const char *words)
{
    char path[512], text[1024], line[512], wanted[1024];
    struct composecheck_fault fault;
    struct composecheck_places places = { folder, NULL, NULL, NULL };
    snprintf(path, sizeof path, "%s/%s", folder, name);
    snprintf(wanted, sizeof wanted, "%s: the file %s", path, words);
    size_t size;
    bool holds = !composecheck_table_from_file(path, &places, true, &size, &fault, text, sizeof text) && strcmp(text, wanted) == 0;
    holds = holds && fault.part == COMPOSECHECK_SEARCH && fault.code == 2 && fault.value == value;
    snprintf(line, sizeof line, "\ninclude \"%%S/%s\"\n", name);
    write_file(folder, "root", line);
    snprintf(path, sizeof path, "%s/root", folder);
    snprintf(wanted, sizeof wanted, "%s:2:9: the file of the include %s", path, words);
    holds = holds && !composecheck_table_from_file(path, &places, true, &size, &fault, text, sizeof text) && strcmp(text, wanted) == 0;
    return holds && fault.part == COMPOSECHECK_SEARCH && fault.code == 3 && fault.value == value;
}

/* Why a file isn't read. (root may read every file, so a link that leads to itself stands for one that can't be read.) */
static void unread_files(const char *folder)
{
    char path[512];
    snprintf(path, sizeof path, "%s/a_folder", folder);
    expect(mkdir(path, 0700) == 0, "a folder is made");
    snprintf(path, sizeof path, "%s/a_loop", folder);
    expect(symlink("a_loop", path) == 0, "a link is made");
    expect(is_unread(folder, "nothing", 0, "isn't there"), "a file that isn't there");
    expect(is_unread(folder, "first/below", 0, "isn't there"), "a file below a file");
    expect(is_unread(folder, "a_loop", 1, "can't be read"), "a file that can't be read");
    expect(is_unread(folder, "a_folder", 2, "is a folder"), "a folder");
    expect(unlink(path) == 0, "the link is taken away");
    snprintf(path, sizeof path, "%s/a_folder", folder);
    expect(rmdir(path) == 0, "the folder is taken away");
}

/* Each call of the second part that has a fault does the same without it. */
static void without_faults(const char *folder)
{
    char path[512], text[64] = "";
    struct composecheck_files files;
    struct composecheck_source good = { "r", old_text, strlen(old_text) }, faulty = { "r", "<a", 2 }, other = { "r", other_text, strlen(other_text) };
    struct composecheck_input input = { .sources = &good, .source_count = 1, .certificate = valid, .certificate_length = strlen(valid) };
    struct composecheck_input refused = { .sources = &faulty, .source_count = 1 }, changed = input;
    changed.sources = &other;
    size_t size, loaded_size, another_size, read_size;
    void *table = composecheck_table_new(&input, &size, NULL), *loaded = composecheck_table_load(table, size, &input, &loaded_size, NULL);
    void *another = composecheck_table_new(&changed, &another_size, NULL), *copy = composecheck_table_copy(loaded, loaded_size, NULL);
    expect(table && loaded && another && copy && !composecheck_table_copy(loaded, loaded_size - 1, NULL), "tables are made without a fault");
    expect(!composecheck_table_new(&refused, &read_size, NULL) && !composecheck_table_load(table, size, &changed, &read_size, NULL),
           "tables are refused without a fault");
    expect(composecheck_table_check(table, size, loaded, loaded_size, &input, NULL), "a check without a fault");
    expect(!composecheck_table_check(table, size, another, another_size, &input, NULL), "a check that refuses without a fault");
    snprintf(path, sizeof path, "%s/first", folder);
    void *read = composecheck_table_from_file(path, NULL, true, &read_size, NULL, NULL, 0);
    expect(read && composecheck_files_find(&files, path, NULL, 0, NULL, NULL), "files are read without a fault");
    composecheck_files_free(&files);
    expect(!composecheck_files_find(&files, "", NULL, 0, NULL, NULL), "no file is found without a fault");
    composecheck_files_free(&files);
    expect(!composecheck_table_from_file("/nowhere", NULL, true, &another_size, NULL, text, sizeof text) && strcmp(text, "/nowhere: the file isn't there") == 0,
           "the words of a fault that isn't asked for");
    composecheck_table_free(table);
    composecheck_table_free(loaded);
    composecheck_table_free(another);
    composecheck_table_free(copy);
    composecheck_table_free(read);
}

int main(int count, char **arguments)
{
    all_loads();
    all_checks();
    explanations();
    locale_files();
    key_texts();
    includes();
    if (count > 1) {
        faults_of_files(arguments[1]);
        unread_files(arguments[1]);
        without_faults(arguments[1]);
    }
    return failed ? 1 : 0;
}

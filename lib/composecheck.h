/* composecheck: proved Compose tables and compose states for C programs. docs/LIBRARY.md begins with an example.
 *
 * A table is one block of bytes, which a call makes and nothing changes after: a program may copy it, keep it in a file, map it and send it. A state is
 * a struct of numbers in the caller's memory, and zeros are a state at rest. The library keeps nothing between two calls: what it allocates it frees
 * before it returns. The exceptions are the calls that return a table, one block of malloc that composecheck_table_free frees, and
 * composecheck_files_find.
 *
 * The functions of the first part are proved: their contracts stand in crates/compose_c/src/lib.rt, and docs/LIBRARY.md says them in
 * words. Those of the second part are C over proved ones, and tested.
 *
 * Premises of every function, which nothing checks:
 *   - a pointer is not null, even if a count is 0, and points to as many entries as the count after it says, aligned as their type;
 *     it may be null only if a comment says so;
 *   - `const void *table, size_t length` are a table: what a call of this library returned, or bytes of which composecheck_table_is_table said 1,
 *     aligned for 8 bytes. Only composecheck_table_is_table and composecheck_table_copy look at the length: a key costs no check;
 *   - memory that a call writes overlaps no other memory that the call is given, and no other thread reads or writes it meanwhile;
 *   - memory that a call only reads is not written meanwhile, nor a table from its check to its last use;
 *   - malloc, realloc and free belong together, and align as C says;
 *   - a function marked MALLOC is not called in a signal handler, nor in the forked child of a process with threads.
 * A text, a path, a name, a bundle or characters that a call of the first part refuses, or for which there is no room, it leaves as they were.
 *
 * What stays (ABI 1): the names, their parameters and what they mean; the sizes of the structs, whose reserved members are 0 and may get
 * a meaning; the numbers of faults. New functions may come. What a table's bytes hold is the library's own (docs/LIBRARY.md has the layout): a later
 * release may write and take others, and then composecheck_table_is_table refuses these. The symbols have the version COMPOSECHECK_1, and the name of
 * the shared library is libcomposecheck.so.1. */
#ifndef COMPOSECHECK_H
#define COMPOSECHECK_H
#include <stdbool.h>
#include <stddef.h>
#include <stdint.h>
#ifdef __cplusplus
extern "C" {
#endif

#define COMPOSECHECK_ABI 1

/* The greatest keysym, the most pending keysyms, and the most bytes of a text. */
#define COMPOSECHECK_GREATEST_KEYSYM 0x1fffffff
#define COMPOSECHECK_MOST_PENDING 31
#define COMPOSECHECK_MOST_TEXT 255

/* A state. Zeros are at rest, and any numbers are a state: if count is above 31, or one of that many pending numbers above 0x1fffffff,
 * nothing is pending; a status above 3 is nothing; any hints serve. It may be copied and kept. */
struct composecheck_state { uint32_t pending[31], hints[31], count, status; uint32_t reserved[4]; };

/* The numbers of a status, those of enum xkb_compose_status. */
enum composecheck_status { COMPOSECHECK_NOTHING, COMPOSECHECK_COMPOSING, COMPOSECHECK_COMPOSED, COMPOSECHECK_CANCELLED };

/* What composecheck_table_feed answers; the first two are those of enum xkb_compose_feed_result. */
enum composecheck_fed { COMPOSECHECK_IGNORED, COMPOSECHECK_ACCEPTED, COMPOSECHECK_NO_KEYSYM };

/* What composecheck_find returns. */
enum composecheck_done { COMPOSECHECK_DONE, COMPOSECHECK_REFUSED, COMPOSECHECK_TOO_SMALL, COMPOSECHECK_WANTED };

/* The part that is refused. */
enum composecheck_part {
    COMPOSECHECK_NAMES = 1, COMPOSECHECK_BUNDLE, COMPOSECHECK_SOURCE, COMPOSECHECK_OVERLAP, COMPOSECHECK_NODES, COMPOSECHECK_MEMORY,
    COMPOSECHECK_REPERTOIRE, COMPOSECHECK_CERTIFICATE, COMPOSECHECK_CONDITION, COMPOSECHECK_SEARCH, COMPOSECHECK_TABLE
};

/* Why a call refuses what it is given; docs/LIBRARY.md lists the codes. Sources count from 0, lines and columns (in characters) from 1;
 * at is an offset in bytes or the index of an event, a pair or a node; value a keysym, a character, or why a file isn't read. What a fault
 * doesn't have is 0. */
struct composecheck_fault { uint32_t part, code, lexical, value; uint64_t source, line, column, at, reserved[2]; };

/* ---- proved */

/* The sentence that says why these sources are no table, or no bytes if they are one: UTF-8, of *length bytes, without an end mark. header: names,
 * lines as of keysymdef.h. bundle: the number of sources (2 bytes, 1 to 64); each as the length of its name (2 bytes), the name, the length of its
 * content (4 bytes) and the content; the length of a certificate (4 bytes) and the certificate. Numbers are big-endian, the names UTF-8 and distinct,
 * and the first source is the root. longest: of two sequences of which one is a prefix of the other the longer one counts, as in libxkbcommon; else
 * such a table is refused. 0 done, 1 no room (*length says what is needed), 2 no memory. MALLOC */
uint32_t composecheck_explain(const uint8_t *header, size_t header_length, const uint8_t *bundle, size_t bundle_length, bool longest,
                              uint8_t *text, size_t text_room, size_t *length);

void composecheck_reset(struct composecheck_state *state);

/* A number of enum composecheck_status. */
uint32_t composecheck_status(const struct composecheck_state *state);

/* Puts the pending keysyms at the front, and gives their count. The entries after them hold any numbers. */
uint32_t composecheck_pending(const struct composecheck_state *state, uint32_t keysyms[COMPOSECHECK_MOST_PENDING]);

/* The characters of keysyms by the names of a header, each at its keysym's index; 0 if a keysym has none, or the number is above
 * 0x1fffffff. A key that is part of no sequence commits its character. It takes as long as reading the names: ask for all keys at once.
 * 0 done; 1 the header is refused, and fault says why, else fault stays as it was; 2 characters has less room than there are keysyms. MALLOC */
uint32_t composecheck_characters(const uint8_t *header, size_t header_length, const uint32_t *keysyms, size_t keysym_count,
                                 uint32_t *characters, size_t character_room, struct composecheck_fault *fault);

/* Whether a line of a source, without its newline, is an include: 0 it isn't, 1 it is, and name gets what stands between its quotes, *name_length
 * bytes; 2 the name has no room, and *name_length says what is needed. */
uint32_t composecheck_include(const uint8_t *line, size_t line_length, uint8_t *name, size_t name_room, size_t *name_length);

/* Finds the files of a table, one path after another. It opens no file and calls nobody back: the caller looks for a file at each path that is
 * wanted, and adds the answer to those before it.
 *   answers: what was found so far: the number of answers (2 bytes); each as the length of its path (2 bytes), the path, and either 1, the length
 *     of the file (4 bytes) and its bytes, or 0 if no file is there. All numbers are big-endian.
 *   root: the path of the table. system, locale, home: what %S, %L and %H stand for; locale is the path of the locale's table
 *     (composecheck_locale_file). sysroot: the folder below which an absolute path of an include is looked for first. locale, home and sysroot
 *     may have no bytes: then they aren't known. certificate: what the bundle gets as its certificate, which only composecheck_table_load reads.
 * WANTED: target gets the path to look for, *target_length bytes, which has no answer yet. DONE: target gets the bundle of all sources, which a
 * struct composecheck_input takes. TOO_SMALL: target has no room, and *target_length says what is needed. REFUSED: fault says
 * why; the source of a fault of COMPOSECHECK_SEARCH is the index of an answer. A second call with the same arguments returns the same. MALLOC */
uint32_t composecheck_find(const uint8_t *answers, size_t answers_length, const uint8_t *root, size_t root_length, const uint8_t *system,
                           size_t system_length, const uint8_t *locale, size_t locale_length, const uint8_t *home, size_t home_length,
                           const uint8_t *sysroot, size_t sysroot_length, const uint8_t *certificate, size_t certificate_length, uint8_t *target,
                           size_t target_room, size_t *target_length, struct composecheck_fault *fault);

/* The path of the table of a locale, by the files compose.dir and locale.alias of the system's folder, whose bytes are given: 0 there is none,
 * or the folder or the locale is not UTF-8; 1 path gets it, *path_length bytes; 2 the path has no room, and *path_length says what is needed;
 * 3 no memory. MALLOC */
uint32_t composecheck_locale_file(const uint8_t *folder, size_t folder_length, const uint8_t *compose_dir, size_t compose_dir_length,
                                  const uint8_t *aliases, size_t aliases_length, const uint8_t *locale, size_t locale_length, uint8_t *path,
                                  size_t path_room, size_t *path_length);

/* ---- C over these, and over the proved calls on the arrays of a table. A fault that a call of this part would fill may be null */

/* A source: its name as the including line writes it between its quotes (the root's can be any), and its bytes. */
struct composecheck_source { const char *name; const void *bytes; size_t length; };

/* What a table is read from. The header may be null: the names that are built in; so may a certificate and a repertoire, if there are none. */
struct composecheck_input {
    const void *header;
    size_t header_length;
    const struct composecheck_source *sources;
    size_t source_count;
    const void *certificate;
    size_t certificate_length;
    const void *repertoire;
    size_t repertoire_length;
    bool longest;
    const void *bundle; /* not null: the bundle of composecheck_find, in place of sources and certificate */
    size_t bundle_length;
    void *reserved[2];
};

/* The table of these sources with its result keysyms, a block of malloc of *length bytes; null if it is refused, and fault says why
 * (COMPOSECHECK_MEMORY: no memory). The result keysym of a sequence is that which the line names which counts for it; if it names none, the least
 * keysym of the text's character; and 0 (XKB_KEY_NoSymbol) if the text isn't one character, or no keysym has it. MALLOC */
void *composecheck_table_new(const struct composecheck_input *input, size_t *length, struct composecheck_fault *fault);

/* The same, and refused too if the certificate is not valid for a move from the table in use. MALLOC */
void *composecheck_table_load(const void *in_use, size_t in_use_length, const struct composecheck_input *input, size_t *length,
                              struct composecheck_fault *fault);

/* Whether any bytes at any address are a table: 1 they are, and then every call may have them; 0 they aren't, 2 no memory. It takes at most as long as
 * compiling the table. MALLOC */
uint32_t composecheck_table_is_table(const void *bytes, size_t length);

/* A copy of a table of this length, in a block of malloc; the bytes may be anywhere and any. Null if they are none: fault says why (COMPOSECHECK_TABLE:
 * 1 no block of this layout, 2 the arrays of no table). MALLOC */
void *composecheck_table_copy(const void *bytes, size_t length, struct composecheck_fault *fault);

/* Frees a table that a call of this library returned; null does nothing. */
void composecheck_table_free(void *table);

/* The sentence of composecheck_explain, cut to the room, with an end mark; gives the whole length, as snprintf does. MALLOC */
size_t composecheck_table_explain(const struct composecheck_input *input, char *text, size_t room);

/* Whether the input's certificate is valid for a move from the old table to the new one, with the input's header and repertoire, as the command
 * `composecheck check` says. False: fault says why. MALLOC */
bool composecheck_table_check(const void *old_table, size_t old_length, const void *new_table, size_t new_length,
                              const struct composecheck_input *input, struct composecheck_fault *fault);

/* Feeds a keysym: ACCEPTED, IGNORED, or NO_KEYSYM above 0x1fffffff, and then the state stays as it was. text gets the *text_length bytes that a
 * sequence commits which the key completes, without an end mark; a key that is part of no sequence commits none here. */
uint32_t composecheck_table_feed(const void *table, size_t length, struct composecheck_state *state, uint32_t keysym,
                                 uint8_t text[COMPOSECHECK_MOST_TEXT], uint32_t *text_length);

/* Takes the state over to another table, also in the middle of a sequence: what is pending is typed anew there, and nothing is committed. */
void composecheck_table_refeed(const void *table, size_t length, struct composecheck_state *state);

/* The keysym at this index among those that may follow what is pending, in rising order, and what feeding it would do: the status, and the
 * text that it would commit. False if index is not below their number; what it points to then stays as it was. */
bool composecheck_table_following(const void *table, size_t length, const struct composecheck_state *state, uint32_t index,
                                  uint32_t *keysym, uint32_t *status, uint8_t text[COMPOSECHECK_MOST_TEXT], uint32_t *text_length);

/* The result keysym of the sequence that feeding the keysym would complete; 0 if it completes none, or the sequence has none. The state stays as it is. */
uint32_t composecheck_table_result(const void *table, size_t length, const struct composecheck_state *state, uint32_t keysym);

/* The next include of a source from *offset on, which goes on after its line: its name with an end mark in name, false if there is none
 * with a name that has room. *offset is 0 at first. */
bool composecheck_next_include(const void *bytes, size_t length, size_t *offset, char *name, size_t room);

/* What the includes of a table lead to; each may be null, which is no path: the folder of the system's tables, for %S; the table of the locale,
 * for %L; the home folder, for %H; and the folder below which an absolute path is looked for first. */
struct composecheck_places { const char *system, *locale, *home, *sysroot; };

/* Reads the table of the file at this path, with every file that it includes, by stdio, as a block of *length bytes; places may be null. Null if it is
 * refused: fault says why, and text gets it as a line `FILE:LINE:COLUMN: SENTENCE`, cut to the room (with no room text may be null). MALLOC */
void *composecheck_table_from_file(const char *path, const struct composecheck_places *places, bool longest, size_t *length,
                                   struct composecheck_fault *fault, char *text, size_t room);

/* The files of a table: the answers that composecheck_find took, and the bundle that it gave. */
struct composecheck_files { uint8_t *answers, *bundle; size_t answers_length, bundle_length; };

/* Finds the files of the table at this path, and reads them by stdio; if bytes is not null, they are the root, and its path is only its name.
 * False if the search is refused: of a file that isn't read, fault's value says why: 0 nothing is there, 1 it can't be read, 2 it is a folder.
 * composecheck_files_free frees what files has, in both cases. MALLOC */
bool composecheck_files_find(struct composecheck_files *files, const char *root, const void *bytes, size_t length,
                             const struct composecheck_places *places, struct composecheck_fault *fault);
void composecheck_files_free(struct composecheck_files *files);

/* A source of the bundle by its index, which has to be one: its bytes, and its name without an end mark. */
uint8_t *composecheck_files_source(const struct composecheck_files *files, size_t index, const char **name, size_t *name_length, size_t *length);

/* The line of composecheck_table_from_file for a fault of these files; gives the whole length, as snprintf does. MALLOC */
size_t composecheck_files_explain(const struct composecheck_files *files, bool longest, const struct composecheck_fault *fault, char *text, size_t room);

/* How the table of a locale is read. Zeros are the defaults. */
struct composecheck_options {
    const char *system; /* the folder of the system's tables, for %S and the tables of locales; null: $XLOCALEDIR, or /usr/share/X11/locale */
    bool is_strict;     /* a faulty line refuses the table; else up to ten of them are left out, as by libxkbcommon */
    bool is_cached;     /* the table is kept in composecheck/ in $XDG_CACHE_HOME (or $HOME/.cache), and taken from there while its files are the same */
    void *context;      /* what the report is given */
    void *reserved[5];
};

/* Why a line is left out, or there is no table: the fault, and a line `FILE:LINE:COLUMN: SENTENCE` with an end mark, which lasts until the report
 * returns. */
struct composecheck_message { const char *text; struct composecheck_fault fault; bool is_left_out; };
typedef void composecheck_report(void *context, const struct composecheck_message *message);

/* Reads the table of the user, with every file that it includes, by stdio: of the first of these files that can be read, as in libxkbcommon:
 * $XCOMPOSEFILE; XCompose in $XDG_CONFIG_HOME if that is an absolute path, else in $HOME/.config; $HOME/.XCompose; the file of the locale. The longest
 * of overlapping sequences count. locale: null for that of the environment ($LC_ALL, $LC_CTYPE or $LANG); C stands for en_US.UTF-8. Null if there is
 * no table, and the last message says why. options and report may be null. A program with more rights than its user reads no variable. MALLOC */
void *composecheck_table_from_locale(const char *locale, const struct composecheck_options *options, composecheck_report *report, size_t *length);

/* The text of a key that is part of no sequence, by the names that are built in, in UTF-8 with an end mark; returns its length, 0 if the
 * key has none or memory is wanting. For several keys composecheck_characters is faster. MALLOC */
size_t composecheck_key_text(uint32_t keysym, char text[5]);

/* The names that are built in, lines of a header. */
const uint8_t *composecheck_builtin_names(size_t *length);

#ifdef __cplusplus
}
#endif
#endif

/* The tables of users that are kept in a folder of theirs (docs/LIBRARY.md says how, and what is trusted). No program includes this. */
#ifndef COMPOSECHECK_CACHE_H
#define COMPOSECHECK_CACHE_H
#include "arrays.h"

enum { MOST_PATH = 4096 };

/* Where a table is kept, and what it is made by besides files: texts one after another, in a block of malloc. */
struct cache { char folder[MOST_PATH], path[MOST_PATH]; uint8_t *given; size_t given_length; };

/* What the library was built from, as digits; it is among what a table is made by. */
COMPOSECHECK_HIDDEN extern const char composecheck_build[];

/* The place of the table that is made by these texts, of which some may be null. False: nothing is kept for this user, or memory is wanting; then
 * there is nothing to be freed. */
COMPOSECHECK_HIDDEN bool composecheck_cache_begin(struct cache *cache, const char *const texts[], size_t count);
COMPOSECHECK_HIDDEN void composecheck_cache_end(struct cache *cache);

/* The table that is kept there, if it was made by the same texts, and by files that are as they were: in a block of malloc of *length bytes. Else null. */
COMPOSECHECK_HIDDEN void *composecheck_cache_read(const struct cache *cache, size_t *length);

/* Keeps a table, and what was found at each path that was looked at: by two lists of answers, as composecheck_find takes them. A failure has no effect. */
COMPOSECHECK_HIDDEN void composecheck_cache_write(const struct cache *cache, const void *table, size_t length, const struct composecheck_files *first,
                                                  const struct composecheck_files *second);

/* Adds what was found at a path to a list of answers: bytes, or null where no file is there. (files.c has it.) */
COMPOSECHECK_HIDDEN bool composecheck_add_answer(struct composecheck_files *files, const void *path, size_t path_length, const void *bytes, size_t length);
#endif

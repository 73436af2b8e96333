/* What the table of a locale and libxkbcommon's names (xkb_shim.c) share. No program includes it, and no shared library shows its names. */
#ifndef COMPOSECHECK_USER_TABLE_H
#define COMPOSECHECK_USER_TABLE_H
#include "arrays.h"
#include <stdio.h>

/* All bytes of a file, in a block of malloc; null where it can't be read, or memory is wanting. */
COMPOSECHECK_HIDDEN char *composecheck_read_all(FILE *file, size_t *length);

/* The table of a root of these bytes, which messages name so, as a block of *table_length bytes; %L is the table of the locale. The report may be null. */
COMPOSECHECK_HIDDEN void *composecheck_table_of_root(const void *bytes, size_t length, const char *name, const char *locale,
                                                     const struct composecheck_options *options, composecheck_report *report, size_t *table_length);
#endif

/* The proved calls on the arrays of a table, which table.c makes calls on blocks of. No program includes it, and the shared library doesn't show the
 * names. Their contracts stand in crates/compose_c/src/lib.rt. The premises of composecheck.h hold here too. */
#ifndef COMPOSECHECK_ARRAYS_H
#define COMPOSECHECK_ARRAYS_H
#include "composecheck.h"
#define COMPOSECHECK_HIDDEN __attribute__((visibility("hidden")))

/* Entries of a table. What they hold is the proved library's own. */
struct composecheck_node { uint32_t depth, first; };
struct composecheck_edge { uint32_t target, keysym; };

/* How many entries the arrays of a table have. */
struct composecheck_sizes { size_t nodes, edges, texts, long_texts, hints, reserved[3]; };

/* Reads a table and fills its arrays. header: names, lines as of keysymdef.h. bundle: the number of sources (2 bytes, 1 to 64); each as
 * the length of its name (2 bytes), the name, the length of its content (4 bytes) and the content; the length of a certificate (4 bytes)
 * and the certificate. Numbers are big-endian, the names UTF-8 and distinct, and the first source is the root. longest: of two sequences of which
 * one is a prefix of the other the longer one counts, as in libxkbcommon; else such a table is refused.
 * edges: memory of zeros (calloc), or what an earlier call filled: each entry holds a keysym, at most 0x1fffffff, before the call too.
 * DONE: sizes says how many entries count, and the arrays are a table. REFUSED: fault says why, and sizes stays as it was. TOO_SMALL: sizes says
 * how many entries the table has, and an array is smaller than that. If it isn't DONE, the arrays stay as they were; if it isn't REFUSED, fault does.
 * MALLOC */
uint32_t composecheck_compile(const uint8_t *header, size_t header_length, const uint8_t *bundle, size_t bundle_length, bool longest,
                              struct composecheck_node *nodes, size_t node_room, struct composecheck_edge *edges, size_t edge_room,
                              uint8_t *texts, size_t text_room, uint8_t *long_texts, size_t long_text_room, uint8_t *hints, size_t hint_room,
                              struct composecheck_sizes *sizes, struct composecheck_fault *fault);

/* As composecheck_compile, and fills results besides with the result keysym of each sequence, one for each text and in their order;
 * *result_count says how many they are, a quarter of the bytes of texts. It is the keysym that the line names which counts for the sequence; if it
 * names none, the least keysym of the text's character; and 0 (XKB_KEY_NoSymbol) if the text isn't one character, or no keysym has it.
 * TOO_SMALL also if results has less room than *result_count says. If it isn't DONE, results stays as it was, and if it is REFUSED, *result_count
 * does. MALLOC */
uint32_t composecheck_compile_with_results(const uint8_t *header, size_t header_length, const uint8_t *bundle, size_t bundle_length, bool longest,
                                           struct composecheck_node *nodes, size_t node_room, struct composecheck_edge *edges, size_t edge_room,
                                           uint8_t *texts, size_t text_room, uint8_t *long_texts, size_t long_text_room, uint8_t *hints,
                                           size_t hint_room, uint32_t *results, size_t result_room, struct composecheck_sizes *sizes,
                                           size_t *result_count, struct composecheck_fault *fault);

/* Feeds a keysym: ACCEPTED, IGNORED, or NO_KEYSYM above 0x1fffffff, and then the state stays as it was. text gets the *text_length bytes that a
 * sequence commits which the key completes, without an end mark; a key that is part of no sequence commits none here.
 * Premise: the arrays are a table. */
uint32_t composecheck_feed(const struct composecheck_node *nodes, size_t node_count, const struct composecheck_edge *edges, size_t edge_count,
                           const uint8_t *texts, size_t text_count, const uint8_t *long_texts, size_t long_text_count,
                           const uint8_t *hints, size_t hint_count, struct composecheck_state *state, uint32_t keysym,
                           uint8_t text[COMPOSECHECK_MOST_TEXT], uint32_t *text_length);

/* Takes the state over to another table, also in the middle of a sequence: what is pending is typed anew there, and nothing is committed.
 * Premise: the arrays are a table. */
void composecheck_refeed(const struct composecheck_node *nodes, size_t node_count, const struct composecheck_edge *edges, size_t edge_count,
                         const uint8_t *texts, size_t text_count, const uint8_t *long_texts, size_t long_text_count,
                         const uint8_t *hints, size_t hint_count, struct composecheck_state *state);

/* The keysym at this index among those that may follow what is pending, in rising order, and what feeding it would do: the status, and the
 * text that it would commit. False if index is not below their number; what it points to then stays as it was.
 * Premise: the arrays are a table. */
bool composecheck_following(const struct composecheck_node *nodes, size_t node_count, const struct composecheck_edge *edges, size_t edge_count,
                            const uint8_t *texts, size_t text_count, const uint8_t *long_texts, size_t long_text_count,
                            const uint8_t *hints, size_t hint_count, const struct composecheck_state *state, uint32_t index,
                            uint32_t *keysym, uint32_t *status, uint8_t text[COMPOSECHECK_MOST_TEXT], uint32_t *text_length);

/* The result keysym of the sequence that feeding the keysym would complete: of results, which composecheck_compile_with_results filled with
 * the table. 0 if it completes none, if the sequence has none, or if results ends before it. The state stays as it is.
 * Premise: the arrays are a table. */
uint32_t composecheck_result(const struct composecheck_node *nodes, size_t node_count, const struct composecheck_edge *edges, size_t edge_count,
                             const uint8_t *texts, size_t text_count, const uint8_t *long_texts, size_t long_text_count,
                             const uint8_t *hints, size_t hint_count, const uint32_t *results, size_t result_count,
                             const struct composecheck_state *state, uint32_t keysym);

/* Whether the certificate is valid for a move from the old table to the new one, with these names and this repertoire, as the command
 * `composecheck check` says. False: fault says why; else it stays as it was. Premise: both arrays are tables. MALLOC */
bool composecheck_check(const uint8_t *header, size_t header_length,
                        const struct composecheck_node *old_nodes, size_t old_node_count, const struct composecheck_edge *old_edges,
                        size_t old_edge_count, const uint8_t *old_texts, size_t old_text_count, const uint8_t *old_long_texts,
                        size_t old_long_text_count, const uint8_t *old_hints, size_t old_hint_count,
                        const struct composecheck_node *new_nodes, size_t new_node_count, const struct composecheck_edge *new_edges,
                        size_t new_edge_count, const uint8_t *new_texts, size_t new_text_count, const uint8_t *new_long_texts,
                        size_t new_long_text_count, const uint8_t *new_hints, size_t new_hint_count,
                        const uint8_t *repertoire, size_t repertoire_length, const uint8_t *certificate, size_t certificate_length,
                        struct composecheck_fault *fault);

/* As composecheck_compile, but REFUSED too if the bundle's certificate is not valid for a move from the table in use.
 * Premise: the old arrays are a table. MALLOC */
uint32_t composecheck_load(const uint8_t *header, size_t header_length,
                           const struct composecheck_node *old_nodes, size_t old_node_count, const struct composecheck_edge *old_edges,
                           size_t old_edge_count, const uint8_t *old_texts, size_t old_text_count, const uint8_t *old_long_texts,
                           size_t old_long_text_count, const uint8_t *old_hints, size_t old_hint_count,
                           const uint8_t *repertoire, size_t repertoire_length, const uint8_t *bundle, size_t bundle_length, bool longest,
                           struct composecheck_node *nodes, size_t node_room, struct composecheck_edge *edges, size_t edge_room,
                           uint8_t *texts, size_t text_room, uint8_t *long_texts, size_t long_text_room, uint8_t *hints, size_t hint_room,
                           struct composecheck_sizes *sizes, struct composecheck_fault *fault);

/* Whether arrays of any numbers are a table: 1 they are, 0 they are the arrays of no table, 2 no memory. It takes at most as long as compiling the
 * table. MALLOC */
uint32_t composecheck_is_table(const struct composecheck_node *nodes, size_t node_count, const struct composecheck_edge *edges, size_t edge_count,
                               const uint8_t *texts, size_t text_count, const uint8_t *long_texts, size_t long_text_count);

#endif

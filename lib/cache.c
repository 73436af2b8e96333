/* The tables of users that are kept in a folder of theirs. C, and unproved.
 *
 * A file of the folder has a head, the texts that the table is made by, what was found at each path that was looked at, and the table. Of a file that was
 * found it has the digest of the bytes. So it says by itself whether the table is still the right one. */
#define _GNU_SOURCE
#include "cache.h"
#include <errno.h>
#include <fcntl.h>
#include <stdlib.h>
#include <stdio.h>
#include <string.h>
#include <sys/stat.h>
#include <unistd.h>

/* ---- digests */

/* What tells bytes from others: their length, and four lanes of which each has every fourth word. A change within one word is always seen, another one
 * but for one chance in 2^64. It is no defence against somebody who writes the files of a table: he can write a table too. */
enum { LANES = 4 };
struct digest { uint64_t length, lanes[LANES]; };

static void add_words(struct digest *digest, const uint8_t bytes[8 * LANES])
{
    uint64_t words[LANES];
    memcpy(words, bytes, sizeof words);
    for (int i = 0; i < LANES; i++) {
        uint64_t lane = (digest->lanes[i] ^ words[i]) * 0x9e3779b97f4a7c15u;
        digest->lanes[i] = lane ^ lane >> 32;
    }
}

/* Adds bytes to a digest, of which the length is a multiple of 32 but for the last ones. */
static void add_bytes(struct digest *digest, const uint8_t *bytes, size_t length)
{
    uint8_t last[8 * LANES] = { 0 };
    digest->length += length;
    for (; length >= sizeof last; bytes += sizeof last, length -= sizeof last)
        add_words(digest, bytes);
    if (length > 0) {
        memcpy(last, bytes, length);
        add_words(digest, last);
    }
}

static struct digest digest_of(const void *bytes, size_t length)
{
    struct digest digest = { 0, { 1, 2, 3, 4 } };
    add_bytes(&digest, bytes, length);
    return digest;
}

static bool is_same_digest(const struct digest *a, const struct digest *b)
{
    return memcmp(a, b, sizeof *a) == 0;
}

/* What a file begins with: how long the texts are, and the digests of the other parts, of which a crash may leave some bytes as zeros. */
struct head { char magic[8]; uint64_t given; struct digest found, table; };
static const char magic[8] = "cached1";

/* ---- places */

/* The folder, and the one that it is in, of which either may not be there yet. */
static bool put_folder(char folder[MOST_PATH])
{
    const char *caches = secure_getenv("XDG_CACHE_HOME"), *home = secure_getenv("HOME");
    bool is_given = caches && caches[0] == '/';
    if (!is_given && !(home && home[0] == '/'))
        return false;
    return snprintf(folder, MOST_PATH, "%s%s/composecheck", is_given ? caches : home, is_given ? "" : "/.cache") < MOST_PATH;
}

/* Puts each text with an end mark, and a byte before it that says whether there is one; gives the number of bytes. */
static size_t put_texts(uint8_t *at, const char *const texts[], size_t count)
{
    size_t length = 0;
    for (size_t i = 0; i < count; i++) {
        size_t size = texts[i] ? strlen(texts[i]) + 1 : 0;
        if (at) {
            at[length] = texts[i] != NULL;
            memcpy(at + length + 1, texts[i] ? texts[i] : "", size);
        }
        length += 1 + size;
    }
    return length;
}

bool composecheck_cache_begin(struct cache *cache, const char *const texts[], size_t count)
{
    if (!put_folder(cache->folder))
        return false;
    cache->given_length = put_texts(NULL, texts, count);
    cache->given = malloc(cache->given_length + 1);
    if (!cache->given)
        return false;
    put_texts(cache->given, texts, count);
    /* (two kinds of tables of one name take each other's place) */
    struct digest name = digest_of(cache->given, cache->given_length);
    unsigned long long digits = name.lanes[0] ^ name.lanes[1] * 3 ^ name.lanes[2] * 5 ^ name.lanes[3] * 7;
    if (snprintf(cache->path, MOST_PATH, "%s/%016llx", cache->folder, digits) < MOST_PATH)
        return true;
    composecheck_cache_end(cache);
    return false;
}

void composecheck_cache_end(struct cache *cache)
{
    free(cache->given);
}

/* Whether a file or a folder is the user's own, and nobody else may write to it. */
static bool is_own(const struct stat *found)
{
    return found->st_uid == geteuid() && (found->st_mode & (S_IWGRP | S_IWOTH)) == 0;
}

/* ---- what is found at paths */

/* As much as there is of a file, at most this many bytes. */
static size_t read_most(int number, void *target, size_t most)
{
    size_t length = 0;
    ssize_t got = 1;
    while (length < most && (got > 0 || (got < 0 && errno == EINTR))) {
        got = read(number, (uint8_t *) target + length, most - length);
        length += got > 0 ? (size_t) got : 0;
    }
    return length;
}

/* Opens the plain file at a path; -1 where there is none that can be read. (One of another kind, as a pipe, may have its bytes only once.) */
static int open_plain(const char *path, int flags, struct stat *found)
{
    int number = stat(path, found) == 0 && S_ISREG(found->st_mode) ? open(path, O_RDONLY | O_CLOEXEC | O_NONBLOCK | flags) : -1;
    if (number >= 0 && (fstat(number, found) != 0 || !S_ISREG(found->st_mode))) {
        close(number);
        return -1;
    }
    return number;
}

static bool has_file_digest(const char *path, const struct digest *wanted)
{
    uint8_t bytes[1 << 15];
    struct stat found;
    struct digest digest = digest_of("", 0);
    int number = open_plain(path, 0, &found);
    if (number < 0)
        return false;
    for (size_t length = sizeof bytes; length == sizeof bytes && digest.length <= wanted->length;) {
        length = read_most(number, bytes, sizeof bytes);
        add_bytes(&digest, bytes, length);
    }
    close(number);
    return is_same_digest(&digest, wanted);
}

/* Whether no file can be read at a path. */
static bool is_no_file(const char *path)
{
    struct stat found;
    if (stat(path, &found) != 0 || S_ISDIR(found.st_mode))
        return true;
    int number = open_plain(path, 0, &found);
    if (number >= 0)
        close(number);
    return number < 0 && S_ISREG(found.st_mode);
}

/* Takes bytes off the front of others; false where these end before. */
struct bytes { const uint8_t *at; size_t length; };

static bool take(struct bytes *from, void *target, size_t length)
{
    if (from->length < length)
        return false;
    memcpy(target, from->at, length);
    from->at += length;
    from->length -= length;
    return true;
}

/* Whether at the path of the next finding the same is found. */
static bool is_found_again(struct bytes *findings)
{
    char path[MOST_PATH];
    uint16_t length;
    uint8_t is_file;
    struct digest digest;
    if (!take(findings, &length, sizeof length) || length >= MOST_PATH || !take(findings, path, length) || !take(findings, &is_file, 1))
        return false;
    path[length] = 0;
    if (!is_file)
        return strlen(path) < length || is_no_file(path);
    return strlen(path) == length && take(findings, &digest, sizeof digest) && has_file_digest(path, &digest);
}

static uint8_t *put(uint8_t *at, const void *bytes, size_t length)
{
    memcpy(at, bytes, length);
    return at + length;
}

static size_t number_at(const uint8_t *at, int bytes)
{
    size_t number = 0;
    while (bytes-- > 0)
        number = number << 8 | *at++;
    return number;
}

/* Puts what is found at each path of a list of answers; at most 47 bytes more for each than the path has. */
static uint8_t *put_findings(uint8_t *to, const struct composecheck_files *files)
{
    const uint8_t *at = files->answers;
    for (size_t count = at ? number_at(at, 2) : 0; count > 0; count--) {
        if (at == files->answers)
            at += 2;
        uint16_t length = (uint16_t) number_at(at, 2);
        to = put(put(to, &length, sizeof length), at + 2, length);
        at += 2 + length;
        *to++ = *at;
        if (*at++) {
            struct digest digest = digest_of(at + 4, number_at(at, 4));
            to = put(to, &digest, sizeof digest);
            at += 4 + digest.length;
        }
    }
    return to;
}

/* ---- reading */

/* Opens the file at the cache's path, if it is a plain one of the user's own and has the parts that its head says. */
static int open_cached(const struct cache *cache, struct head *head)
{
    struct stat found;
    int number = open_plain(cache->path, O_NOFOLLOW, &found);
    if (number < 0)
        return -1;
    uint64_t size = (uint64_t) found.st_size;
    if (is_own(&found) && read_most(number, head, sizeof *head) == sizeof *head && memcmp(head->magic, magic, sizeof magic) == 0
        && head->given == cache->given_length && head->found.length <= size && head->table.length <= size
        && sizeof *head + head->given + head->found.length + head->table.length == size)
        return number;
    close(number);
    return -1;
}

/* Whether the texts are the same, and at each path the same is found. */
static bool is_made_by(const struct cache *cache, const uint8_t *bytes, const struct digest *found)
{
    struct bytes findings = { bytes + cache->given_length, found->length };
    struct digest digest = digest_of(findings.at, findings.length);
    if (memcmp(bytes, cache->given, cache->given_length) != 0 || !is_same_digest(&digest, found))
        return false;
    while (findings.length > 0)
        if (!is_found_again(&findings))
            return false;
    return true;
}

static bool is_as_before(int number, const struct cache *cache, const struct head *head)
{
    size_t length = (size_t) (head->given + head->found.length);
    uint8_t *bytes = malloc(length + 1);
    bool is_same = bytes && read_most(number, bytes, length) == length && is_made_by(cache, bytes, &head->found);
    free(bytes);
    return is_same;
}

/* The table at the end of the file, if nothing of it has changed. */
static void *read_table(int number, const struct digest *wanted)
{
    void *table = malloc(wanted->length + 1);
    if (table && read_most(number, table, wanted->length) == wanted->length) {
        struct digest digest = digest_of(table, wanted->length);
        if (is_same_digest(&digest, wanted) && composecheck_table_is_table(table, wanted->length) == 1)
            return table;
    }
    free(table);
    return NULL;
}

void *composecheck_cache_read(const struct cache *cache, size_t *length)
{
    struct head head;
    int number = open_cached(cache, &head);
    if (number < 0)
        return NULL;
    void *table = is_as_before(number, cache, &head) ? read_table(number, &head.table) : NULL;
    *length = (size_t) head.table.length;
    close(number);
    return table;
}

/* ---- writing */

/* Makes the folder, and the one that it is in; false where it isn't the user's own. */
static bool make_folder(const struct cache *cache)
{
    struct stat found;
    char above[MOST_PATH];
    memcpy(above, cache->folder, sizeof above);
    *strrchr(above, '/') = 0;
    if (mkdir(cache->folder, 0700) != 0 && errno == ENOENT && mkdir(above, 0700) == 0)
        mkdir(cache->folder, 0700);
    return lstat(cache->folder, &found) == 0 && S_ISDIR(found.st_mode) && is_own(&found);
}

static bool write_all(int number, const void *bytes, size_t length)
{
    ssize_t done = 1;
    for (const uint8_t *at = bytes; length > 0 && (done > 0 || errno == EINTR); at += done > 0 ? done : 0, length -= done > 0 ? (size_t) done : 0)
        done = write(number, at, length);
    return length == 0;
}

/* Writes another file and gives it the name, so that others see the whole file or none. */
static void write_file(const struct cache *cache, const struct head *head, const uint8_t *found, const void *table)
{
    char path[MOST_PATH];
    int number = snprintf(path, sizeof path, "%s.XXXXXX", cache->path) < MOST_PATH && make_folder(cache) ? mkostemp(path, O_CLOEXEC) : -1;
    if (number < 0)
        return;
    bool is_written = write_all(number, head, sizeof *head) && write_all(number, cache->given, cache->given_length)
                      && write_all(number, found, head->found.length) && write_all(number, table, head->table.length);
    is_written = close(number) == 0 && is_written;
    if (!is_written || rename(path, cache->path) != 0)
        unlink(path);
}

/* The most bytes that the findings of a list of answers take. */
static size_t most_of(const struct composecheck_files *files)
{
    size_t count = files->answers ? number_at(files->answers, 2) : 0, most = 0;
    const uint8_t *at = files->answers + 2;
    for (; count > 0; count--) {
        most += number_at(at, 2) + 3 + sizeof(struct digest);
        at += 2 + number_at(at, 2);
        at += *at ? 5 + number_at(at + 1, 4) : 1;
    }
    return most;
}

void composecheck_cache_write(const struct cache *cache, const void *table, size_t length, const struct composecheck_files *first,
                              const struct composecheck_files *second)
{
    uint8_t *found = malloc(most_of(first) + most_of(second) + 1);
    if (!found)
        return;
    size_t size = (size_t) (put_findings(put_findings(found, first), second) - found);
    struct head head = { .given = cache->given_length, .found = digest_of(found, size), .table = digest_of(table, length) };
    memcpy(head.magic, magic, sizeof magic);
    write_file(cache, &head, found, table);
    free(found);
}

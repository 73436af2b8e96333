/* The texts of all keysyms in a range, 0 to 0x1fffffff without arguments, beside xkb_keysym_to_utf8: those that differ are counted by the rules of
 * docs/LIBRARY.md, and by no other one. keys [FIRST LAST] */
#include <composecheck.h>
#include <stdio.h>
#include <stdlib.h>
#include <string.h>

int xkb_keysym_to_utf8(uint32_t keysym, char *buffer, size_t size);

enum { BATCH = 1 << 20 };
static uint32_t keysyms[BATCH], characters[BATCH];

/* The keys of which keysymdef.h says no character, and the two of which it says another one. */
static const uint32_t listed[] = {
    0xff08, 0xff09, 0xff0a, 0xff0b, 0xff0d, 0xff1b, 0xffff, 0xff89, 0xff8d, 0xff80, 0xffaa, 0xffab, 0xffac, 0xffad, 0xffae, 0xffaf, 0xffbd, 0xabc, 0xabe
};
static const char *const rules[] = { "surrogates", "numbers of Unicode below 0x1000100", "listed keys", "others" };
enum { RULES = sizeof rules / sizeof *rules };

static int rule_of(uint32_t keysym)
{
    if (keysym >= 0x100d800 && keysym <= 0x100dfff)
        return 0;
    if (keysym >= 0x1000001 && keysym <= 0x10000ff)
        return 1;
    for (size_t i = 0; i < sizeof listed / sizeof *listed; i++)
        if (listed[i] == keysym)
            return 2;
    return 3;
}

/* UTF-8 of a character with an end mark; none of 0. */
static void put(uint32_t character, char text[5])
{
    memset(text, 0, 5);
    if (character < 0x80) {
        text[0] = (char) character;
    } else if (character < 0x800) {
        text[0] = (char) (0xc0 | character >> 6);
        text[1] = (char) (0x80 | (character & 63));
    } else if (character < 0x10000) {
        text[0] = (char) (0xe0 | character >> 12);
        text[1] = (char) (0x80 | (character >> 6 & 63));
        text[2] = (char) (0x80 | (character & 63));
    } else {
        text[0] = (char) (0xf0 | character >> 18);
        text[1] = (char) (0x80 | (character >> 12 & 63));
        text[2] = (char) (0x80 | (character >> 6 & 63));
        text[3] = (char) (0x80 | (character & 63));
    }
}

int main(int count, char **arguments)
{
    uint64_t first = count > 2 ? strtoul(arguments[1], NULL, 0) : 0, last = count > 2 ? strtoul(arguments[2], NULL, 0) : COMPOSECHECK_GREATEST_KEYSYM;
    unsigned long differ[RULES] = { 0 }, have = 0;
    size_t header_length;
    const uint8_t *header = composecheck_builtin_names(&header_length);
    for (uint64_t from = first; from <= last; from += BATCH) {
        struct composecheck_fault fault;
        size_t size = last - from < BATCH ? (size_t) (last - from) + 1 : BATCH;
        for (size_t i = 0; i < size; i++)
            keysyms[i] = (uint32_t) (from + i);
        if (composecheck_characters(header, header_length, keysyms, size, characters, size, &fault) != 0)
            return 2;
        for (size_t i = 0; i < size; i++) {
            char ours[5], theirs[8] = "";
            if (xkb_keysym_to_utf8(keysyms[i], theirs, sizeof theirs) <= 0)
                theirs[0] = 0;
            if (characters[i] == 0 && theirs[0] == 0)
                continue;
            have++;
            put(characters[i], ours);
            if (strcmp(ours, theirs) != 0)
                differ[rule_of(keysyms[i])]++;
        }
    }
    printf("%lu have a text", have);
    for (int i = 0; i < RULES; i++)
        printf("; %lu %s", differ[i], rules[i]);
    printf("\n");
    return 0;
}

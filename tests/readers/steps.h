/* What the programs of this folder share: the keys that they press, and how they print what a reader makes of each.
 *
 * Standard input has a line for each step: `table PATH` takes another table, `-` forgets the keys that wait, and a keysym in hexadecimal presses
 * a key that has it. For each key a line is printed: a word, and the text that comes in the place of the key, in the quotes of `composecheck type`. */
#include <stdio.h>
#include <stdlib.h>
#include <string.h>

enum what { TABLE, RESET, KEY };

struct step {
    enum what what;
    unsigned long keysym;
    char *path;
};

static struct step *steps;
static size_t step_count;

static struct step parse_step(char *line)
{
    struct step step = {KEY, 0, NULL};
    line[strcspn(line, "\n")] = '\0';
    if (strncmp(line, "table ", 6) == 0) {
        step.what = TABLE;
        step.path = strdup(line + 6);
    } else if (strcmp(line, "-") == 0) {
        step.what = RESET;
    } else {
        step.keysym = strtoul(line, NULL, 16);
    }
    return step;
}

/* Reads all of standard input. */
static void read_steps(void)
{
    char line[4096];
    size_t room = 0;
    while (fgets(line, sizeof line, stdin) != NULL) {
        if (step_count == room) {
            room = 2 * room + 1024;
            steps = realloc(steps, room * sizeof *steps);
            if (steps == NULL)
                exit(2);
        }
        steps[step_count++] = parse_step(line);
    }
}

static void print_answer(const char *word, const char *text, size_t length)
{
    printf("%s \"", word);
    for (size_t i = 0; i < length; i++) {
        unsigned char byte = (unsigned char)text[i];
        if (byte == '"' || byte == '\\')
            printf("\\%c", byte);
        else if (byte < 0x20 || byte == 0x7f)
            printf("\\%03o", byte);
        else
            putchar(byte);
    }
    printf("\"\n");
}

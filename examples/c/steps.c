/* Steps a site from a small input script and prints the colours at each change. `steps --help` prints how it is called. */
#include <stdio.h>
#include <stdlib.h>
#include <string.h>

#include "willowera.h"
#include "willowera_words.h"

static const char help[] =
    "steps [--why] PERSONALITY STEPS [FROM-TO:BIT ..]\n"
    "\n"
    "Steps the site of a personality from its fresh state, STEPS steps of 0.1 s, and prints the wait bound and then a line at each\n"
    "change: the step, counted from 1, and a letter for each signal group: R red, Y yellow, G green, F flashing red.\n"
    "\n"
    "Each FROM-TO:BIT sets an input bit in the steps FROM to TO, both included. Bits 0 to 47 are the detectors, bits 48 to 55 the push\n"
    "buttons. Several of them may name the same step or the same bit. 12-12:1 sets detector 1 in step 12 alone; 60-61:48 presses push\n"
    "button 0 in the steps 60 and 61.\n"
    "\n"
    "With --why, each step in running also prints why the phase holds, if the line is another one than before.\n"
    "\n"
    "A refusal is printed with its number, its place and in words. The exit status is 0, 1 after a refusal or if the file cannot be read,\n"
    "2 if the words of the command are wrong.\n";

enum { MOST_BIT = 55 };

struct input {
    unsigned from, to, bit;
};

/* ── Words of the command ── */

static void wrong_word(const char *word, const char *what)
{
    fprintf(stderr, "steps: '%s' %s (see steps --help)\n", word, what);
    exit(2);
}

/* Reads a whole number of up to nine digits: what follows it, or NULL if there is none. */
static const char *whole_number(const char *text, unsigned *number)
{
    size_t digits = strspn(text, "0123456789");

    *number = 0;
    for (size_t i = 0; i < digits && digits <= 9; i++)
        *number = 10 * *number + (unsigned)(text[i] - '0');
    return digits > 0 && digits <= 9 ? text + digits : NULL;
}

static unsigned count_of(const char *word)
{
    unsigned count;
    const char *rest = whole_number(word, &count);

    if (rest == NULL || *rest != '\0')
        wrong_word(word, "is not a number of steps: a whole number of up to nine digits");
    return count;
}

static struct input input_of(const char *word)
{
    struct input input = {0, 0, 0};
    const char *rest = whole_number(word, &input.from);

    rest = rest != NULL && *rest == '-' ? whole_number(rest + 1, &input.to) : NULL;
    rest = rest != NULL && *rest == ':' ? whole_number(rest + 1, &input.bit) : NULL;
    if (rest == NULL || *rest != '\0')
        wrong_word(word, "is not FROM-TO:BIT: three whole numbers of up to nine digits");
    if (input.from < 1 || input.from > input.to)
        wrong_word(word, "has no steps: FROM is 1 or more, and TO is not less than FROM");
    if (input.bit > MOST_BIT)
        wrong_word(word, "has no such input: bits 0 to 47 are detectors, 48 to 55 push buttons");
    return input;
}

static uint64_t inputs_in(unsigned step, const struct input *script, size_t length)
{
    uint64_t inputs = 0;

    for (size_t i = 0; i < length; i++)
        if (script[i].from <= step && step <= script[i].to)
            inputs |= UINT64_C(1) << script[i].bit;
    return inputs;
}

/* ── The site ── */

struct site {
    uint8_t personality[4096];
    uint64_t length;
    size_t groups;
    uint8_t state[WILLOWERA_STATE_BYTES];
};

static void read_personality(const char *path, struct site *site)
{
    FILE *file = fopen(path, "rb");

    if (file != NULL) {
        site->length = fread(site->personality, 1, sizeof site->personality, file);
        if (!ferror(file) && fgetc(file) != EOF) {
            fprintf(stderr, "steps: %s has more than %zu bytes, but a personality has at most %u\n", path, sizeof site->personality,
                    (unsigned)WILLOWERA_MOST_PERSONALITY_BYTES);
            exit(1);
        }
    }
    if (file == NULL || ferror(file)) {
        perror(path);
        exit(1);
    }
    fclose(file);
}

static void stop_if_refused(const struct site *site, uint64_t answer)
{
    char words[WILLOWERA_MOST_WORDS_BYTES];

    if (WILLOWERA_NUMBER(answer) != WILLOWERA_ACCEPTED) {
        willowera_explain(site->personality, site->length, answer, words, sizeof words);
        printf("refused %u %zu: %s\n", WILLOWERA_NUMBER(answer), WILLOWERA_PLACE(answer), words);
        exit(1);
    }
}

static void print_colours(unsigned step, const uint8_t *colours, size_t groups)
{
    printf("%u ", step);
    for (size_t g = 0; g < groups; g++)
        putchar("RYGF"[colours[g]]);
    putchar('\n');
}

/* The line of the state after a step with these inputs. It has no bytes outside running. */
static void print_why(unsigned step, const struct site *site, uint64_t inputs)
{
    static uint8_t told[WILLOWERA_MOST_LINE_BYTES];
    static size_t told_length = 0;
    uint8_t line[WILLOWERA_MOST_LINE_BYTES];
    uint64_t answer = willowera_why(site->personality, site->length, site->state, sizeof site->state, inputs, line, sizeof line);

    stop_if_refused(site, answer);
    size_t line_length = WILLOWERA_LINE_LENGTH(answer);
    if (line_length > 0 && (line_length != told_length || memcmp(line, told, line_length) != 0))
        printf("%u %.*s\n", step, (int)line_length, (const char *)line);
    memcpy(told, line, line_length);
    told_length = line_length;
}

static void start(struct site *site)
{
    uint64_t bound = willowera_wait_bound(site->personality, site->length);
    uint64_t groups = willowera_groups(site->personality, site->length);

    stop_if_refused(site, bound);
    stop_if_refused(site, groups);
    stop_if_refused(site, willowera_fresh(site->personality, site->length, site->state, sizeof site->state));
    site->groups = WILLOWERA_GROUPS(groups);
    printf("wait bound %lu steps\n", (unsigned long)WILLOWERA_WAIT(bound));
}

static void run(struct site *site, unsigned steps, const struct input *script, size_t length, int why)
{
    uint8_t colours[WILLOWERA_MOST_GROUPS] = {0};
    uint8_t shown[WILLOWERA_MOST_GROUPS];

    memset(shown, 255, sizeof shown);
    for (unsigned step = 1; step <= steps; step++) {
        uint64_t inputs = inputs_in(step, script, length);
        uint64_t answer = willowera_step(site->personality, site->length, site->state, sizeof site->state, inputs, colours, sizeof colours);
        stop_if_refused(site, answer);
        if (memcmp(shown, colours, site->groups) != 0)
            print_colours(step, colours, site->groups);
        memcpy(shown, colours, site->groups);
        if (why)
            print_why(step, site, inputs);
    }
}

int main(int count, char **words)
{
    static struct site site;
    int why = count > 1 && strcmp(words[1], "--why") == 0;

    if (count == 2 && strcmp(words[1], "--help") == 0) {
        fputs(help, stdout);
        return 0;
    }
    count -= why;
    words += why;
    if (count < 3) {
        fprintf(stderr, "steps: a personality and a number of steps are needed (see steps --help)\n");
        return 2;
    }
    unsigned steps = count_of(words[2]);
    size_t length = (size_t)count - 3;
    struct input *script = calloc(length + 1, sizeof *script);
    if (script == NULL) {
        perror("steps");
        return 1;
    }
    for (size_t i = 0; i < length; i++)
        script[i] = input_of(words[3 + i]);

    read_personality(words[1], &site);
    start(&site);
    run(&site, steps, script, length, why);
    free(script);
    return 0;
}

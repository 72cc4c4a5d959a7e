/* Tests include/willowera_words.h: the refusals in words.
 *
 *     words kept FILE            prints the lines of a file of cases again, each with what the library and willowera_explain say now
 *     words reads READS          for every personality of the reader's vectors (crates/run_reads/data/reads)
 *     words fuzz READS SEED N    N times: any answer with a damaged personality of the vectors, or with any bytes
 *
 * A line of a file of cases is
 *
 *     SITE CHANGE.. | NUMBER PLACE: SENTENCE
 *
 * with the personality of examples/SITE and these changes of it, in their order: AT=VALUE a byte, cut=N only the first N bytes, add=VALUE one
 * more byte. The answer is that of willowera_read; after lookup=KIND it is that of willowera_section; after answer=NUMBER@PLACE it is that
 * one. A line that begins with # is a comment. Every number that has a sentence has a case.
 *
 * Every personality and every text is in a buffer of exactly its length, so that the sanitizer sees each byte too far.
 */
#include <stdio.h>
#include <stdlib.h>
#include <string.h>

#include "willowera_words.h"

enum { ROOM = 4096, NUMBERS = 256 };

struct personality {
    uint8_t bytes[ROOM];
    size_t length;
};

static void need(int truth, const char *what, size_t which)
{
    if (!truth) {
        printf("FAILED: %s, at %zu\n", what, which);
        exit(1);
    }
}

static void *exact(const void *bytes, size_t length)
{
    void *copy = malloc(length);

    need(copy != NULL || length == 0, "memory", length);
    if (length > 0)
        memcpy(copy, bytes, length);
    return copy;
}

/* The sentence for an answer, whose text is checked in a buffer of one byte more than it needs. */
static size_t explain(const struct personality *site, uint64_t answer, char *text)
{
    uint8_t *bytes = exact(site->bytes, site->length);
    size_t length = willowera_explain(bytes, site->length, answer, NULL, 0);
    char *fitting = malloc(length + 1);

    need(fitting != NULL, "memory", length);
    need(length < WILLOWERA_MOST_WORDS_BYTES, "a text is longer than the header says: number", WILLOWERA_NUMBER(answer));
    need(willowera_explain(bytes, site->length, answer, fitting, length + 1) == length, "another length in another room", length);
    need(strlen(fitting) == length, "a NUL elsewhere than at the end", length);
    memcpy(text, fitting, length + 1);
    free(fitting);
    free(bytes);
    return length;
}

/* Whether the sentence says more than the number alone. */
static int is_special(uint64_t answer, const char *text)
{
    return strcmp(text, willowera_words(WILLOWERA_NUMBER(answer))) != 0;
}

/* In every room the text is the beginning of the whole one, with a NUL behind it, and no byte past the room is written. */
static void try_rooms(const struct personality *site, uint64_t answer, const char *whole, size_t length)
{
    for (size_t room = 0; room <= length + 2; room++) {
        char *text = malloc(room);
        size_t shown = room == 0 ? 0 : room - 1 < length ? room - 1 : length;

        need(text != NULL || room == 0, "memory", room);
        need(willowera_explain(site->bytes, site->length, answer, text, room) == length, "another length in the room", room);
        need(room == 0 || (memcmp(text, whole, shown) == 0 && text[shown] == '\0'), "another text in the room", room);
        free(text);
    }
}

/* ── Cases ── */

/* Prints the case of a line, and gives the number of its answer. */
static unsigned print_case(char *line, size_t number)
{
    struct personality site = {{0}, 0};
    char path[256], text[WILLOWERA_MOST_WORDS_BYTES], *words = strchr(line, '|');
    unsigned long kind = 0, given = 0, given_place = 0;

    need(words != NULL, "a line without |", number);
    *words = '\0';
    char *word = strtok(line, " ");
    need(word != NULL, "no site in line", number);
    snprintf(path, sizeof path, "examples/%s/personality.bin", word);
    FILE *file = fopen(path, "rb");
    need(file != NULL, "no such site, in line", number);
    site.length = fread(site.bytes, 1, sizeof site.bytes, file);
    fclose(file);
    fputs(word, stdout);
    while ((word = strtok(NULL, " ")) != NULL) {
        unsigned long at, value;
        if (sscanf(word, "cut=%lu", &at) == 1 && at <= site.length)
            site.length = at;
        else if (sscanf(word, "add=%lu", &value) == 1 && site.length < ROOM)
            site.bytes[site.length++] = (uint8_t)value;
        else if (sscanf(word, "%lu=%lu", &at, &value) == 2 && at < site.length)
            site.bytes[at] = (uint8_t)value;
        else
            need(sscanf(word, "lookup=%lu", &kind) == 1 || sscanf(word, "answer=%lu@%lu", &given, &given_place) == 2, "a wrong change in line",
                 number);
        printf(" %s", word);
    }
    uint64_t answer = given != 0  ? given | (uint64_t)given_place << 8
                      : kind != 0 ? willowera_section(site.bytes, site.length, (uint16_t)kind)
                                  : willowera_read(site.bytes, site.length);
    explain(&site, answer, text);
    printf(" | %u %zu: %s\n", WILLOWERA_NUMBER(answer), WILLOWERA_PLACE(answer), text);
    return WILLOWERA_NUMBER(answer);
}

static void print_cases(FILE *file)
{
    char line[1024];
    int seen[NUMBERS] = {0};

    for (size_t number = 1; fgets(line, sizeof line, file) != NULL; number++)
        if (line[0] == '#')
            fputs(line, stdout);
        else
            seen[print_case(line, number)] = 1;
    for (unsigned number = 0; number < NUMBERS; number++)
        need(seen[number] || strcmp(willowera_words(number), willowera_words(NUMBERS)) == 0, "no case has the number", number);
}

/* ── Vectors ── */

/* The next vector: its length (2 bytes), the bytes, the number (1 byte) and the place (4 bytes). 0 at the end of the file. */
static int next_vector(FILE *file, struct personality *site, uint64_t *answer)
{
    uint8_t head[2], tail[5];

    if (fread(head, 1, sizeof head, file) != sizeof head)
        return 0;
    site->length = WILLOWERA_TWO_BYTES(head, 0);
    need(site->length <= ROOM, "a vector that is too long", site->length);
    need(fread(site->bytes, 1, site->length, file) == site->length, "a vector that is cut", site->length);
    need(fread(tail, 1, sizeof tail, file) == sizeof tail, "a vector without an answer", site->length);
    *answer = tail[0] | (uint64_t)(tail[1] | (uint64_t)tail[2] << 8 | (uint64_t)tail[3] << 16 | (uint64_t)tail[4] << 24) << 8;
    return 1;
}

/* An accepted personality has no mistake, so nothing special can be said of it, whatever the number and the place. A section that is looked
 * up (2 at 0) may be missing. */
static size_t try_accepted(const struct personality *site, size_t which)
{
    char text[WILLOWERA_MOST_WORDS_BYTES];
    size_t tried = 0;

    for (uint64_t place = 0; place <= site->length + 1; place++)
        for (uint64_t number = 1; number <= WILLOWERA_OTHER_PERSONALITY; number++, tried++) {
            uint64_t answer = place << 8 | number;
            willowera_explain(site->bytes, site->length, answer, text, sizeof text);
            need(!is_special(answer, text) || answer == WILLOWERA_WRONG_KIND, text, which);
        }
    return tried;
}

static void try_vectors(FILE *file)
{
    static struct personality site;
    char text[WILLOWERA_MOST_WORDS_BYTES];
    size_t vectors = 0, accepted = 0, tried = 0, longest = 0;
    uint64_t answer;

    for (; next_vector(file, &site, &answer); vectors++) {
        need(willowera_read(site.bytes, site.length) == answer, "the library answers otherwise, in vector", vectors);
        size_t length = explain(&site, answer, text);
        longest = length > longest ? length : longest;
        need(is_special(answer, text) == (answer != WILLOWERA_ACCEPTED), "nothing is said of vector", vectors);
        try_rooms(&site, answer, text, length);
        if (answer == WILLOWERA_ACCEPTED) {
            tried += try_accepted(&site, vectors);
            accepted++;
        }
    }
    printf("%zu personalities explained, %zu of them accepted, with %zu wrong answers; the longest text has %zu bytes\n", vectors, accepted, tried,
           longest);
    need(vectors > accepted && accepted > 0, "no vectors", vectors);
}

/* ── Any bytes and any answers ── */

static uint64_t draw(uint64_t *random)
{
    *random ^= *random << 13;
    *random ^= *random >> 7;
    *random ^= *random << 17;
    return *random;
}

/* Any of 0 to bound - 1; small ones more often. */
static size_t below(uint64_t *random, size_t bound)
{
    size_t drawn = (size_t)(draw(random) >> 16) % bound;

    return draw(random) % 4 == 0 ? drawn % 16 % bound : drawn;
}

static void damage(struct personality *site, uint64_t *random)
{
    for (size_t changes = below(random, 6); changes > 0 && site->length > 0; changes--)
        site->bytes[below(random, site->length)] = (uint8_t)draw(random);
    if (draw(random) % 4 == 0)
        site->length = below(random, site->length + 1);
    if (draw(random) % 16 == 0)
        for (size_t at = 0; at < site->length; at++)
            site->bytes[at] = (uint8_t)draw(random);
}

static void fuzz(FILE *file, uint64_t seed, size_t count)
{
    static struct personality site, damaged;
    char text[WILLOWERA_MOST_WORDS_BYTES];
    uint64_t random = seed * UINT64_C(0x9e3779b97f4a7c15) + 1, answer;
    size_t special = 0, longest = 0;

    for (size_t i = 0; i < count; i++) {
        if (!next_vector(file, &site, &answer)) {
            rewind(file);
            need(next_vector(file, &site, &answer), "no vectors", i);
        }
        damaged = site;
        damage(&damaged, &random);
        answer = below(&random, draw(&random) % 8 == 0 ? NUMBERS : WILLOWERA_UNCALLED_PHASE + 1) | (uint64_t)below(&random, damaged.length + 8) << 8;
        if (draw(&random) % 64 == 0)
            answer = draw(&random);
        size_t length = explain(&damaged, answer, text);
        longest = length > longest ? length : longest;
        special += (size_t)is_special(answer, text);
    }
    printf("%zu answers explained, %zu of them specially; the longest text has %zu bytes\n", count, special, longest);
    need(special > 0, "nothing special", count);
}

int main(int count, char **words)
{
    const char *mode = count >= 3 ? words[1] : "";
    FILE *file = count >= 3 ? fopen(words[2], "rb") : NULL;

    if (file != NULL && count == 3 && strcmp(mode, "kept") == 0) {
        print_cases(file);
    } else if (file != NULL && count == 3 && strcmp(mode, "reads") == 0) {
        try_vectors(file);
    } else if (file != NULL && count == 5 && strcmp(mode, "fuzz") == 0) {
        fuzz(file, strtoul(words[3], NULL, 10), strtoul(words[4], NULL, 10));
    } else {
        fprintf(stderr, "usage: words kept FILE | words reads READS | words fuzz READS SEED N\n");
        return 2;
    }
    fclose(file);
    return 0;
}

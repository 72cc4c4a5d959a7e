/* Tries a site on a simulated road and prints a line a stream: detector, group, rate, the vehicles that arrived, those queued and those gone.
 *
 *     road ROAD
 *
 * The file is what the program run_road reads: a two-byte length, the personality, four bytes of steps, then 4 bytes a stream.
 */
#include <stdio.h>
#include <stdlib.h>

#include "willowera.h"

enum { MOST_BYTES = 2 + 65535 + 4 + WILLOWERA_STREAM_BYTES * (WILLOWERA_MOST_STREAMS + 1) };

static unsigned two(const uint8_t *bytes)
{
    return bytes[0] + 256u * bytes[1];
}

/* The bytes of a file, as many as the buffer has room for. */
static size_t read_file(const char *path, uint8_t *bytes, size_t room)
{
    FILE *file = fopen(path, "rb");
    if (file == NULL) {
        perror(path);
        exit(2);
    }
    size_t length = fread(bytes, 1, room, file);
    fclose(file);
    return length;
}

static void print_stream(const uint8_t *stream, const uint8_t *result)
{
    unsigned queued = two(result), gone = two(result + 2);
    printf("%u %u %u %u %u %u\n", stream[0], stream[1], two(stream + 2), queued + gone, queued, gone);
}

int main(int count, char **words)
{
    static uint8_t bytes[MOST_BYTES];
    uint8_t state[WILLOWERA_STATE_BYTES], results[WILLOWERA_RESULT_BYTES * WILLOWERA_MOST_STREAMS];

    if (count != 2) {
        fprintf(stderr, "usage: road ROAD\n");
        return 2;
    }
    size_t length = read_file(words[1], bytes, sizeof bytes);
    if (length < 2 || length < 6 + (size_t)two(bytes)) {
        fprintf(stderr, "%s is cut short\n", words[1]);
        return 2;
    }
    const uint8_t *personality = bytes + 2, *number = personality + two(bytes), *streams = number + 4;
    size_t streams_length = length - (size_t)(streams - bytes);
    uint32_t steps = two(number) + 65536u * two(number + 2);
    uint64_t answer = willowera_road(personality, two(bytes), streams, streams_length, steps, state, sizeof state, results, sizeof results);
    if (WILLOWERA_NUMBER(answer) != WILLOWERA_ACCEPTED) {
        printf("refused %u %zu\n", WILLOWERA_NUMBER(answer), WILLOWERA_PLACE(answer));
        return 1;
    }
    for (size_t i = 0; i + WILLOWERA_STREAM_BYTES <= streams_length; i += WILLOWERA_STREAM_BYTES)
        print_stream(streams + i, results + i);
    return 0;
}

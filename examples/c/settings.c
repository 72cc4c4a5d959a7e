/* Prints the settings of approaches from their site sheets, a line each: minimum green and passage time in steps, or the refusal.
 *
 *     settings SPEED advance|zone METRES [SPEED advance|zone METRES ..]
 *
 * The speed is in km/h; the metres are the distance of an advance detector or the length of a stop-line zone.
 */
#include <stdio.h>
#include <stdlib.h>

#include "willowera.h"

static void print_settings(uint32_t speed, uint32_t detector, double metres)
{
    uint64_t answer = willowera_settings(speed, detector, metres);
    if (WILLOWERA_NUMBER(answer) == WILLOWERA_ACCEPTED)
        printf("%u %u\n", WILLOWERA_MINIMUM_GREEN_SETTING(answer), WILLOWERA_PASSAGE_TIME(answer));
    else
        printf("refused %u %zu\n", WILLOWERA_NUMBER(answer), WILLOWERA_PLACE(answer));
}

int main(int count, char **words)
{
    if (count < 4 || count % 3 != 1) {
        fprintf(stderr, "usage: settings SPEED advance|zone METRES ..\n");
        return 2;
    }
    for (int i = 1; i < count; i += 3) {
        uint32_t speed = (uint32_t)strtoul(words[i], NULL, 10);
        uint32_t detector = words[i + 1][0] == 'z' ? WILLOWERA_STOP_LINE : WILLOWERA_ADVANCE;
        print_settings(speed, detector, strtod(words[i + 2], NULL));
    }
    return 0;
}

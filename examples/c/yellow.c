/* Prints the yellow times of approaches, a line each, in steps; or the refusal.
 *
 *     yellow SPEED GRADE [SPEED GRADE ..]
 *
 * The speed is in km/h, the grade in percent; uphill is positive.
 */
#include <stdio.h>
#include <stdlib.h>

#include "willowera.h"

static void print_yellow(uint32_t speed, int32_t grade)
{
    uint64_t answer = willowera_yellow(speed, grade);
    if (WILLOWERA_NUMBER(answer) == WILLOWERA_ACCEPTED)
        printf("%u\n", WILLOWERA_YELLOW_TIME(answer));
    else
        printf("refused %u %zu\n", WILLOWERA_NUMBER(answer), WILLOWERA_PLACE(answer));
}

int main(int count, char **words)
{
    if (count < 3 || count % 2 != 1) {
        fprintf(stderr, "usage: yellow SPEED GRADE ..\n");
        return 2;
    }
    for (int i = 1; i < count; i += 2)
        print_yellow((uint32_t)strtoul(words[i], NULL, 10), (int32_t)strtol(words[i + 1], NULL, 10));
    return 0;
}

/* The proved runner and stores, by the functions of crates/exports.

       proved run IMAGE TIMES KIND SLOTS EVENTS SLICES    nanoseconds of the processor's time, steps in all, the memory's first word
       proved begin IMAGE TIMES KIND SLOTS                nanoseconds, 0, and the answer
       proved store ORDERS TIMES KIND SLOTS               nanoseconds, 0, and the sum of what was got
*/
#include <stdlib.h>
#include <string.h>

#include "exports.h"
#include "timing.h"

static char **words;

static unsigned long number(int k)
{
    return strtoul(words[k], NULL, 10);
}

static void run_often(const uint8_t *image, size_t length)
{
    uint32_t size;
    memcpy(&size, image + 4, 4);
    uint32_t *memory = malloc(4 * (size_t)size);
    uint64_t steps = 0, from = now();
    for (unsigned long k = 0; k < number(3); k++) {
        memset(memory, 0, 4 * (size_t)size);
        uint64_t made = k4_run(image, length, number(4), number(5), memory, size, number(6), number(7));
        if (made > K4_REFUSED - 100) {
            fprintf(stderr, "refused %d\n", (int)(K4_REFUSED - made));
            exit(1);
        }
        steps += made;
    }
    tell(now() - from, steps, memory[0]);
}

static void begin_often(const uint8_t *image, size_t length)
{
    uint64_t answer = 0, from = now();
    for (unsigned long k = 0; k < number(3); k++)
        answer = k4_begin(image, length, number(4), number(5));
    tell(now() - from, 0, answer);
}

static void obey_often(const uint32_t *orders, size_t length)
{
    uint64_t sum = 0, from = now();
    for (unsigned long k = 0; k < number(3); k++)
        sum = k4_obey(number(4), number(5), orders, length / 4);
    tell(now() - from, 0, sum);
}

int main(int count, char **given)
{
    words = given;
    size_t length;
    if (count < 6)
        return 2;
    void *file = read_file(words[2], &length);
    if (strcmp(words[1], "run") == 0 && count == 8)
        run_often(file, length);
    else if (strcmp(words[1], "begin") == 0)
        begin_often(file, length);
    else if (strcmp(words[1], "store") == 0)
        obey_often(file, length);
    else
        return 2;
    return 0;
}

/* judging judge IMAGE TIMES: the proved judge, so often; nanoseconds of the processor's time, 0, and its answer. */
#include <stdlib.h>
#include <string.h>

#include "../firmware/k4.h"
#include "timing.h"

int main(int count, char **words)
{
    if (count != 4)
        return 2;
    size_t length;
    const uint8_t *image = read_file(words[2], &length);
    uint32_t answer = 0;
    uint64_t from = now();
    for (long k = atol(words[3]); k > 0; k--)
        answer = k4_judge(image, length);
    tell(now() - from, 0, answer);
    return 0;
}

/* Hands a file's bytes to the judge and prints its answer. */
#include <stdio.h>

#include "k4.h"

/* More than the largest image has, so that a longer file is judged as too long. */
static uint8_t image[65536];

int main(int count, char **words)
{
    if (count != 2) {
        fprintf(stderr, "usage: judge FILE\n");
        return 2;
    }
    FILE *file = fopen(words[1], "rb");
    if (file == NULL) {
        perror(words[1]);
        return 2;
    }
    size_t length = fread(image, 1, sizeof image, file);
    fclose(file);
    printf("%u\n", (unsigned)k4_judge(image, length));
    return 0;
}

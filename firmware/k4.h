/* The judge of module images, in libjudge.a. */
#ifndef K4_H
#define K4_H

#include <stddef.h>
#include <stdint.h>

/* 0 if the image follows every rule, otherwise the number of its first fault (docs/REFUSALS.md).
   `image` points at `length` bytes and is not NULL, also where `length` is 0. */
uint32_t k4_judge(const uint8_t *image, size_t length);

#endif

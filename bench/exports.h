/* The functions of crates/exports, in libexports.a. Each pointer points at so many items as the number behind it says, and
   isn't NULL, also where that is 0. Kinds are 0 array store, 1 hash store, 2 hash store behind a window. What is answered
   where a call isn't done is `K4_REFUSED - number`: 1 to 8 the image's first fault, 10 there is no such kind, 12 the memory
   hasn't the module's size, 0 there was no room. */
#ifndef EXPORTS_H
#define EXPORTS_H

#include <stddef.h>
#include <stdint.h>

#define K4_REFUSED UINT64_MAX

/* Reads an image, begins a run on a new store of this kind and so many slots, and goes on until it ends, stops, or so many
   slices of so many steps are made. Answers how many steps were made. */
uint64_t k4_run(const uint8_t *image, size_t length, uint32_t kind, size_t slots, uint32_t *memory, size_t words, uint32_t events, uint32_t slices);

/* Reads an image, makes a store and begins a run. Answers how many frames stand. */
uint64_t k4_begin(const uint8_t *image, size_t length, uint32_t kind, size_t slots);

/* Makes a store and does orders: a word is 65536 times 0 for get, 1 for put, else drop, and an address. Answers the sum of
   what was got. */
uint64_t k4_obey(uint32_t kind, size_t slots, const uint32_t *orders, size_t count);

#endif

/* An unprotected runner of the same images, to compare with: what a customer would write who has no panel to fear.
   The image is read once into a flat array of decoded instructions, and then there is a switch in a loop. Values are plain
   words: there are no marks and no safe store, a code pointer is a function's number in memory, and no field step is
   checked. It stops where going on would break the runner itself: an address behind the memory, a number of no function,
   a full stack, a full heap. It makes no list of events and counts no steps, since such a runner has no use for them. The
   image isn't judged.

       unprotected run IMAGE TIMES       runs it so often; prints nanoseconds of the processor's time, 0, and the memory's first word
       unprotected store ORDERS TIMES    does the orders (bench/orders.py) on an array of words; prints the same, with a sum of what was got
*/
#include <stdio.h>
#include <stdlib.h>
#include <string.h>

#include "timing.h"

enum { SET, ADD, SUBTRACT, LESS, CAST, JUMP, BRANCH, FUNCTION, GLOBAL, ALLOCATE, MOVE, FIELD, LOAD, STORE, CALL, THROUGH, RETURN };
enum { TYPES, FIELDS, GLOBALS, LOCALS, FUNCTIONS, CODE };
enum { RECORD = 4, MOST_FRAMES = 16 };

/* n is the number, field, size, or place that the instruction names. */
struct instruction {
    uint8_t op, x, y, z;
    uint32_t n;
};

struct frame {
    const struct instruction *next;
    uint32_t locals[8];
};

struct module {
    uint32_t memory, depth, functions, heap;
    uint32_t entries[64];
    struct instruction code[64 * 1024];
};

static const uint8_t *image;

static uint32_t word(size_t byte)
{
    uint32_t w;
    memcpy(&w, image + byte, 4);
    return w;
}

static uint32_t of_record(int list, uint32_t record, int k)
{
    static const int words[6] = {3, 1, 2, 1, 4, 4};
    return word(word(12 + 8 * list) + 4 * (record * words[list] + k));
}

static uint32_t size_of(uint32_t type)
{
    return of_record(TYPES, type, 0) == RECORD ? of_record(TYPES, type, 2) : 1;
}

/* The size of what local x of a function points at. */
static uint32_t target_size(uint32_t function, uint32_t x)
{
    uint32_t type = of_record(LOCALS, of_record(FUNCTIONS, function, 2) + x, 0);
    return size_of(of_record(TYPES, type, 1));
}

static uint32_t start_of(uint32_t global)
{
    uint32_t at = 0;
    for (uint32_t g = 0; g < global; g++)
        at += size_of(of_record(GLOBALS, g, 0)) * of_record(GLOBALS, g, 1);
    return at;
}

static struct instruction decoded(uint32_t function, uint32_t entry, uint32_t record)
{
    uint32_t op = of_record(CODE, record, 0), a = of_record(CODE, record, 1), b = of_record(CODE, record, 2), c = of_record(CODE, record, 3);
    struct instruction i = {op, a, b, c, 0};
    switch (op) {
    case SET: case FUNCTION: i.n = b; break;
    case GLOBAL: i.n = start_of(b); break;
    case JUMP: i.n = entry + a; break;
    case BRANCH: i.n = entry + b; break;
    case CALL: i.n = a; break;
    case FIELD: i.n = c; break;
    case MOVE: case ALLOCATE: i.n = target_size(function, a); break;
    }
    return i;
}

static void decode(struct module *m)
{
    uint32_t at = 0;
    m->memory = word(4);
    m->depth = word(8) ? word(8) : MOST_FRAMES;
    m->functions = word(16 + 8 * FUNCTIONS);
    m->heap = start_of(word(16 + 8 * GLOBALS));
    for (uint32_t f = 0; f < m->functions; f++) {
        uint32_t first = of_record(FUNCTIONS, f, 0), count = of_record(FUNCTIONS, f, 1);
        m->entries[f] = at;
        for (uint32_t k = 0; k < count; k++)
            m->code[at + k] = decoded(f, m->entries[f], first + k);
        at += count;
    }
}

/* 0 as the run has ended, or why it stopped. */
static int run(const struct module *m, uint32_t *memory)
{
    struct frame frames[MOST_FRAMES];
    uint32_t depth = 1, heap = m->heap, words = m->memory, f;
    uint32_t *l = frames[0].locals;
    const struct instruction *next = m->code + m->entries[0];
    memset(l, 0, sizeof frames[0].locals);
    for (;;) {
        const struct instruction *i = next++;
        switch (i->op) {
        case SET: l[i->x] = i->n; break;
        case ADD: l[i->x] = l[i->y] + l[i->z]; break;
        case SUBTRACT: l[i->x] = l[i->y] - l[i->z]; break;
        case LESS: l[i->x] = l[i->y] < l[i->z]; break;
        case CAST: l[i->x] = l[i->y]; break;
        case JUMP: next = m->code + i->n; break;
        case BRANCH: if (l[i->x]) next = m->code + i->n; break;
        case FUNCTION: l[i->x] = i->n; break;
        case GLOBAL: l[i->x] = i->n; break;
        case ALLOCATE: {
            uint64_t more = (uint64_t)l[i->y] * i->n;
            if (more == 0 || more > words - heap) return 26;
            l[i->x] = heap;
            heap += more;
            break;
        }
        case MOVE: l[i->x] = l[i->y] + l[i->z] * i->n; break;
        case FIELD: l[i->x] = l[i->y] + i->n; break;
        case LOAD:
            if (l[i->y] >= words) return 21;
            l[i->x] = memory[l[i->y]];
            break;
        case STORE:
            if (l[i->y] >= words) return 21;
            memory[l[i->y]] = l[i->x];
            break;
        case THROUGH:
            f = l[i->x];
            if (f >= m->functions) return 24;
            goto enter;
        case CALL:
            f = i->n;
        enter:
            if (depth == m->depth) return 25;
            frames[depth - 1].next = next;
            l = frames[depth++].locals;
            memset(l, 0, sizeof frames[0].locals);
            next = m->code + m->entries[f];
            break;
        case RETURN:
            if (--depth == 0) return 0;
            l = frames[depth - 1].locals;
            next = frames[depth - 1].next;
            break;
        }
    }
}

static void run_often(const char *file, long times)
{
    static struct module m;
    size_t length;
    image = read_file(file, &length);
    uint32_t words = word(4);
    uint32_t *memory = calloc(words, 4);
    int stopped = 0;
    uint64_t from = now();
    for (long k = 0; k < times; k++) {
        decode(&m);
        memset(memory, 0, 4 * (size_t)words);
        stopped = run(&m, memory);
    }
    tell(now() - from, 0, memory[0]);
    if (stopped)
        fprintf(stderr, "stopped %d\n", stopped);
}

static uint32_t obey(uint32_t *held, const uint32_t *orders, size_t count)
{
    uint32_t sum = 0;
    for (size_t k = 0; k < count; k++) {
        uint32_t a = orders[k] & 65535;
        switch (orders[k] >> 16) {
        case 0: sum += held[a]; break;
        case 1: held[a] = a; break;
        default: held[a] = 0;
        }
    }
    return sum;
}

static void obey_often(const char *file, long times)
{
    static uint32_t held[65536];
    size_t length;
    const uint32_t *orders = read_file(file, &length);
    uint32_t sum = 0;
    uint64_t from = now();
    for (long k = 0; k < times; k++) {
        memset(held, 0, sizeof held);
        sum = obey(held, orders, length / 4);
    }
    tell(now() - from, 0, sum);
}

int main(int count, char **words)
{
    if (count == 4 && strcmp(words[1], "run") == 0)
        run_often(words[2], atol(words[3]));
    else if (count == 4 && strcmp(words[1], "store") == 0)
        obey_often(words[2], atol(words[3]));
    else
        return 2;
    return 0;
}

/* The memory of the library, from an array of fixed size: for firmware, where there is no malloc.

   The array is cut into blocks, each behind a head. The first free block that is large enough is handed out, and free
   blocks that stand side by side are joined as they are come upon; so once all are given back, as they are when a call
   has returned, the whole array can be had again. One call at a time may run. It needs no header but the compiler's own.
   It compiles as C11 and as C++11, for 64 bits and for 32. */
#include "pciplan.h"

#ifndef PCIPLAN_FIXED_BYTES
#define PCIPLAN_FIXED_BYTES (256 * 1024)
#endif

/* No block is aligned to more than 16. */
#define STEP 16

#ifdef __cplusplus
#define ALIGNED(bytes) alignas(bytes)
#define ASSERTED(that, text) static_assert(that, text)
#else
#define ALIGNED(bytes) _Alignas(bytes)
#define ASSERTED(that, text) _Static_assert(that, text)
#endif

/* What stands before each block. */
struct head {
    ALIGNED(STEP) size_t steps; /* so many STEPs the block has, with its head */
    size_t taken;
};

ASSERTED(sizeof(struct head) == STEP, "what stands behind a head is aligned as the head is");

#define STEPS (PCIPLAN_FIXED_BYTES / STEP)

static struct head heads[STEPS];
static uint8_t none;

static struct pciplan_tried refused(void)
{
    struct pciplan_tried t = {0, &none};
    return t;
}

/* How many STEPs a block of n bytes takes with its head, or 0 where the array has fewer. */
static size_t steps_for(size_t n)
{
    return n <= (STEPS - 1) * STEP ? 1 + n / STEP + (n % STEP != 0 || n == 0) : 0;
}

/* Joins the free blocks right behind a block to it. */
static void join(struct head *head)
{
    while (head + head->steps < heads + STEPS && !head[head->steps].taken)
        head->steps += head[head->steps].steps;
}

/* Takes the front of a block, and leaves the rest of it free. */
static struct pciplan_tried take(struct head *head, size_t steps)
{
    if (steps < head->steps) {
        head[steps].steps = head->steps - steps;
        head[steps].taken = 0;
        head->steps = steps;
    }
    head->taken = 1;
    struct pciplan_tried t = {1, head + 1};
    return t;
}

static void copy(uint8_t *to, const uint8_t *from, size_t n)
{
    for (size_t i = 0; i < n; i++)
        to[i] = from[i];
}

struct pciplan_tried rattle_alloc(size_t n, size_t align)
{
    size_t steps = steps_for(n);
    if (steps == 0 || align > STEP)
        return refused();
    if (heads->steps == 0)
        heads->steps = STEPS;
    for (struct head *head = heads; head < heads + STEPS; head += head->steps) {
        if (head->taken)
            continue;
        join(head);
        if (head->steps >= steps)
            return take(head, steps);
    }
    return refused();
}

struct pciplan_tried rattle_realloc(void *at, size_t kept, size_t n, size_t align)
{
    struct head *head = (struct head *)at - 1;
    size_t old = head->steps;
    size_t steps = steps_for(n);
    if (steps == 0)
        return refused();
    join(head);
    if (head->steps >= steps)
        return take(head, steps);
    take(head, old);
    struct pciplan_tried t = rattle_alloc(n, align);
    if (t.ok) {
        copy((uint8_t *)t.at, (const uint8_t *)at, kept < n ? kept : n);
        head->taken = 0;
    }
    return t;
}

void rattle_dealloc(void *at)
{
    ((struct head *)at - 1)->taken = 0;
}

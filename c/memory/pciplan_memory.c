/* The memory of the library, from malloc. */
#include "pciplan.h"

#include <stdlib.h>

static uint8_t none;

static struct pciplan_tried tried(void *at)
{
    struct pciplan_tried t = {at != NULL, at != NULL ? at : &none};
    return t;
}

/* malloc aligns to 16, and the library asks for no more. A block of no bytes still has a place of its own. */
struct pciplan_tried rattle_alloc(size_t n, size_t align)
{
    (void)align;
    return tried(malloc(n != 0 ? n : 1));
}

struct pciplan_tried rattle_realloc(void *at, size_t kept, size_t n, size_t align)
{
    (void)kept;
    (void)align;
    return tried(realloc(at, n != 0 ? n : 1));
}

void rattle_dealloc(void *at)
{
    free(at);
}

/* From power-on to a board whose devices have addresses, over the hooks of configuration access of pciplan_capture.h.
   Nothing uses the board's functions meanwhile. */
#include "pciplan.h"
#include "pciplan_apply.h"
#include "pciplan_capture.h"
#include "pciplan_number.h"

enum { FUNCTIONS = 64, TEXT = FUNCTIONS * PCIPLAN_CAPTURED, REGISTERS = FUNCTIONS * 10, WRITES = FUNCTIONS * 11 };

static uint8_t dump[TEXT], probe[TEXT];
static struct pciplan_write registers[REGISTERS], writes[WRITES];
static char line[PCIPLAN_LINE + 1];

static uint8_t *text; /* where the text goes that is captured */
static size_t used;

void pciplan_put(char character)
{
    if (used < TEXT)
        text[used] = (uint8_t)character;
    used++;
}

static size_t captured_dump(uint8_t first, uint8_t last)
{
    text = dump;
    used = 0;
    pciplan_capture_dump(first, last);
    return used;
}

static size_t captured_probe(uint8_t first, uint8_t last, uint16_t *unsized)
{
    text = probe;
    used = 0;
    *unsized = pciplan_capture_probe(first, last).count;
    return used;
}

static int is_list_of_roots(const uint8_t *roots, size_t roots_len)
{
    for (size_t r = 1; r < roots_len; r++)
        if (roots[r] <= roots[r - 1])
            return 0;
    return roots_len != 0;
}

/* Numbers the buses behind each root, below the next root. Whether each bridge has its numbers; *last is the greatest. */
static int number_all(const uint8_t *roots, size_t roots_len, uint8_t *last)
{
    for (size_t r = 0; r < roots_len; r++) {
        uint8_t end = r + 1 < roots_len ? (uint8_t)(roots[r + 1] - 1) : 0xff;
        struct pciplan_numbered numbered = pciplan_number(roots[r], end, 0);
        if (numbered.status != PCIPLAN_NUMBERED)
            return 0;
        *last = numbered.highest;
    }
    return 1;
}

/* What the library said: null at YES. */
static const char *said(uint8_t status, size_t length)
{
    if (status == PCIPLAN_MEMORY)
        return "there is no memory";
    if (status == PCIPLAN_SHORT)
        return "the plan has too many writes";
    line[length] = '\0';
    return status == PCIPLAN_YES ? NULL : line;
}

/* Puts the plan's writes, so many of them, onto the board that the dump is of. */
static const char *put(size_t of_dump, size_t count, size_t safe_from)
{
    struct pciplan_applied applied = pciplan_apply(dump, of_dump, registers, REGISTERS, writes, count);
    if (applied.status == PCIPLAN_YES)
        return NULL;
    return applied.made < safe_from ? "the plan isn't put, and a stop isn't safe yet" : "the plan isn't put";
}

/* Brings up the board behind these root buses, each above the one before it. Null where all went well, else what didn't: in
   a line with its end, what the library says of the board. */
const char *pciplan_bring_up(const uint8_t *roots, size_t roots_len, const struct pciplan_pools *pools)
{
    size_t of_dump, of_probe, count = 0, safe_from = 0, length = 0;
    uint8_t last = 0, status;
    const char *fault;
    uint16_t unsized;

    if (!pciplan_supported())
        return "the processor lacks instructions that the library needs";
    if (!is_list_of_roots(roots, roots_len))
        return "the list of root buses is empty or doesn't rise";
    if (!number_all(roots, roots_len, &last))
        return "a bridge has no bus numbers";

    of_dump = captured_dump(roots[0], last);
    if (of_dump == 0)
        return "no function answers: each Vendor ID reads FFFFh";
    of_probe = captured_probe(roots[0], last, &unsized);
    if (of_dump > TEXT || of_probe > TEXT)
        return "the board has too many functions";
    if (unsized != 0)
        return "a function goes on decoding while it is sized";

    status = pciplan_plan(dump, of_dump, probe, of_probe, roots, roots_len, pools, writes, WRITES, &count, &safe_from,
                          (uint8_t *)line, PCIPLAN_LINE, &length);
    fault = said(status, length);
    if (fault == NULL)
        fault = put(of_dump, count, safe_from);
    if (fault != NULL)
        return fault;

    of_dump = captured_dump(roots[0], last);
    status = pciplan_check(dump, of_dump, probe, of_probe, roots, roots_len, (uint8_t *)line, PCIPLAN_LINE, &length);
    return said(status, length);
}

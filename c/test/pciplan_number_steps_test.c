/* pciplan_number by the steps of the library, so that pciplan_number_told.c prints their writes and answers. */
#include <stdlib.h>

#include "pciplan_number.h"
#include "pciplan_number_steps.h"

enum { ROOM = 1 << 16 };

static struct pciplan_number_access log[ROOM];

struct pciplan_numbered pciplan_number(uint8_t root, uint8_t last, uint8_t spare)
{
    struct pciplan_numbered_by_steps by = pciplan_number_by_steps(root, last, spare, log, ROOM);
    struct pciplan_numbered answer = {PCIPLAN_NUMBERED, by.highest, by.bus, by.device, by.function, (uint16_t)by.writes, 0};

    if (by.status == PCIPLAN_NUMBER_ACCESS)
        exit(1);
    if (by.status == PCIPLAN_NUMBER_NO_BUS)
        answer.status = PCIPLAN_NO_BUS;
    if (by.status == PCIPLAN_NUMBER_STUCK)
        answer.status = PCIPLAN_STUCK;
    return answer;
}

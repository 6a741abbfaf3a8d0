/* See pciplan_number_steps.h. */
#include "pciplan_number_steps.h"

#include "pciplan_capture.h"

/* Makes an access by the hooks. A read keeps what it showed. */
static void make(struct pciplan_number_access *access)
{
    uint8_t device = access->place / 8, function = access->place % 8;

    if (access->kind == PCIPLAN_WRITE)
        pciplan_config_write(access->bus, device, function, access->offset, 1, access->value);
    else
        access->value = (uint8_t)pciplan_config_read(access->bus, device, function, access->offset, 1);
}

struct pciplan_numbered_by_steps pciplan_number_by_steps(uint8_t root, uint8_t last, uint8_t spare,
                                                         struct pciplan_number_access *log, size_t room)
{
    struct pciplan_numbered_by_steps answer = {PCIPLAN_NUMBER_ACCESS, 0, 0, 0, 0, 0, 0};
    struct pciplan_number_step step;

    for (;;) {
        answer.status = pciplan_number_step(log, answer.accesses, root, last, spare, &step);
        if (answer.status != PCIPLAN_NUMBER_ACCESS || step.used != answer.accesses || answer.accesses == room)
            break;
        log[answer.accesses] = step.access;
        make(&log[answer.accesses]);
        answer.writes += step.access.kind == PCIPLAN_WRITE;
        answer.accesses++;
    }
    if (answer.status == PCIPLAN_NUMBER_DONE || answer.status == PCIPLAN_NUMBER_NO_BUS)
        answer.highest = step.highest;
    if (answer.status == PCIPLAN_NUMBER_NO_BUS || answer.status == PCIPLAN_NUMBER_STUCK) {
        answer.bus = step.access.bus;
        answer.device = step.access.place / 8;
        answer.function = step.access.place % 8;
    }
    return answer;
}

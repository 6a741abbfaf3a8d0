#include "pciplan_apply.h"

#include "pciplan_capture.h"

/* Whether the function answers: where none does, its Vendor ID reads ones (PCI 3.0, 6.1). */
static uint8_t is_there(const struct pciplan_write *at)
{
    return pciplan_config_read(at->bus, at->device, at->function, 0x00, 2) != 0xffff;
}

/* Makes an access. What it shows; of a write that is of no matter. */
static uint32_t made(const struct pciplan_access *access)
{
    const struct pciplan_write *at = &access->at;

    if (access->kind != PCIPLAN_MAKE)
        return pciplan_config_read(at->bus, at->device, at->function, at->offset, at->width);
    pciplan_config_write(at->bus, at->device, at->function, at->offset, at->width, at->value);
    return at->value;
}

struct pciplan_applied pciplan_apply(const uint8_t *dump, size_t dump_len,
                                     struct pciplan_write *registers, size_t registers_len,
                                     const struct pciplan_write *writes, size_t writes_len)
{
    struct pciplan_access access;
    size_t compared;
    uint8_t status = pciplan_start(dump, dump_len, registers, registers_len, &compared);

    if (status != PCIPLAN_YES)
        return (struct pciplan_applied){.status = status};
    for (size_t n = 0; pciplan_step(registers, compared, writes, writes_len, n, &access); n++) {
        const struct pciplan_write *at = &access.at;
        uint8_t answered = is_there(at);
        uint32_t shown = answered ? made(&access) : 0;
        status = pciplan_judge(&access, answered, shown);
        if (status != PCIPLAN_YES)
            return (struct pciplan_applied){status, at->bus, at->device, at->function, at->offset, access.done};
    }
    return (struct pciplan_applied){.status = PCIPLAN_YES, .made = writes_len};
}

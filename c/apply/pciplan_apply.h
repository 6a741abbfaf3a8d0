/* Puts a plan onto a machine: pciplan_apply.c, over the hooks of configuration access of pciplan_capture.h. Which accesses
   are made and what follows from each is asked of the library, where it is proved; that each is made as the library says
   is what this file and the hooks are trusted with. Neither file needs a C library. */
#ifndef PCIPLAN_APPLY_H
#define PCIPLAN_APPLY_H

#include "pciplan.h"

#ifdef __cplusplus
extern "C" {
#endif

/* What came of it: PCIPLAN_YES, or why it ended.
   - PCIPLAN_REFUSED, PCIPLAN_MEMORY, PCIPLAN_SHORT: pciplan_start answered so, and no access was made.
   - PCIPLAN_FAULT_CHANGED: the register isn't as the plan starts from. Nothing was written.
   - PCIPLAN_FAULT_PORT: an access to it failed, as its function isn't there: its Vendor ID reads ones.
   - PCIPLAN_FAULT_STUCK: the last write, which is one of this register, reads back otherwise.
   The first `made` writes stand, and no other register was written. Slot and offset are told from PCIPLAN_FAULT_CHANGED on, and
   else 0. */
struct pciplan_applied {
    uint8_t status;
    uint8_t bus, device, function, offset;
    size_t made;
};

/* Compares what each register of this dump shows, which was planned, then makes the plan's writes in their order, and reads
   each one back before the next. It stops at the first that isn't as it should be. In registers it keeps what is compared:
   ten for a function are always enough. Nothing else may write these registers meanwhile, and nothing may use the
   functions. docs/APPLYING.md says what to do after each answer. */
struct pciplan_applied pciplan_apply(const uint8_t *dump, size_t dump_len,
                                     struct pciplan_write *registers, size_t registers_len,
                                     const struct pciplan_write *writes, size_t writes_len);

#ifdef __cplusplus
}
#endif

#endif

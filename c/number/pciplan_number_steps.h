/* Gives bus numbers to the bridges of a board that has none, by the proved routine of the library: pciplan_number_steps.c,
   over pciplan_number_step of pciplan.h and the two hooks of configuration access of pciplan_capture.h. It gives the numbers
   that pciplan_number.c gives, by the same writes. It needs memory for a log, and more time. */
#ifndef PCIPLAN_NUMBER_STEPS_H
#define PCIPLAN_NUMBER_STEPS_H

#include <stddef.h>
#include <stdint.h>

#include "pciplan.h"

#ifdef __cplusplus
extern "C" {
#endif

struct pciplan_numbered_by_steps {
    uint8_t status;                /* DONE, NO_BUS or STUCK of enum pciplan_number_answer; ACCESS where log has no more room */
    uint8_t highest;               /* at DONE and NO_BUS the greatest bus number given or kept free, root where none was */
    uint8_t bus, device, function; /* the bridge that is named at NO_BUS and STUCK, else 0 */
    size_t accesses, writes;       /* so many were made, and so many of them were writes */
};

/* Numbers the buses behind the host's bus root with root + 1 to last, as pciplan_number.h says. log has room for room
   accesses: some 130 for each bus that is looked at, and 3 for each function there. It never takes more than 3,841, and
   4,049 for each number from root + 1 to last. */
struct pciplan_numbered_by_steps pciplan_number_by_steps(uint8_t root, uint8_t last, uint8_t spare,
                                                         struct pciplan_number_access *log, size_t room);

#ifdef __cplusplus
}
#endif

#endif

/* Gives bus numbers to the bridges of a board that has none: pciplan_number.c, over the two hooks of configuration access
   of pciplan_capture.h. It needs no C library. Behind a bridge nothing answers before it is numbered, so this comes
   before capturing. */
#ifndef PCIPLAN_NUMBER_H
#define PCIPLAN_NUMBER_H

#include <stdint.h>

#ifdef __cplusplus
extern "C" {
#endif

enum pciplan_numbering {
    PCIPLAN_NUMBERED = 0, /* each bridge has its numbers */
    PCIPLAN_NO_BUS = 1,   /* they ran out: the named bridge is the first without; it and all after it forward nothing */
    PCIPLAN_STUCK = 2     /* a number of the named bridge read back otherwise than written; nothing more was written */
};

struct pciplan_numbered {
    uint8_t status;                /* of enum pciplan_numbering */
    uint8_t highest;               /* the greatest bus number given or kept free, root where none was */
    uint8_t bus, device, function; /* the bridge that is named at NO_BUS and STUCK, else 0 */
    uint16_t writes;               /* so many were made */
    uint16_t safe_from;            /* after so many or more a stop is safe, as below; above writes where that wasn't reached */
};

/* Numbers the buses behind the host's bus root, depth first in the order of slots, with root + 1 to last. Of each bridge
   primary, secondary and subordinate bus (bytes 18h to 1Ah; PCI-to-PCI Bridge 1.2, 3.2.5.2 to 3.2.5.4) are written, one
   byte at a time, only where that changes them, and each is read back; nothing else is written. Behind a bridge with a
   hot-plug slot (PCI Express, or SHPC) spare numbers are kept free, as far as there are any. CardBus bridges (header
   type 2) are left as they are. With several host buses call it for each, with last below the next one.

   First the bridges of the root bus are made to forward nothing: that is safe_from writes. From then on, and from the
   first write on where that held before, at most one function answers each configuration access behind root, wherever
   it stops, if each number is taken or left as it was. Meanwhile nothing may use what is behind the bridges, and no
   other access may come between. It keeps a list of the bridges above, 255 of them at most, and calls nothing that calls
   itself: 1 KB of stack is enough, and what the hooks need; c/test.sh measures it. */
struct pciplan_numbered pciplan_number(uint8_t root, uint8_t last, uint8_t spare);

#ifdef __cplusplus
}
#endif

#endif

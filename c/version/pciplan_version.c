/* The version of the library, as its header named it when this was compiled. */
#include "pciplan.h"

uint32_t pciplan_version(void)
{
    return PCIPLAN_VERSION;
}

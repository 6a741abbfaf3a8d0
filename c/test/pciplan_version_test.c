/* Prints the version that the library answers, as 0.5.0. */
#include "pciplan.h"

#include <stdio.h>

int main(void)
{
    uint32_t version = pciplan_version();

    if (version != PCIPLAN_VERSION)
        return 1;
    printf("%u.%u.%u\n", (unsigned)(version >> 16), (unsigned)(version >> 8 & 0xff), (unsigned)(version & 0xff));
    return 0;
}

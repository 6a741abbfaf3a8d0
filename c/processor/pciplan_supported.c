/* Whether this processor has the instructions that the library is built of: those of x86-64-v2. */
#include "pciplan.h"

#include <cpuid.h>

/* Bits that `cpuid` answers (Intel SDM, volume 2A, CPUID; AMD APM, volume 3, appendix E). */
enum {
    SSE3 = 1 << 0, SSSE3 = 1 << 9, CMPXCHG16B = 1 << 13, SSE4_1 = 1 << 19, SSE4_2 = 1 << 20, POPCNT = 1 << 23,
    LAHF = 1 << 0,
    IN_ECX = SSE3 | SSSE3 | CMPXCHG16B | SSE4_1 | SSE4_2 | POPCNT
};

uint8_t pciplan_supported(void)
{
    unsigned eax, ebx, ecx, edx;

    if (!__get_cpuid(1, &eax, &ebx, &ecx, &edx) || (ecx & IN_ECX) != IN_ECX)
        return 0;
    return __get_cpuid(0x80000001, &eax, &ebx, &ecx, &edx) && (ecx & LAHF) != 0;
}

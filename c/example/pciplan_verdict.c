/* Prints the verdict on two texts, where the one root bus is 0: pciplan_verdict DUMP PROBE. Its status is that of the
   program's `check`. */
#include "pciplan.h"

#include <stdio.h>

enum { TEXT = 1042 * 256 };

static uint8_t dump[TEXT], probe[TEXT], line[PCIPLAN_LINE];

static size_t text_of(const char *name, uint8_t *text)
{
    FILE *file = fopen(name, "rb");
    size_t length = file != NULL ? fread(text, 1, TEXT, file) : 0;

    if (file != NULL)
        fclose(file);
    return length;
}

int main(int argc, char **argv)
{
    static const uint8_t roots[] = {0};
    size_t used = 0;
    uint8_t status;

    if (argc != 3 || !pciplan_supported())
        return PCIPLAN_REFUSED;
    status = pciplan_check(dump, text_of(argv[1], dump), probe, text_of(argv[2], probe), roots, sizeof roots,
                           line, sizeof line, &used);
    printf("%.*s%s", (int)used, (const char *)line, status == PCIPLAN_REFUSED ? "\n" : "");
    return status;
}

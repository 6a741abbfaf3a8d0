/* Prints the dump and the probe of a machine, from its firmware or a hypervisor: pciplan_capture.c, with these three hooks.
   Neither file needs a C library. */
#ifndef PCIPLAN_CAPTURE_H
#define PCIPLAN_CAPTURE_H

#include <stdint.h>

#ifdef __cplusplus
extern "C" {
#endif

/* The hooks, which the caller defines: a configuration access of 1, 2 or 4 bytes at an offset that is a multiple of its
   width (a function that isn't there reads as ones), and one more character of the text. */
uint32_t pciplan_config_read(uint8_t bus, uint8_t device, uint8_t function, uint8_t offset, uint8_t width);
void pciplan_config_write(uint8_t bus, uint8_t device, uint8_t function, uint8_t offset, uint8_t width, uint32_t value);
void pciplan_put(char character);

/* Of each text so many characters for a function. */
#define PCIPLAN_CAPTURED 841

/* Puts the text of the dump of buses first to last: 256 bytes of each function that is there, without titles. It writes
   no register. Behind a bridge without bus numbers nothing answers, so these come first (pciplan_number.h). */
void pciplan_capture_dump(uint8_t first, uint8_t last);

/* The functions that weren't sized: how many, and the first of them, 0 where there is none. */
struct pciplan_unsized {
    uint16_t count;
    uint8_t bus, device, function;
};

/* Puts the text of their probe: what each address register reads back after ones were written to it. Of one function
   after the other, Command bits 0 and 1 are cleared, each address register is read, written with ones, read back and
   written with its old value, and Command is put back. Meanwhile nothing may access the function's BARs or what is
   behind its windows, and no access of another processor may come between.

   Where one of the two bits of Command stays set, as it is wired on in some host bridges, the function goes on decoding:
   its address registers aren't written, and its block has zeros in their place. What is said of the machine then is said
   as if this function had no BAR, ROM or optional window: a caller has to know that it has none. */
struct pciplan_unsized pciplan_capture_probe(uint8_t first, uint8_t last);

#ifdef __cplusplus
}
#endif

#endif

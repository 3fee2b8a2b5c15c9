/* The machine below the kernel: a serial line, a disk, and what the library asks of its program. */
#ifndef MACHINE_H
#define MACHINE_H

#include <stdint.h>

#include "xvfs_host.h"

/* Writes to the serial line. */
void print(const char *text);
void print_number(uint64_t number);

/* Says on the serial line why the kernel can't go on, and halts. */
_Noreturn void halt(const char *why, uint64_t number);

/* The first disk of the IDE controller, by its ports. */
extern const xvfs_device disk;

/* How many bytes of the heap were taken at once at most. */
uint64_t most_of_heap(void);

#endif

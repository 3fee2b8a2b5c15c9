/* A small teaching kernel over the library: up to 8 processes, each a thread, with system calls over
 * one directory, and a file as the disk. See kernel.c. */
#ifndef KERNEL_H
#define KERNEL_H

#include <stdint.h>

#define PROCESSES 8u
#define NAME_BYTES 14u /* of a name in the directory, as in xv6; a shorter one ends with a 0 */

/* Opens the disk, and makes an image on it where it has none. Ends the program where it can't. From
 * then on the calling thread is the one that makes the library's calls. */
void kernel_boot(const char *disk);

/* Serves the processes' system calls for ever. */
void kernel_serve(void);

/* Closes the disk. What is committed stays. */
void kernel_halt(void);

/* The system calls of a process from 0 to 7. One that changes the disk is answered once no stop can
 * lose it. The thread that booted may make them too, as long as it doesn't serve. */

/* The number of the file with this name, which is made if there is none; -1 where that can't be. */
int sys_creat(uint32_t process, const char *name);

/* The number of the file with this name, or -1. */
int sys_open(uint32_t process, const char *name);

/* Writes up to 3072 bytes from a place on, all of them or none: how many, or -1. */
int sys_write(uint32_t process, int file, uint32_t offset, const void *bytes, uint32_t count);

/* Reads up to 3072 bytes from a place on: how many there are, or -1. */
int sys_read(uint32_t process, int file, uint32_t offset, void *bytes, uint32_t count);

/* Removes a name and its file: 0, or -1 where there is none. */
int sys_unlink(uint32_t process, const char *name);

#endif

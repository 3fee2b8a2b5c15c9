/*
 * What the files of the hostile client may have. Each process has a file of its own, which it alone
 * changes: the second implementation makes its operations, one after the other, in a small image. A few
 * files are shared: each write of one is of a whole record with a number, and of these the moments of
 * beginnings and answers tell which may be there. The others any process makes, changes and removes; of
 * them only the soundness of the image is asked.
 */
#ifndef FILES_H
#define FILES_H

#include "xvfs.h"

#define FILES_PROCESSES 32u
#define FILES_INODES 50u

/* Makes the own and the shared files in a new image. */
void files_start(uint8_t *image);

/* Thinks of an operation of a process: how many bytes it writes. */
size_t files_think(uint32_t pid, xvfs_op *op, uint8_t *bytes);

/* That operation was handed in. How many of the process's were, in this session, and how many of these are
 * not answered. */
void files_hand(uint32_t pid);
uint64_t files_count(uint32_t pid);
unsigned files_left(uint32_t pid);

/* The process's next operation begins. */
void files_begin(uint32_t pid);

/* The process's next operation is answered, with bytes if it is a read: as it has to be. */
void files_answer(uint32_t pid, const xvfs_answer *answer, const uint8_t *bytes);

/* So many groups are committed. */
void files_commit(uint64_t groups);

/* Whether the files of a recovered image are those of the committed groups (1), of one group more (2), or
 * could be both (3); 0 where they are neither's. */
unsigned files_judge(uint8_t *image);

/* Another session begins over an image, after what `files_judge` said. */
void files_restart(uint8_t *image, unsigned judged);

#endif

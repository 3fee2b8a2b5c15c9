/*
 * A second implementation of what xvfs.h and docs/FORMAT.md say, of which no line is of the first: images,
 * their check and recovery, and each operation, made whole in the image itself. It has no log, no session
 * and no steps. Where the library committed all that it answered, the library's device has the same bytes,
 * but for those of logged blocks.
 */
#ifndef SECOND_H
#define SECOND_H

#include "xvfs.h"

/* The results of xvfs_mkfs but XVFS_E_MKFS_MEMORY. */
xvfs_result second_mkfs(uint8_t *image, size_t len, uint32_t ninodes, uint32_t form);

/* The results of xvfs_check but XVFS_E_CHECK_MEMORY, and what that writes to `out`. */
xvfs_result second_check(const uint8_t *image, size_t len, xvfs_report *out);

/* Recovers an image of which the check has no fault: how many blocks were copied home. */
uint32_t second_recover(uint8_t *image);

/* Makes an operation in an image that is sound, and has an empty log. `out` is what xvfs_poll gives, but
 * for number and group, and `into` has XVFS_TRANSFER bytes, for those of a read. */
void second_call(uint8_t *image, const xvfs_op *op, const uint8_t *bytes, size_t len, xvfs_answer *out,
                 uint8_t *into);

#endif

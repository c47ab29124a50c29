/* What the kernel is told of a body, and changes of it. */
#ifndef ATTRIBUTES_H
#define ATTRIBUTES_H
#include "bodies.h"
#include <fuse_lowlevel.h>

void attributes_of(struct body *body, struct stat *attributes);

/* With timeouts of 0, so that the kernel keeps nothing. */
struct fuse_entry_param entry_of(struct body *body);

/* `set` has FUSE_SET_ATTR_ bits, and `by` is who sets them. */
void set_attributes(struct body *body, const struct stat *wanted, int set, uid_t by);

/* The mode of a file that was written to by another than root, or got another owner: it sets no identity any more. */
mode_t mode_behind_change(mode_t mode);

/* Of a body that is locked, whose bytes somebody changes. */
void written_by(struct body *body, uid_t by);

#endif

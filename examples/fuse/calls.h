/* The calls by which libfuse answers the kernel. Their data is the set of signals at each of which they tell. */
#ifndef CALLS_H
#define CALLS_H
#include <fuse_lowlevel.h>

extern const struct fuse_lowlevel_ops calls;

/* Tells on standard error how look-ups were answered, and how many pages and inodes there are. */
void tell(void);

#endif

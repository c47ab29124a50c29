/* Tests of owners and modes, of a mount for which the kernel makes none. Until modes_begin each says yes.
 *
 * What answers an `int` answers 0, EACCES or EPERM, or ESTALE if an inode is none any more. Each test comes before the call
 * that it is for: so who may not search a directory isn't told whether a name stands there.
 */
#ifndef MODES_H
#define MODES_H
#include <fuse_lowlevel.h>
#include <stdbool.h>

/* Once, before all else. Whether it was. */
void modes_begin(void);
bool modes_are_tested(void);

/* Tells on standard error how many tests there were, and how many refused. */
void modes_tell(void);

/* Whether the caller may look a name up in a directory; give it a name; take one away. */
int modes_search(fuse_req_t request, fuse_ino_t directory);
int modes_make(fuse_req_t request, fuse_ino_t directory);
int modes_take(fuse_req_t request, fuse_ino_t directory, const char *name);
int modes_move(fuse_req_t request, fuse_ino_t old_directory, const char *old_name, fuse_ino_t directory, const char *name,
               unsigned flags);

/* Whether it may open what has a number, with flags of open; access it, with a mask of access. */
int modes_open(fuse_req_t request, fuse_ino_t number, int flags);
int modes_access(fuse_req_t request, fuse_ino_t number, int mask);

/* Whether it may set attributes, of FUSE_SET_ATTR_ bits. Takes from a mode the bit that it may not set. */
int modes_set(fuse_req_t request, fuse_ino_t number, struct stat *wanted, int set, bool is_open);

#endif

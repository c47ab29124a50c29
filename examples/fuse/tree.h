/* The library's tree, by numbers of directories and names in them, and the bodies of its inodes. Each thread that calls
 * gets a pass of its own. What answers an `int` answers 0, or a number of errno.
 */
#ifndef TREE_H
#define TREE_H
#include "bodies.h"

/* How many inodes may live, and the bytes of the longest name and path. */
enum { TREE_INODES = 262144, LONGEST_NAME = 255, LONGEST_PATH = 4095 };

/* How many entries a page has at most. */
enum { TREE_PAGE = 256 };

/* Once, before all else, and after all: then no thread but this one has a pass. */
int tree_begin(void);
void tree_end(void);

/* Tells on standard error how look-ups were answered so far, and how many other calls there were. Not after tree_end. */
void tree_tell(void);

/* Each body is for the caller to let go. */
int tree_look(uint64_t parent, const char *name, struct body **body);
/* `text` is a link's, of others NULL. */
int tree_make(mode_t mode, uid_t owner, gid_t group, uint64_t parent, const char *name, const char *text,
              struct body **body);
int tree_unlink(uint64_t parent, const char *name);
int tree_rmdir(uint64_t parent, const char *name);
/* The flags have the kernel's numbers. */
int tree_rename(uint64_t old_parent, const char *old_name, uint64_t parent, const char *name, unsigned flags);
/* `body` is then the one that got the name. */
int tree_link(uint64_t number, uint64_t parent, const char *name, struct body **body);

/* A link's text: from the library if the name under which it was found last leads to it, else the body's copy. The room
 * takes the longest path, and a zero byte behind it. */
void tree_readlink(struct body *body, char *text);

/* Up to `room` entries of a directory behind a name, or from the first on if that is empty: those of one moment. */
struct gb_entry;
int tree_page(uint64_t directory, const char *after, struct gb_entry *entries, size_t room, size_t *count);

/* The body of an entry of a page, for the caller to let go; NULL if it has gone since. */
struct body *tree_listed(uint64_t directory, const struct gb_entry *entry);

/* The directory above one, the root above the root. */
uint64_t tree_above(uint64_t directory);

#endif

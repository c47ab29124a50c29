/* What the timing program asks of a peer: a tree of names, look-ups of paths in it, and changes of names.
 *
 * Paths are absolute, end in a zero byte, and stay where they are until the program ends, so a peer may keep them. */
#ifndef PEER_H
#define PEER_H
#include <stddef.h>

extern const char *const peer_name;

/* Begins with the root directory alone. */
void peer_begin(void);

/* What a thread calls before all else, and after it. */
void peer_enter(void);
void peer_leave(void);

/* Makes a directory ('d') or a file ('f'), and answers whether it could. */
int peer_make(char kind, const char *path);

/* Makes a link with a text, which stays where it is too, and answers whether it could. Only a peer that follows links
 * has it. */
int peer_link(const char *text, const char *path) __attribute__((weak));

/* Renames a file to a name that is absent, and unlinks one. They answer whether they could. */
int peer_rename(const char *old, const char *new);
int peer_unlink(const char *path);

/* Whether the path leads somewhere. Threads call this and the changes at the same time. */
int peer_look(const char *path, size_t length);

/* Removes what it made. */
void peer_end(void);

#endif

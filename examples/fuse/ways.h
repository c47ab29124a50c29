/* Paths from the nearest directory above two others to names in these. Directories know the one above and their name there
 * by their bodies. Nobody may rename one meanwhile.
 */
#ifndef WAYS_H
#define WAYS_H
#include "tree.h"

struct way {
    uint64_t base; /* where both paths start */
    const char *old_path, *path;
    char old_room[LONGEST_PATH + 1], room[LONGEST_PATH + 1];
};

/* Answers 0, ENAMETOOLONG, or ESTALE if one of the directories has gone. */
int way_find(struct way *way, uint64_t old_parent, const char *old_name, uint64_t parent, const char *name);

#endif

/* Gigbewu: a tree of file names in memory, with a cache of directory entries in front of it. For C11 and C++.
 *
 *     #include <gigbewu.h>
 *     #include <stdio.h>
 *     int main(void)
 *     {
 *         struct gb_gate gate = gb_gate_new();
 *         struct gb_pass pass = {0};
 *         struct gb_found found = {0};
 *         gb_cache_new(1024, 1000, &pass); // 1,024 buckets of four rows, up to 1,000 inodes
 *         gb_mkdir(&gate, &pass, GB_ROOT, "/a", 2, &found);
 *         int answer = gb_look(&gate, &pass, GB_ROOT, "/a", 2, GB_FOLLOW, &found);
 *         printf("%d: inode %d\n", answer, (int)found.number); // 0: inode 2
 *         return gb_close(&pass);
 *     }
 *
 * The tree has directories, files and symbolic links: names and inode numbers, no bytes of files. It begins with the
 * root, directory 1. Only the calls below change it. The cache has rows, each of which says where one name in a
 * directory leads, or that there is no such name. A look-up reads rows without a lock, and at its end checks that none
 * of those it used has changed.
 *
 * You want                                     Call
 * to look a path up                            gb_look; gb_look_fast if it may not wait
 * the same in one call, quicker if many miss   gb_resolve; gb_try_resolve if it may not wait
 * how many names it has; a link's text; a list gb_stat; gb_readlink; gb_list
 * the path of a directory, by its number       gb_path_of
 * to test search permission along a path       gb_look_along; gb_look_fast_along if it may not wait
 * a large directory, some entries at a time    gb_entries
 * to change the tree                           gb_mkdir, gb_create, gb_symlink, gb_link, gb_unlink, gb_rmdir, gb_rename
 * the same, but never to wait                  gb_try_stat, gb_try_mkdir, .. (GB_BUSY: another pass has the lock)
 * a pass for one more thread                   gb_pass_split
 * to see a change that another thread reports  gb_learn
 * to know whether the cache has too few rows   gb_counts, gb_rows_in_use; gb_look_counting, how look-ups were answered
 *
 * Each thread calls with a pass of its own. gb_cache_new makes the first one, gb_pass_split one more. A cache lives
 * until its last pass is closed. A pass weighs 43 KB, and a split takes 20 to 70 microseconds: keep one for each thread
 * rather than one for each request.
 *
 * No function of the library sleeps. One that needs the lock tries for it once; if another pass has the lock, it first
 * watches it for a few microseconds. If the lock is held still, it answers GB_BUSY: then the tree is as it was, and the
 * call has no answer. The blocking forms at the end of this file (gb_look, gb_mkdir, ..) try again, and sleep
 * meanwhile. Most calls have the lock for a microsecond or less. The longest path, through 40 links whose texts have
 * 4,090 bytes each, takes 10 to 20 milliseconds under it, a rename with two such paths 20 to 50, and a list of a
 * million names 200 to 500, while others wait: if you don't trust those who make links, refuse long texts.
 *
 * A path is `len` bytes, without a zero byte at its end. `base` is the number of the directory from which a relative
 * path starts. Names have up to 255 bytes, paths up to 4,095, and one path may pass 40 links. Names may come from
 * anybody: any bytes are safe, and none lead to a wrong answer. However the names were chosen, the comparisons that a
 * search in a directory makes grow with the logarithm of the number of its names, and those of a search for an inode
 * with that of the number of inodes. Names that somebody chose to fall into one bucket push out each other's rows and
 * those of other names there, so that look-ups of all these take the lock; giving each user a cache keeps that from the
 * others.
 *
 * Rules:
 *
 *   - Call from any thread at any time, but use a pass in one call at a time. Two calls at once with one pass may
 *     corrupt memory. Some such calls answer GB_BAD_PASS, others go unnoticed.
 *   - Hand a pass to another thread through a lock, at a thread's start or end, or through a seq_cst atomic.
 *   - Don't copy a pass. A closed pass is blank, and using it answers GB_BAD_PASS; a copy made before isn't blank, and
 *     using it is an error that goes unnoticed.
 *   - Don't join passes of two caches. That is usually, not always, reported: see gb_pass_join.
 *   - Pointers must not be null, even with length 0. Each points to as many bytes as the call says, and nobody else may
 *     write these during the call. If a call writes through one of its pointers, no other pointer of that call may
 *     point to the same bytes.
 *
 * What is proved: the library as it is written in Rattle, if you keep these rules. Each function is safe and ends.
 * Whatever the schedule of the threads, each call that answers 0 or a refusal takes effect at one moment between its
 * start and its return, and its answer is the one that the tree of that moment gives. In the order of these moments,
 * all answers are those of a single thread. The comment of each function says what else is proved of it, and what is
 * only tested. docs/PROMISES.md has the clauses. Not proved: this file, the compiler, the C library.
 */
#ifndef GIGBEWU_H
#define GIGBEWU_H

#include <stddef.h>
#include <stdint.h>

#ifdef __cplusplus
extern "C" {
#endif

/* A thread's way into a cache. Zero bytes are a blank pass: `struct gb_pass pass = {0};` */
struct gb_pass {
    void *at;
};

/* The root's number. */
enum { GB_ROOT = 1 };

/* What a call answers: 0 if it is done. Above 0 it is a refusal of the tree, by Linux's number: EPERM 1, ENOENT 2,
 * EBUSY 16, EEXIST 17, ENOTDIR 20, EISDIR 21, EINVAL 22, ENOSPC 28, EMLINK 31, ENAMETOOLONG 36, ENOTEMPTY 39, ELOOP 40.
 * Below 0 it is one of these, and the tree is as it was. */
enum {
    GB_BUSY = -1,         /* another pass had the lock at some moment of this call: try again */
    GB_AGAIN = -2,        /* the rows don't answer; `why` says why not */
    GB_NO_MEMORY = -3,    /* malloc refused what the call needed */
    GB_SPENT = -4,        /* 2^62 changes were made, and no more can be; look-ups go on */
    GB_BAD_SIZE = -5,     /* gb_cache_new, gb_cache_with_names take no such number of buckets or inodes */
    GB_BAD_PASS = -6,     /* a blank pass for an open one, an open one for a blank one, or one of another cache */
    GB_BAD_ARGUMENT = -7, /* `follow` or `flags` is none of the numbers below; too little room; no name */
    GB_NOT_YET = -8,      /* gb_learn: not that many changes have been made */
    GB_NO_ROOM = -9       /* gb_look_along: the trail has more directories than there are places */
};

/* The most bytes that a path has, and so the least room that gb_path_of takes. */
enum { GB_PATH_MOST = 4095 };

/* What a number names. */
enum { GB_DIR = 1, GB_FILE = 2, GB_LINK = 3 };

/* What becomes of a symbolic link at a path's end. GB_FOLLOW: it is followed. GB_NO_FOLLOW: it is kept, unless a slash
 * is behind it. GB_DIRECTORY: it is followed, and has to lead to a directory. Links before the end are always
 * followed. */
enum { GB_FOLLOW = 0, GB_NO_FOLLOW = 1, GB_DIRECTORY = 2 };

/* Flags of gb_rename, as Linux's renameat2 has them. GB_NO_REPLACE: nothing may stand at the new name. GB_EXCHANGE: the
 * two names swap what they name. Both together are refused with EINVAL. */
enum { GB_NO_REPLACE = 1, GB_EXCHANGE = 2 };

/* Why gb_look_fast, gb_look_fast_along or gb_readlink_fast answered GB_AGAIN. */
enum {
    GB_WHY_NONE = 0,
    GB_WHY_MISS = 1,    /* no row tells of a name that is asked for */
    GB_WHY_BUSY = 2,    /* a row was being changed */
    GB_WHY_CHANGED = 3, /* a row that was used has changed since */
    GB_WHY_LONG = 4,    /* more rows would be used than can be noted */
    GB_WHY_LINK = 5     /* no row has the text of a link */
};

/* What was found. With answer 0 every member holds; with a refusal only `at` does (and `count`, of calls that report a
 * trail), with GB_AGAIN only `why`. A member that doesn't hold is 0. GB_BAD_PASS and GB_BAD_ARGUMENT leave this and all
 * else that a call may write to as it was. */
struct gb_found {
    uint64_t number; /* what the path leads to; the inode that a change made, or gb_link gave a name; else 0 */
    uint64_t count;  /* how many names, entries, bytes or directories, as the call says; else 0 */
    uint64_t at;     /* how many changes came before the moment of this answer */
    uint32_t kind;   /* GB_DIR, GB_FILE, GB_LINK; for changes 0 */
    uint32_t why;    /* GB_WHY_NONE, or the cause of GB_AGAIN */
};

/* An entry of a directory, as gb_entries writes it: 272 bytes, whatever the length of its name. */
struct gb_entry {
    uint64_t number; /* the inode that the name leads to */
    uint32_t kind;   /* GB_DIR, GB_FILE, GB_LINK */
    uint32_t length; /* how many bytes the name has, at most 255 */
    char name[256];  /* the name, with zero bytes behind it */
};

/* What a change took away, so that you can let go of what you keep by inode number: the number and kind of what stood
 * at the name, and `last`, which is 1 if that was its last name (numbers are never used again). It is read under the
 * same hold of the lock, from the tree that the change was then made on. All 0 if nothing went, and so with a refusal
 * and with GB_BUSY; GB_BAD_PASS and GB_BAD_ARGUMENT leave it as it was. */
struct gb_gone {
    uint64_t number;
    uint32_t kind;
    uint32_t last;
};

/* Makes a cache and opens its first pass. `buckets`, of four rows each, is a power of two from 1 to 4,194,304. `inodes`
 * is how many may live at once, the root among them, from 1 to 4,294,967,296. A name that is looked up takes a row:
 * with twice as many rows as such names 3 or 4 look-ups in 100 miss, with four times as many 1. A row weighs 387
 * bytes, and 31 more once it is filled; a name of more than 16 bytes adds its own bytes and some 15. This call takes
 * the memory of all rows, and until it returns 260 bytes more for each: 4,194,304 buckets take 6.5 GB, and 10.9
 * meanwhile.
 * In the tree a name of up to 16 bytes weighs some 70 bytes, a longer one its own and some 90 more, and each some 35
 * more if names are made in rising order; an inode takes memory when it is made. There may be twice as many names as
 * inodes, in all directories together.
 * The pass must be blank, and no other thread may have its address yet.
 * Proved: the cache is of these sizes, and `blank` is its first pass then.
 * Answers 0, GB_NO_MEMORY, GB_BAD_PASS if the pass is open, GB_BAD_SIZE exactly if the sizes are others. */
int gb_cache_new(uint64_t buckets, uint64_t inodes, struct gb_pass *blank);

/* Makes a cache as gb_cache_new does, in which there may be at most `names` names: a make or a gb_link past that
 * answers GB_NO_MEMORY and changes nothing. A file may have 65,000 names, so without this limit a few inodes could take
 * any amount of memory: 65 inodes with all their names take over 1 GB. UINT64_MAX sets no limit.
 * Proved: what is proved of gb_cache_new. That the limit is kept is tested.
 * Answers as gb_cache_new does. */
int gb_cache_with_names(uint64_t buckets, uint64_t inodes, uint64_t names, struct gb_pass *blank);

/* Opens one more pass of the cache of `pass`, for any thread. It has seen what `pass` has seen, and gets no older
 * answer. The thread that has `pass` makes the call, and hands the new one over. Takes no lock.
 * Proved: the new pass has seen what `pass` has, and each has half of the share of the cache that `pass` had.
 * Answers 0, GB_NO_MEMORY, GB_BAD_PASS. */
int gb_pass_split(struct gb_pass *pass, struct gb_pass *blank);

/* Closes `other`, and `pass` has then seen what either has seen. The thread that calls has both, and they are of one
 * cache: passes of two caches are refused with GB_BAD_PASS, unless other passes of the second cache are being joined in
 * another thread at that moment; then `other` may be closed all the same.
 * Proved: either both passes are as they were, or `other` is blank. That two of one cache are joined is tested.
 * Answers 0, GB_BAD_PASS. */
int gb_pass_join(struct gb_pass *pass, struct gb_pass *other);

/* Closes a pass, which is blank then. The last pass of a cache ends it, its tree and all its memory. Make sure that
 * what other threads did with the cache comes before, as by pthread_join. Takes no memory.
 * Proved: an open pass is blank then. That all memory is given back is tested.
 * Answers 0, GB_BAD_PASS. */
int gb_close(struct gb_pass *pass);

/* Looks a path up by the rows alone. It takes no lock and no memory, never waits, and makes a bounded number of loads.
 * If it answers GB_AGAIN, gb_try_look answers.
 * Proved: the answer, that it tries for no lock, the bound, and the reason that `why` gives. It is handed no allocator,
 * and a test counts malloc.
 * Answers 0 with number and kind, a refusal, GB_AGAIN, GB_BAD_PASS, GB_BAD_ARGUMENT. */
int gb_look_fast(struct gb_pass *pass, uint64_t base, const char *path, size_t len, uint32_t follow,
                 struct gb_found *found);

/* Looks a path up by the rows alone, as gb_look_fast, or else under the lock, for which it tries once. Under the lock
 * the rows that it has just read answer again if none of them has changed; the tree answers for the names that follow,
 * and their rows are filled for the next look-up as far as there is memory. So a miss is quicker than by gb_look_fast
 * and gb_try_look, which asks the tree for the whole path. It never answers GB_NO_MEMORY. A text that is no path is
 * refused without the lock.
 * Proved: the answer. That rows are asked first, and filled, is tested.
 * Answers 0 with number and kind, a refusal, GB_BUSY, GB_BAD_PASS, GB_BAD_ARGUMENT. */
int gb_try_resolve(struct gb_pass *pass, uint64_t base, const char *path, size_t len, uint32_t follow,
                   struct gb_found *found);

/* Looks a path up under the lock, for a caller whose gb_look_fast has answered GB_AGAIN, and fills rows for the next
 * look-up as far as there is memory. It never answers GB_NO_MEMORY. A text that is no path is refused without the lock.
 * Proved: the answer. That rows are filled is tested.
 * Answers 0 with number and kind, a refusal, GB_BUSY, GB_BAD_PASS, GB_BAD_ARGUMENT. */
int gb_try_look(struct gb_pass *pass, uint64_t base, const char *path, size_t len, uint32_t follow,
                struct gb_found *found);

/* Looks a path up as gb_try_resolve does, and reports its trail: the directories in which the path asks for a name or
 * for dot-dot, up to where it ends. Each is listed once, in the order in which they are first asked. `/a/../b` asks in
 * the root, in a, and in the root again: its trail is 1 and the number of a. The trail has what the texts of links lead
 * through too, and a path that is refused has one as well. A relative path first asks whether `base` lives, so its
 * trail begins with `base`. A dot asks nothing, nor does the root's dot-dot. Writes the trail into `trail`, which has
 * room for `places` numbers. `count` is how many the trail has, also with a refusal.
 * It is for a caller that keeps modes by inode number: test search permission in each directory of the trail, and only
 * then hand the answer on. If one may not be searched, POSIX wants EACCES, even if the tree refuses the path for a name
 * further on, as with ENOENT.
 * Without a link on its way, a path of n names and dot-dots has at most n directories in its trail, or one if n is 0.
 * If there are more than `places`, the answer is GB_NO_ROOM: ask again with more. After that and after GB_BUSY what
 * stands in `trail` is no trail. A text that is no path is refused without the lock, and has no trail.
 * The rows are asked first, without the lock. If they don't answer, it tries for the lock once, asks the tree for the
 * whole path, and fills its rows for the next look-up as far as there is memory. It never answers GB_NO_MEMORY.
 * Under the lock others wait while each directory is compared with those before it, so the time grows with the square
 * of the trail's length. Through 40 links whose texts have 4,090 bytes each a path may ask in 80,000 directories; with
 * 2,048 places none takes longer than some 50 to 70 milliseconds.
 * Proved: number, kind and trail are those of one moment, and with GB_NO_ROOM the trail has more than `places`. What
 * stands in `trail` behind the trail's end may change, up to `places` and no further. That rows are asked first, and
 * filled, is tested.
 * Answers 0 with number and kind, a refusal, GB_BUSY, GB_NO_ROOM, GB_BAD_PASS, GB_BAD_ARGUMENT. */
int gb_try_look_along(struct gb_pass *pass, uint64_t base, const char *path, size_t len, uint32_t follow,
                      uint64_t *trail, size_t places, struct gb_found *found);

/* Looks a path up by the rows alone, and reports its trail as gb_try_look_along does, under the terms of gb_look_fast:
 * no lock, no memory, no wait, and a bounded number of loads. If it answers GB_AGAIN or GB_NO_ROOM, what stands in
 * `trail` is no trail, and gb_try_look_along answers.
 * GB_NO_ROOM says that, by the rows that it read, the trail has more directories than `places`. It doesn't check then
 * whether these rows have changed meanwhile, so `places` may still be enough: gb_try_look_along says it exactly.
 * Proved: as of gb_look_fast, and number, kind and trail are those of one moment. What stands in `trail` behind the
 * trail's end may change, up to `places` and no further.
 * Answers 0 with number and kind, a refusal, GB_AGAIN, GB_NO_ROOM, GB_BAD_PASS, GB_BAD_ARGUMENT. */
int gb_look_fast_along(struct gb_pass *pass, uint64_t base, const char *path, size_t len, uint32_t follow,
                       uint64_t *trail, size_t places, struct gb_found *found);

/* The number and kind of what a path leads to, with a last link followed; `count` is how many names it has, or for a
 * directory how many entries. Takes the lock, and no memory.
 * Proved: all three are those of one moment.
 * Answers 0, a refusal, GB_BUSY, GB_BAD_PASS. */
int gb_try_stat(struct gb_pass *pass, uint64_t base, const char *path, size_t len, struct gb_found *found);

/* What the rows alone say of a readlink, under the terms of gb_look_fast: no lock, no memory, no wait. If the path
 * leads to what is no link, or nowhere, it is refused as gb_try_readlink would refuse it. If it leads to a link, the
 * answer is 0 with the link's number, and gb_try_readlink reads its text.
 * Proved: as of gb_look_fast.
 * Answers 0 with number and kind, a refusal (EINVAL if it is no link), GB_AGAIN, GB_BAD_PASS. */
int gb_readlink_fast(struct gb_pass *pass, uint64_t base, const char *path, size_t len, struct gb_found *found);

/* The text of a symbolic link. Writes the first `room` bytes of it, or all if it has fewer, and no zero byte. `count`
 * is how many bytes the text has, at most 4,095. Takes the lock.
 * Proved: the text is that of one moment, and so are the bytes that are written. The rest of `text` is as it was.
 * Answers 0, a refusal (EINVAL if it is no link), GB_BUSY, GB_NO_MEMORY, GB_BAD_PASS. */
int gb_try_readlink(struct gb_pass *pass, uint64_t base, const char *path, size_t len, char *text, size_t room,
                    struct gb_found *found);

/* The names in a directory, in the order of their bytes, without dot and dot-dot. Writes whole names, each with a zero
 * byte behind it, up to the first that doesn't fit into `room`. `count` is how many bytes all of them take: if that is
 * more than `room`, ask again with more. Takes the lock, and all others wait until every name is read: for a million
 * names 0.2 to 0.5 seconds, for ten million 1.6.
 * Proved: the names are those of one moment, and so are the bytes that are written. The rest of `names` is as it was.
 * Answers 0, a refusal (ENOTDIR), GB_BUSY, GB_NO_MEMORY, GB_BAD_PASS. */
int gb_try_list(struct gb_pass *pass, uint64_t base, const char *path, size_t len, char *names, size_t room,
                struct gb_found *found);

/* Where the directory `number` is: its path from the root, as getcwd reports it, of names alone, without a link, a dot
 * or a slash at its end; the root's is a slash. Writes it into `path`, which has room for GB_PATH_MOST bytes or more,
 * and no zero byte behind it. `count` is how many bytes it has. Takes the lock, and no memory. In each directory on the
 * way the names are looked at one after another, up to the one that leads on, while nobody else has the lock.
 * Proved: from the root the names lead to that directory, at the moment of the answer. What stands in `path` behind the
 * path's end may change, up to byte GB_PATH_MOST and no further.
 * Answers 0 with number and kind, ENOENT if no directory has the number (any more), ENAMETOOLONG if its path has more
 * than GB_PATH_MOST bytes, GB_BUSY, GB_BAD_PASS, GB_BAD_ARGUMENT if `room` is less than GB_PATH_MOST. */
int gb_try_path_of(struct gb_pass *pass, uint64_t number, char *path, size_t room, struct gb_found *found);

/* Entries of a directory, each with its number and kind, without dot and dot-dot: those behind the name `after`, or all
 * if `after_len` is 0. Writes the first `room` of them, or all if there are fewer, and `count` is how many it wrote. To
 * read a directory, call again with the last name that was written, until `count` is less than `room`; the name needn't
 * stand there any more. Such a run lists each name that stands in the directory throughout once, whatever else comes
 * and goes meanwhile. `found` has the number and kind of the directory. Takes the lock, and memory for the entries,
 * which it gives back before it returns.
 * Proved: the entries of one call are those of one moment, in the order of the bytes of their names, the first ones
 * behind `after`, and they are written one after the other from the first on. The rest of `entries` is as it was.
 * Answers 0, a refusal (ENOTDIR), GB_BUSY, GB_NO_MEMORY, GB_BAD_PASS, GB_BAD_ARGUMENT if `room` is 0, or if `after` has
 * bytes that are no name: more than 255, a slash or a zero byte among them, a dot or two dots. */
int gb_try_entries(struct gb_pass *pass, uint64_t base, const char *path, size_t len, const char *after,
                   size_t after_len, struct gb_entry *entries, size_t room, struct gb_found *found);

/* The seven changes. Each first looks up the directory of its name by rows, and then takes the lock: for the name alone
 * if the rows answered. For gb_try_link that is the new name. For gb_try_rename it is the old one, and the new one too
 * if both paths have the same bytes before their last name. A change takes memory for what it makes or moves. A last
 * link is never followed.
 * Proved of each: it takes effect at one moment, whole or not at all, and every look-up of any thread is on one side of
 * that moment. If it is out of memory, the tree is as it was. What `gone` says is true of the tree at that moment.
 * They answer 0, a refusal, GB_BUSY, GB_NO_MEMORY, GB_SPENT, GB_BAD_PASS. */

/* Makes an empty directory. `found` has its number. */
int gb_try_mkdir(struct gb_pass *pass, uint64_t base, const char *path, size_t len, struct gb_found *found);

/* Makes a file. `found` has its number. */
int gb_try_create(struct gb_pass *pass, uint64_t base, const char *path, size_t len, struct gb_found *found);

/* Makes a symbolic link with a text. `found` has its number. The text is tested as a path is: no zero byte, no name of
 * more than 255 bytes. */
int gb_try_symlink(struct gb_pass *pass, uint64_t base, const char *text, size_t text_len, const char *path, size_t len,
                   struct gb_found *found);

/* Gives a file or symbolic link one more name, of up to 65,000. `found` has its number. */
int gb_try_link(struct gb_pass *pass, uint64_t base, const char *old_path, size_t old_len, const char *path, size_t len,
                struct gb_found *found);

/* Takes a name of a file or symbolic link away. `gone` says what it named. */
int gb_try_unlink(struct gb_pass *pass, uint64_t base, const char *path, size_t len, struct gb_found *found,
                  struct gb_gone *gone);

/* Takes an empty directory away. `gone` says which. */
int gb_try_rmdir(struct gb_pass *pass, uint64_t base, const char *path, size_t len, struct gb_found *found,
                 struct gb_gone *gone);

/* Renames what the old path names to the new path. `gone` says what stood at the new path and was replaced. It is all 0
 * if nothing stood there, with GB_EXCHANGE, and if both paths name one file, which changes nothing.
 * Before a directory moves into another one, each directory above that is compared with it, under the lock: 100,000 of
 * them take 5 to 20 milliseconds, a million 200.
 * Answers GB_BAD_ARGUMENT too. */
int gb_try_rename(struct gb_pass *pass, uint64_t base, const char *old_path, size_t old_len, const char *path,
                  size_t len, uint32_t flags, struct gb_found *found, struct gb_gone *gone);

/* Learns how many changes were made, and writes it to `clock`: no later answer of this pass is older. So a thread that
 * is told of a change made at `at` learns `at + 1`, and then sees it. Takes no lock and no memory, and never waits.
 * Proved: the pass has then seen that many changes, and the answer is exact.
 * Answers 0, GB_NOT_YET if fewer than `at` were made, GB_BAD_PASS. */
int gb_learn(struct gb_pass *pass, uint64_t at, uint64_t *clock);

/* Empties up to `most` rows, the least recently used first, and writes to `emptied` how many, if the answer is 0. No
 * answer depends on it. Takes the lock for some 0.8 microseconds a row, and no memory. All others wait meanwhile, so
 * ask in portions, as gb_shrink does.
 * Proved: `emptied` is at most `most`, and no answer is recorded.
 * Answers 0, GB_BUSY, GB_BAD_PASS. */
int gb_try_shrink(struct gb_pass *pass, uint64_t most, uint64_t *emptied);

/* Writes to `evictions` how many rows have lost their name to another one since the cache was made; those that
 * gb_try_shrink emptied aren't among them. If the number keeps growing, the cache has too few buckets. Takes no lock
 * and no memory.
 * Proved: no answer is recorded. The number is tested.
 * Answers 0, GB_BAD_PASS. */
int gb_counts(struct gb_pass *pass, uint64_t *evictions);

/* Writes to `rows` how many rows tell of a name, or of a link's text, at the moment. A cache has four rows for each of
 * its buckets. Takes no lock and no memory.
 * Proved: no answer is recorded. The number is tested.
 * Answers 0, GB_BAD_PASS. */
int gb_rows_in_use(struct gb_pass *pass, uint64_t *rows);

/* The blocking forms, in plain C. Nothing of them is proved.
 *
 * Each makes the call of its name until the answer is another than GB_BUSY: after a refused try it pauses, later it
 * yields the processor, then it sleeps by the functions of a gate. One gate serves all threads of a cache; it may serve
 * several caches. If you call a bare gb_try_ function on a cache whose other threads sleep at a gate, call gb_gate_call
 * after each answer but GB_BUSY.
 *
 * A thread that is passed over is handed the lock. One that has waited for GB_PATIENCE milliseconds takes a ticket.
 * While a ticket is out, only the thread that has the next one tries; all others sleep, also those that begin a call.
 * So it waits for the threads with earlier tickets, one call each, however often others come back. Bare calls don't
 * look at tickets.
 *
 * No wake-up is lost. All steps named here, and those of the library's lock, are seq_cst, so they have one order.
 * (1) A thread W counts itself among `sleepers`, reads `calls`, and then tries once more.
 * (2) If that try is refused, a thread H had the lock at some moment of the try, so H gives it back after that moment,
 *     and then, its call having returned, reads `sleepers` in gb_gate_call. W has counted itself by then.
 * (3) H thus raises `calls` and wakes one sleeper. W read `calls` before, so either `wait` finds another number there
 *     and returns at once, or W sleeps already and is one of those that may be woken.
 * (4) If another sleeper is woken in place of W, it tries: it gets the lock, or is refused by one who has it. Either
 *     way someone who had the lock calls again while W is counted. So while anyone sleeps, someone is yet to call.
 * (5) While a ticket is out, (4) may fail: the sleeper that is woken may not try. But the thread N that has the next
 *     ticket took it before its own (1), so H sees it in (3) and wakes all, N among them. N gets the lock at last, as
 *     whoever refuses it calls after that. As it ends it raises `served`, and then calls as H does. A thread that
 *     doesn't try since it isn't next has read `served` after `calls`, so that call wakes it: the one that is next now,
 *     or with no ticket out one of all, as in (3).
 * `calls` wraps: a thread that is called 2^32 times between reading it and falling asleep would miss them all. */
struct gb_gate {
    uint32_t calls;    /* how often a sleeper was called, modulo 2^32 */
    uint32_t sleepers; /* threads that sleep, or are about to */
    /* Sleeps while `calls` is `seen`. May return at any time, but not sleep when it finds another number. */
    void (*wait)(struct gb_gate *gate, uint32_t seen);
    /* Wakes one thread at least that sleeps in `wait`, if any does. */
    void (*wake)(struct gb_gate *gate);
    /* Wakes all that sleep in `wait`. */
    void (*wake_all)(struct gb_gate *gate);
    /* Milliseconds since any moment, modulo 2^32. If this or `wake_all` is NULL, nobody takes a ticket. */
    uint32_t (*now)(void);
    uint32_t tickets; /* taken so far, modulo 2^32: as many are out as were taken and not served */
    uint32_t served;
};

/* How often a call is tried with pauses in between, and then with yields, before its thread sleeps. The first pause is
 * of GB_FIRST_PAUSES instructions, and the next ones double: a try takes the lock's cache line from its holder, who
 * then waits for it. GB_PATIENCE milliseconds after its first yield or sleep a thread takes a ticket. */
enum { GB_PAUSES = 9, GB_YIELDS = 16, GB_FIRST_PAUSES = 128, GB_DOUBLINGS = 6, GB_PATIENCE = 4 };

/* How many rows gb_shrink empties under one hold of the lock. */
enum { GB_PORTION = 1024 };

static inline void gb_pause(void)
{
#if defined(__x86_64__) || defined(__i386__)
    __builtin_ia32_pause();
#elif defined(__aarch64__)
    __asm__ volatile("yield");
#endif
}

/* The pauses after a try, when this many were refused before it. */
static inline void gb_pause_for(uint32_t refused)
{
    uint32_t doublings = refused < GB_DOUBLINGS ? refused : (uint32_t)GB_DOUBLINGS;
    for (uint32_t i = 0; i < (uint32_t)GB_FIRST_PAUSES << doublings; i++)
        gb_pause();
}

/* The ticket that is next, in `next`. Answers whether it is out. */
static inline int gb_gate_next(struct gb_gate *gate, uint32_t *next)
{
    *next = __atomic_load_n(&gate->served, __ATOMIC_SEQ_CST);
    return __atomic_load_n(&gate->tickets, __ATOMIC_SEQ_CST) != *next;
}

/* Wakes a sleeper, if there is one. For whoever has just given the lock back. */
static inline void gb_gate_call(struct gb_gate *gate)
{
    uint32_t next;
    if (__atomic_load_n(&gate->sleepers, __ATOMIC_SEQ_CST) == 0)
        return;
    __atomic_add_fetch(&gate->calls, 1, __ATOMIC_SEQ_CST);
    if (gb_gate_next(gate, &next))
        gate->wake_all(gate);
    else
        gate->wake(gate);
}

/* GB_BARE leaves out all that needs an operating system: a kernel yields not at all, and makes gates of its own. */
#ifdef GB_BARE
static inline void gb_yield(void)
{
    gb_pause();
}
#else
#ifdef __cplusplus
}
#endif
#include <sched.h>
#include <time.h>
#if defined(__linux__) && !defined(GB_BY_CONDITION)
#include <linux/futex.h>
#include <sys/syscall.h>
#ifdef __cplusplus
#include <unistd.h>
#endif
#else
#include <pthread.h>
#endif
#ifdef __cplusplus
extern "C" {
#endif

static inline void gb_yield(void)
{
    sched_yield();
}

/* By the clock of the day: if that is set, a ticket is taken earlier than it should be. */
static inline uint32_t gb_milliseconds(void)
{
    struct timespec time = {0, 0};
    timespec_get(&time, TIME_UTC);
    return (uint32_t)((uint64_t)time.tv_sec * 1000 + (uint64_t)time.tv_nsec / 1000000);
}

#if defined(__linux__) && !defined(GB_BY_CONDITION)
#ifndef __cplusplus
/* With -std=c11 unistd.h lacks it. */
long syscall(long number, ...);
#endif

/* The kernel compares `calls` with `seen` and puts the thread to sleep in one step. */
static inline void gb_gate_wait(struct gb_gate *gate, uint32_t seen)
{
    syscall(SYS_futex, &gate->calls, FUTEX_WAIT_PRIVATE, seen, (void *)0, (void *)0, 0);
}

static inline void gb_gate_wake(struct gb_gate *gate)
{
    syscall(SYS_futex, &gate->calls, FUTEX_WAKE_PRIVATE, 1, (void *)0, (void *)0, 0);
}

static inline void gb_gate_wake_all(struct gb_gate *gate)
{
    syscall(SYS_futex, &gate->calls, FUTEX_WAKE_PRIVATE, INT32_MAX, (void *)0, (void *)0, 0);
}
#else
/* One lock and one condition for all gates that are made in this file, so each call wakes all that sleep. */
struct gb_bed {
    pthread_mutex_t lock;
    pthread_cond_t called;
};

static inline struct gb_bed *gb_the_bed(void)
{
    static struct gb_bed bed = {PTHREAD_MUTEX_INITIALIZER, PTHREAD_COND_INITIALIZER};
    return &bed;
}

/* The number is compared under the lock that the caller takes after raising it: no call falls in between. */
static inline void gb_gate_wait(struct gb_gate *gate, uint32_t seen)
{
    struct gb_bed *bed = gb_the_bed();
    pthread_mutex_lock(&bed->lock);
    while (__atomic_load_n(&gate->calls, __ATOMIC_SEQ_CST) == seen)
        pthread_cond_wait(&bed->called, &bed->lock);
    pthread_mutex_unlock(&bed->lock);
}

static inline void gb_gate_wake_all(struct gb_gate *gate)
{
    struct gb_bed *bed = gb_the_bed();
    (void)gate;
    pthread_mutex_lock(&bed->lock);
    pthread_cond_broadcast(&bed->called);
    pthread_mutex_unlock(&bed->lock);
}

static inline void gb_gate_wake(struct gb_gate *gate)
{
    gb_gate_wake_all(gate);
}
#endif

/* A gate whose threads sleep by a futex, or if there is none by a condition variable. */
static inline struct gb_gate gb_gate_new(void)
{
    struct gb_gate gate = {0, 0, gb_gate_wait, gb_gate_wake, gb_gate_wake_all, gb_milliseconds, 0, 0};
    return gate;
}
#endif

/* One blocking call. */
struct gb_turn {
    struct gb_gate *gate;
    uint32_t tries;    /* how often it was refused, up to when it sleeps */
    uint32_t seen;     /* `calls` before its last try */
    uint32_t counted;  /* whether its thread is counted among the sleepers */
    uint32_t timed;    /* whether it has looked at the gate's clock */
    uint32_t since;    /* when it did so first */
    uint32_t ticketed; /* whether it has a ticket */
    uint32_t ticket;
};

/* Whether it may try: if a ticket is out, only the one that has the next. */
static inline int gb_turn_may_try(const struct gb_turn *turn)
{
    uint32_t next;
    return !gb_gate_next(turn->gate, &next) || (turn->ticketed && turn->ticket == next);
}

/* Whether it was passed over: it has waited for longer than it has patience, since it first asked. */
static inline int gb_turn_is_late(struct gb_turn *turn)
{
    struct gb_gate *gate = turn->gate;
    if (!gate->now || !gate->wake_all)
        return 0;
    uint32_t now = gate->now();
    if (!turn->timed) {
        turn->timed = 1;
        turn->since = now;
    }
    return now - turn->since >= GB_PATIENCE;
}

/* Before a try that a sleep may follow. The order counts: first it is seen as a sleeper, and has its ticket if it was
 * passed over, then it reads `calls`, then it tries or asks whether it may. */
static inline void gb_turn_count(struct gb_turn *turn)
{
    struct gb_gate *gate = turn->gate;
    if (!turn->counted)
        __atomic_add_fetch(&gate->sleepers, 1, __ATOMIC_SEQ_CST);
    turn->counted = 1;
    if (!turn->ticketed && gb_turn_is_late(turn)) {
        turn->ticket = __atomic_fetch_add(&gate->tickets, 1, __ATOMIC_SEQ_CST);
        turn->ticketed = 1;
    }
    turn->seen = __atomic_load_n(&gate->calls, __ATOMIC_SEQ_CST);
}

/* Is counted, and sleeps until it may try. */
static inline void gb_turn_come(struct gb_turn *turn)
{
    gb_turn_count(turn);
    while (!gb_turn_may_try(turn)) {
        turn->gate->wait(turn->gate, turn->seen);
        gb_turn_count(turn);
    }
}

static inline struct gb_turn gb_turn_new(struct gb_gate *gate)
{
    struct gb_turn turn = {gate, 0, 0, 0, 0, 0, 0, 0};
    if (!gb_turn_may_try(&turn))
        gb_turn_come(&turn);
    return turn;
}

/* Its ticket is served before it calls, so that the next one may try. */
static inline void gb_turn_end(struct gb_turn *turn)
{
    if (turn->counted)
        __atomic_sub_fetch(&turn->gate->sleepers, 1, __ATOMIC_SEQ_CST);
    if (turn->ticketed)
        __atomic_add_fetch(&turn->gate->served, 1, __ATOMIC_SEQ_CST);
    gb_gate_call(turn->gate);
}

/* Whether the call is to be tried again, which waits a while first. On a busy machine a yield may take as long as a
 * hold of the lock, so the clock is read from the first one on. */
static inline int gb_turn_again(struct gb_turn *turn, int answer)
{
    if (answer != GB_BUSY) {
        gb_turn_end(turn);
        return 0;
    }
    if (turn->tries < GB_PAUSES + GB_YIELDS)
        turn->tries++;
    if (turn->tries <= GB_PAUSES)
        gb_pause_for(turn->tries - 1);
    else if (turn->tries < GB_PAUSES + GB_YIELDS && !gb_turn_is_late(turn))
        gb_yield();
    else {
        if (turn->counted)
            turn->gate->wait(turn->gate, turn->seen);
        gb_turn_come(turn);
        return 1;
    }
    if (!gb_turn_may_try(turn))
        gb_turn_come(turn);
    return 1;
}

/* The body of a blocking form. */
#define GB_BLOCKING(gate, call)              \
    struct gb_turn turn = gb_turn_new(gate); \
    int answer;                              \
    do                                       \
        answer = call;                       \
    while (gb_turn_again(&turn, answer));    \
    return answer

/* gb_try_look, for a caller whose gb_look_fast has just answered GB_AGAIN. */
static inline int gb_look_missed(struct gb_gate *gate, struct gb_pass *pass, uint64_t base, const char *path,
                                 size_t len, uint32_t follow, struct gb_found *found)
{
    GB_BLOCKING(gate, gb_try_look(pass, base, path, len, follow, found));
}

/* gb_look_fast, and if the rows don't answer gb_look_missed. */
static inline int gb_look(struct gb_gate *gate, struct gb_pass *pass, uint64_t base, const char *path, size_t len,
                          uint32_t follow, struct gb_found *found)
{
    int answer = gb_look_fast(pass, base, path, len, follow, found);
    if (answer == GB_AGAIN)
        return gb_look_missed(gate, pass, base, path, len, follow, found);
    return answer;
}

/* How a thread's look-ups were answered. Each thread has one of its own, all 0 at first. */
struct gb_looks {
    uint64_t by_rows;    /* by the rows alone */
    uint64_t under_lock; /* by gb_look_missed */
};

/* gb_look, which also counts in `looks` how the call was answered. One that answers below 0 isn't counted. */
static inline int gb_look_counting(struct gb_gate *gate, struct gb_pass *pass, uint64_t base, const char *path,
                                   size_t len, uint32_t follow, struct gb_found *found, struct gb_looks *looks)
{
    int answer = gb_look_fast(pass, base, path, len, follow, found);
    if (answer != GB_AGAIN) {
        looks->by_rows += answer >= 0;
        return answer;
    }
    answer = gb_look_missed(gate, pass, base, path, len, follow, found);
    looks->under_lock += answer >= 0;
    return answer;
}

/* gb_try_resolve: one call that always answers, for a caller many of whose look-ups miss. A miss is quicker than by
 * gb_look. A look-up that the rows answer calls at the gate as one that had the lock, so while others sleep there it
 * wakes one. While a ticket is out, the rows alone are asked before it waits. */
static inline int gb_resolve(struct gb_gate *gate, struct gb_pass *pass, uint64_t base, const char *path, size_t len,
                             uint32_t follow, struct gb_found *found)
{
    uint32_t next;
    if (gb_gate_next(gate, &next)) {
        int told = gb_look_fast(pass, base, path, len, follow, found);
        if (told != GB_AGAIN)
            return told;
    }
    GB_BLOCKING(gate, gb_try_resolve(pass, base, path, len, follow, found));
}

/* gb_look_fast_along, and if the rows don't answer, or tell of a trail with more directories than there are places,
 * gb_try_look_along. */
static inline int gb_look_along(struct gb_gate *gate, struct gb_pass *pass, uint64_t base, const char *path, size_t len,
                                uint32_t follow, uint64_t *trail, size_t places, struct gb_found *found)
{
    int told = gb_look_fast_along(pass, base, path, len, follow, trail, places, found);
    if (told != GB_AGAIN && told != GB_NO_ROOM)
        return told;
    GB_BLOCKING(gate, gb_try_look_along(pass, base, path, len, follow, trail, places, found));
}

/* gb_try_stat. */
static inline int gb_stat(struct gb_gate *gate, struct gb_pass *pass, uint64_t base, const char *path, size_t len,
                          struct gb_found *found)
{
    GB_BLOCKING(gate, gb_try_stat(pass, base, path, len, found));
}

/* gb_readlink_fast, and if the path leads to a link, or the rows don't answer, gb_try_readlink. */
static inline int gb_readlink(struct gb_gate *gate, struct gb_pass *pass, uint64_t base, const char *path, size_t len,
                              char *text, size_t room, struct gb_found *found)
{
    int told = gb_readlink_fast(pass, base, path, len, found);
    if (told != 0 && told != GB_AGAIN)
        return told;
    GB_BLOCKING(gate, gb_try_readlink(pass, base, path, len, text, room, found));
}

/* gb_try_list. */
static inline int gb_list(struct gb_gate *gate, struct gb_pass *pass, uint64_t base, const char *path, size_t len,
                          char *names, size_t room, struct gb_found *found)
{
    GB_BLOCKING(gate, gb_try_list(pass, base, path, len, names, room, found));
}

/* gb_try_path_of. */
static inline int gb_path_of(struct gb_gate *gate, struct gb_pass *pass, uint64_t number, char *path, size_t room,
                             struct gb_found *found)
{
    GB_BLOCKING(gate, gb_try_path_of(pass, number, path, room, found));
}

/* gb_try_entries. */
static inline int gb_entries(struct gb_gate *gate, struct gb_pass *pass, uint64_t base, const char *path, size_t len,
                             const char *after, size_t after_len, struct gb_entry *entries, size_t room,
                             struct gb_found *found)
{
    GB_BLOCKING(gate, gb_try_entries(pass, base, path, len, after, after_len, entries, room, found));
}

/* gb_try_mkdir. */
static inline int gb_mkdir(struct gb_gate *gate, struct gb_pass *pass, uint64_t base, const char *path, size_t len,
                           struct gb_found *found)
{
    GB_BLOCKING(gate, gb_try_mkdir(pass, base, path, len, found));
}

/* gb_try_create. */
static inline int gb_create(struct gb_gate *gate, struct gb_pass *pass, uint64_t base, const char *path, size_t len,
                            struct gb_found *found)
{
    GB_BLOCKING(gate, gb_try_create(pass, base, path, len, found));
}

/* gb_try_symlink. */
static inline int gb_symlink(struct gb_gate *gate, struct gb_pass *pass, uint64_t base, const char *text,
                             size_t text_len, const char *path, size_t len, struct gb_found *found)
{
    GB_BLOCKING(gate, gb_try_symlink(pass, base, text, text_len, path, len, found));
}

/* gb_try_link. */
static inline int gb_link(struct gb_gate *gate, struct gb_pass *pass, uint64_t base, const char *old_path,
                          size_t old_len, const char *path, size_t len, struct gb_found *found)
{
    GB_BLOCKING(gate, gb_try_link(pass, base, old_path, old_len, path, len, found));
}

/* gb_try_unlink. */
static inline int gb_unlink(struct gb_gate *gate, struct gb_pass *pass, uint64_t base, const char *path, size_t len,
                            struct gb_found *found, struct gb_gone *gone)
{
    GB_BLOCKING(gate, gb_try_unlink(pass, base, path, len, found, gone));
}

/* gb_try_rmdir. */
static inline int gb_rmdir(struct gb_gate *gate, struct gb_pass *pass, uint64_t base, const char *path, size_t len,
                           struct gb_found *found, struct gb_gone *gone)
{
    GB_BLOCKING(gate, gb_try_rmdir(pass, base, path, len, found, gone));
}

/* gb_try_rename. */
static inline int gb_rename(struct gb_gate *gate, struct gb_pass *pass, uint64_t base, const char *old_path,
                            size_t old_len, const char *path, size_t len, uint32_t flags, struct gb_found *found,
                            struct gb_gone *gone)
{
    GB_BLOCKING(gate, gb_try_rename(pass, base, old_path, old_len, path, len, flags, found, gone));
}

static inline int gb_shrink_once(struct gb_gate *gate, struct gb_pass *pass, uint64_t most, uint64_t *emptied)
{
    GB_BLOCKING(gate, gb_try_shrink(pass, most, emptied));
}

/* gb_try_shrink, GB_PORTION rows at a time, so that nobody waits for all of them. `emptied` is their sum. */
static inline int gb_shrink(struct gb_gate *gate, struct gb_pass *pass, uint64_t most, uint64_t *emptied)
{
    uint64_t sum = 0, portion;
    do {
        portion = most - sum < GB_PORTION ? most - sum : (uint64_t)GB_PORTION;
        int answer = gb_shrink_once(gate, pass, portion, emptied);
        if (answer != 0)
            return answer;
        sum += *emptied;
    } while (*emptied == portion && sum < most);
    *emptied = sum;
    return 0;
}

#undef GB_BLOCKING
#ifdef __cplusplus
}
#endif
#endif

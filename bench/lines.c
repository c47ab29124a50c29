/* Look-ups among many names, for bench/lines to count what they touch.
 *
 * usage: lines FILES BUCKETS none|hit|miss|stat LOOKS
 *
 * FILES files stand in directories of a thousand, and each was looked up once. Of `hit` the rows answer, of `miss` they
 * don't, and it is filled under the lock; `stat` asks the tree alone, under the lock. It fails if more than one look-up
 * in 50 is answered otherwise.
 */
#include <gigbewu.h>
#include <stdio.h>
#include <stdlib.h>
#include <string.h>

enum { IN_EACH = 1000, MOST_INODES = 1 << 20, ROOM = 32 };

static struct gb_pass pass;
static struct gb_found found;

static void must(int right, const char *what)
{
    if (!right) {
        fprintf(stderr, "lines: %s fails\n", what);
        exit(1);
    }
}

static size_t named(char *path, uint64_t file)
{
    return (size_t)snprintf(path, ROOM, "/%llu/%llu", (unsigned long long)(file / IN_EACH),
                            (unsigned long long)(file % IN_EACH));
}

int main(int count, char **words)
{
    must(count == 5, "its usage");
    uint64_t files = strtoull(words[1], NULL, 10), looks = strtoull(words[4], NULL, 10), other = 0, seed = 1;
    char path[ROOM], kind = words[3][0];
    must(gb_cache_new(strtoull(words[2], NULL, 10), MOST_INODES, &pass) == 0, "gb_cache_new");
    for (uint64_t file = 0; file < files; file++) {
        size_t len = named(path, file);
        if (file % IN_EACH == 0)
            must(gb_try_mkdir(&pass, GB_ROOT, path, strcspn(path + 1, "/") + 1, &found) == 0, "gb_try_mkdir");
        must(gb_try_create(&pass, GB_ROOT, path, len, &found) == 0, "gb_try_create");
        must(gb_try_look(&pass, GB_ROOT, path, len, GB_FOLLOW, &found) == 0, "gb_try_look");
    }
    for (uint64_t at = 0; at < looks; at++) {
        seed = seed * 6364136223846793005u + 1442695040888963407u;
        size_t len = named(path, (seed >> 33) % files);
        int answer = kind == 's' ? gb_try_stat(&pass, GB_ROOT, path, len, &found)
                                 : gb_look_fast(&pass, GB_ROOT, path, len, GB_FOLLOW, &found);
        other += kind != 's' && answer != (kind == 'h' ? 0 : GB_AGAIN);
        if (kind == 'm' && answer == GB_AGAIN)
            answer = gb_try_look(&pass, GB_ROOT, path, len, GB_FOLLOW, &found);
        must(answer == 0 || answer == GB_AGAIN, "a look-up");
    }
    must(kind == 'm' ? other <= looks / 2 : other <= looks / 50, "what the rows answer");
    return 0;
}

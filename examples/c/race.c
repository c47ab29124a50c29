/* Four threads look /p/d/f up while a fifth renames p, or exchanges it with another directory. At no moment is there a
 * /p/d/f: the file is made and unlinked while what was p is named q. The right answer to each look-up is thus ENOENT.
 * Prints the same whatever the schedule.
 */
#include <errno.h>
#include <gigbewu.h>
#include <pthread.h>
#include <stdatomic.h>
#include <stdio.h>
#include <stdlib.h>
#include <string.h>

enum { ROOT = 1, LOOKERS = 4, LOOKS = 250000, RACES = 2 };

struct looker {
    pthread_t thread;
    struct gb_pass pass;
    long wrong;
};

static struct gb_gate gate;
static atomic_int looking;

static void must(int answer)
{
    if (answer != 0) {
        printf("an answer was %d\n", answer);
        exit(1);
    }
}

static void *look(void *given)
{
    struct looker *looker = given;
    struct gb_found found;
    for (int i = 0; i < LOOKS; i++) {
        int answer = gb_look_fast(&looker->pass, ROOT, "/p/d/f", 6, GB_FOLLOW, &found);
        if (answer == GB_AGAIN)
            answer = gb_look_missed(&gate, &looker->pass, ROOT, "/p/d/f", 6, GB_FOLLOW, &found);
        looker->wrong += answer != ENOENT;
    }
    atomic_fetch_sub(&looking, 1);
    return NULL;
}

static void rename_to_and_fro(struct gb_pass *pass, uint32_t flags)
{
    struct gb_found found;
    struct gb_gone gone;
    must(gb_rename(&gate, pass, ROOT, "/p", 2, "/q", 2, flags, &found, &gone));
    must(gb_create(&gate, pass, ROOT, "/q/d/f", 6, &found));
    must(gb_unlink(&gate, pass, ROOT, "/q/d/f", 6, &found, &gone));
    must(gb_rename(&gate, pass, ROOT, "/q", 2, "/p", 2, flags, &found, &gone));
}

static void make(struct gb_pass *pass, const char *path, size_t len)
{
    struct gb_found found;
    must(gb_mkdir(&gate, pass, ROOT, path, len, &found));
}

/* How many found it. */
static long race(uint32_t flags)
{
    struct gb_pass pass = {0};
    struct looker lookers[LOOKERS];
    long wrong = 0;
    gate = gb_gate_new();
    must(gb_cache_new(1024, 1000, &pass));
    make(&pass, "/p", 2);
    make(&pass, "/p/d", 4);
    if (flags & GB_EXCHANGE) {
        make(&pass, "/q", 2);
        make(&pass, "/q/d", 4);
    }
    memset(lookers, 0, sizeof lookers);
    atomic_store(&looking, LOOKERS);
    for (int i = 0; i < LOOKERS; i++) {
        must(gb_pass_split(&pass, &lookers[i].pass));
        must(pthread_create(&lookers[i].thread, NULL, look, &lookers[i]));
    }
    while (atomic_load(&looking) > 0)
        rename_to_and_fro(&pass, flags);
    for (int i = 0; i < LOOKERS; i++) {
        pthread_join(lookers[i].thread, NULL);
        must(gb_pass_join(&pass, &lookers[i].pass));
        wrong += lookers[i].wrong;
    }
    must(gb_close(&pass));
    return wrong;
}

int main(void)
{
    long wrong = race(0) + race(GB_EXCHANGE);
    printf("%d look-ups of a path that never was: %ld found it\n", RACES * LOOKERS * LOOKS, wrong);
    return wrong != 0;
}

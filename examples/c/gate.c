/* Threads take turns at a lock that is held longer than they spin, and sleep at a gate as the blocking forms do. In each
 * round each takes one turn, and none begins the next before all have: so a wake-up that is lost leaves the round without
 * an end, and the alarm ends the program. Sleeps where the hazards are make losses likely, if there could be any.
 * With HASTY a clock that runs ahead lets each sleeper take a ticket as soon as it is woken. Prints the same whatever
 * the schedule.
 */
#define _GNU_SOURCE
#include <gigbewu.h>
#include <pthread.h>
#include <stdatomic.h>
#include <stdio.h>
#include <unistd.h>

enum { THREADS = 4, ROUNDS = 300, MICROSECONDS = 50, MOST_SECONDS = 60 };

static struct gb_gate gate;
static pthread_barrier_t round_end;
static atomic_int held;
static atomic_long slept;
static long turns; /* under the lock */

/* As a call that tries for the lock. A thread that is refused may be late to learn it: the lock is free meanwhile. */
static int try_turn(const struct gb_turn *turn)
{
    int free = 0;
    if (!atomic_compare_exchange_strong(&held, &free, 1)) {
        if (turn->counted)
            usleep(MICROSECONDS);
        return GB_BUSY;
    }
    turns++;
    usleep(2 * MICROSECONDS);
    atomic_store(&held, 0);
    return 0;
}

/* A thread may be late to fall asleep: it has been called meanwhile. */
static void wait_late(struct gb_gate *at, uint32_t seen)
{
    atomic_fetch_add(&slept, 1);
    usleep(MICROSECONDS);
    gb_gate_wait(at, seen);
}

/* As if the patience of all were at an end each time they look. */
static uint32_t hasty(void)
{
    static atomic_uint time;
    return atomic_fetch_add(&time, GB_PATIENCE);
}

static void take_a_turn(void)
{
    struct gb_turn turn = gb_turn_new(&gate);
    while (gb_turn_again(&turn, try_turn(&turn)))
        ;
}

static void *take_turns(void *unused)
{
    for (int i = 0; i < ROUNDS; i++) {
        take_a_turn();
        pthread_barrier_wait(&round_end);
    }
    return unused;
}

int main(void)
{
    pthread_t threads[THREADS];
    gate = gb_gate_new();
    gate.wait = wait_late;
#ifdef HASTY
    gate.now = hasty;
#else
    (void)hasty;
#endif
    alarm(MOST_SECONDS);
    pthread_barrier_init(&round_end, NULL, THREADS);
    for (int i = 0; i < THREADS; i++)
        pthread_create(&threads[i], NULL, take_turns, NULL);
    for (int i = 0; i < THREADS; i++)
        pthread_join(threads[i], NULL);
    if (gate.sleepers != 0 || gate.tickets != gate.served || atomic_load(&slept) == 0)
        return printf("%u sleepers at the end, %ld sleeps\n", gate.sleepers, atomic_load(&slept)), 1;
    printf("%ld turns, no thread left asleep\n", turns);
    return 0;
}

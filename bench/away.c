/* How long the machine keeps a thread from running that does nothing but read the clock.
 *
 * usage: away
 *
 * It runs until it is interrupted, and then prints for how long it ran, for how long it was away at most, and how often for
 * more than a millisecond, 5 and 20. What waits are measured meanwhile can't be shorter than that: a thread that holds the
 * lock may be away as long. */
#include <signal.h>
#include <stdio.h>
#include <time.h>

static volatile sig_atomic_t over;

static void end(int number) {
  (void)number;
  over = 1;
}

static double now(void) {
  struct timespec at;
  clock_gettime(CLOCK_MONOTONIC, &at);
  return 1e3 * (double)at.tv_sec + 1e-6 * (double)at.tv_nsec;
}

int main(void) {
  const double bounds[] = {1, 5, 20};
  unsigned long more[] = {0, 0, 0};
  double longest = 0;
  struct sigaction action = {.sa_handler = end};
  sigaction(SIGINT, &action, NULL);
  sigaction(SIGTERM, &action, NULL);
  double begin = now();
  double last = begin;
  while (!over) {
    double at = now();
    double gap = at - last;
    last = at;
    if (gap > longest) longest = gap;
    for (int k = 0; k < 3; k++) more[k] += gap > bounds[k];
  }
  printf("a thread that only reads the clock was away for %.1f ms at most in %.0f s, over 1 ms %lu times, over 5 ms %lu, "
         "over 20 ms %lu\n",
         longest, (last - begin) / 1e3, more[0], more[1], more[2]);
  return 0;
}

#define _POSIX_C_SOURCE 199309L

#include "times.h"

#include <stdio.h>
#include <time.h>

enum { RUNS = 11, MOST_ROUNDS = 10000 };

/* About as long as one run may take. */
static const double A_RUN = 0.01;

static double now(void) {
  struct timespec at;
  clock_gettime(CLOCK_MONOTONIC, &at);
  return (double)at.tv_sec + (double)at.tv_nsec * 1e-9;
}

/* Seconds a call, over so many calls. */
static double seconds(int rounds, once call, void *with) {
  double start = now();
  for (int i = 0; i < rounds; i++)
    call(with);
  return (now() - start) / rounds;
}

/* How many calls fill a run. The first call finds cold caches, so the second is measured. */
static int rounds_of(once call, void *with) {
  call(with);
  double rounds = A_RUN / seconds(1, call, with);
  return rounds < 1 ? 1 : rounds > MOST_ROUNDS ? MOST_ROUNDS : (int)rounds;
}

void timed(const char *what, const char *name, once call, const char *(*judge)(void *with), void *with) {
  int rounds = rounds_of(call, with);
  double fast = 0, slow = 0;
  for (int run = 0; run < RUNS; run++) {
    double took = seconds(rounds, call, with);
    fast = run == 0 || took < fast ? took : fast;
    slow = took > slow ? took : slow;
  }
  printf("%s %s %.3f %.3f %s\n", what, name, fast * 1e6, slow * 1e6, judge(with));
  fflush(stdout);
}

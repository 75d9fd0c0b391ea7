/* How times are taken, as in src/times.rs: several runs of so many calls, the fastest and the slowest told. */
#ifndef TIMES_H
#define TIMES_H

#ifdef __cplusplus
extern "C" {
#endif

/* One call to be timed, with whatever it needs. */
typedef void (*once)(void *with);

/* Times a call and prints the line `what name fastest slowest outcome`, in microseconds. The outcome is said by `judge` after the last
   call, since no reading is taken on trust. */
void timed(const char *what, const char *name, once call, const char *(*judge)(void *with), void *with);

#ifdef __cplusplus
}
#endif

#endif

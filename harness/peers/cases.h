/* The list that `harness draw-timed` writes, for the programs in C and C++. */
#ifndef CASES_H
#define CASES_H

#include <stddef.h>
#include <stdint.h>

#ifdef __cplusplus
extern "C" {
#endif

enum { MOST_SIDE = 151, MOST_MODULES = MOST_SIDE * MOST_SIDE, MOST_BYTES = 19968, MOST_CASES = 16 };

/* A grid has one byte a module, row by row from the top, 1 for dark. */
struct grid {
  int side;
  uint8_t modules[MOST_MODULES];
};

struct timed_case {
  char name[40];
  int percent;
  int compact;
  int layers;
  int data_words;
  int wrong; /* words spoilt on purpose: only read, never made */
  struct grid grid;
  uint8_t message[MOST_BYTES];
  size_t length;
};

/* Reads the whole list into `cases`, which has room for MOST_CASES; ends the program where it can't. */
int read_cases(const char *folder, struct timed_case *cases);

/* The file of a case in the folder, by its ending. */
int has_grid(const char *folder, const char *name, const char *ending);
void read_grid(const char *folder, const char *name, const char *ending, struct grid *grid);
void write_grid(const char *folder, const char *name, const char *ending, const struct grid *grid);

/* 1 to 4 for C1 to C4, 5 to 36 for F1 to F32. */
int shape_number(const struct timed_case *given);

#ifdef __cplusplus
}
#endif

#endif

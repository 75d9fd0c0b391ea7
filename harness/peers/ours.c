/* Times aztec_decode and aztec_encode:  ours FOLDER
   Judges the symbols that another program made:  ours FOLDER --judge PROGRAM
   Reads one symbol so many times, to be looked at by a profiler:  ours FOLDER --read NAME TIMES */
#include "../../include/aztec.h"
#include "cases.h"
#include "times.h"

#include <stdio.h>
#include <stdlib.h>
#include <string.h>

struct work {
  const struct timed_case *given;
  struct aztec_decoded read;
  struct aztec_encoded made;
  uint8_t message[MOST_BYTES];
  struct grid grid;
};

static void read_once(void *with) {
  struct work *work = with;
  const struct grid *grid = &work->given->grid;
  size_t modules = (size_t)(grid->side * grid->side);
  work->read = aztec_decode(grid->modules, modules, (uint32_t)grid->side, work->message, MOST_BYTES);
}

static const char *judge_reading(void *with) {
  const struct work *work = with;
  if (work->read.number != 0)
    return "none";
  int same = work->read.length == work->given->length &&
             memcmp(work->message, work->given->message, work->given->length) == 0;
  return same ? "right" : "wrong";
}

static void make_once(void *with) {
  struct work *work = with;
  const struct timed_case *given = work->given;
  work->made = aztec_encode(given->message, given->length, (uint32_t)given->percent, work->grid.modules, MOST_MODULES);
}

/* The harness's own maker drew the grid that is due. */
static const char *judge_making(void *with) {
  struct work *work = with;
  const struct grid *due = &work->given->grid;
  if (work->made.number != 0)
    return "none";
  work->grid.side = (int)work->made.side;
  size_t modules = (size_t)(due->side * due->side);
  int same = work->grid.side == due->side && memcmp(work->grid.modules, due->modules, modules) == 0;
  return same ? "right" : "wrong";
}

static struct timed_case cases[MOST_CASES];
static struct work work;

static void time_all(int count) {
  for (int i = 0; i < count; i++) {
    work.given = &cases[i];
    timed("read", cases[i].name, read_once, judge_reading, &work);
  }
  for (int i = 0; i < count; i++) {
    work.given = &cases[i];
    if (cases[i].wrong == 0)
      timed("make", cases[i].name, make_once, judge_making, &work);
  }
}

/* Prints `made NAME SHAPE OUTCOME` for each symbol that is there: another shape is lawful, another message is not. */
static void judge_made(const char *folder, int count, const char *program) {
  for (int i = 0; i < count; i++) {
    if (cases[i].wrong != 0 || !has_grid(folder, cases[i].name, program))
      continue;
    read_grid(folder, cases[i].name, program, &cases[i].grid);
    work.given = &cases[i];
    read_once(&work);
    int shape = (int)work.read.shape;
    printf("made %s %c%d %s\n", cases[i].name, shape < 5 ? 'C' : 'F', shape < 5 ? shape : shape - 4,
           judge_reading(&work));
  }
}

static void read_named(int count, const char *name, int times) {
  for (int i = 0; i < count; i++) {
    if (strcmp(cases[i].name, name) != 0)
      continue;
    work.given = &cases[i];
    for (int turn = 0; turn < times; turn++)
      read_once(&work);
    puts(judge_reading(&work));
  }
}

int main(int argc, char **argv) {
  if (argc < 2)
    return 2;
  int count = read_cases(argv[1], cases);
  if (argc == 4 && strcmp(argv[2], "--judge") == 0)
    judge_made(argv[1], count, argv[3]);
  else if (argc == 5 && strcmp(argv[2], "--read") == 0)
    read_named(count, argv[3], atoi(argv[4]));
  else
    time_all(count);
  return 0;
}

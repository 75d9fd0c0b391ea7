#include "cases.h"

#include <stdio.h>
#include <stdlib.h>

static FILE *tried(const char *folder, const char *name, const char *ending, const char *mode) {
  char path[4096];
  snprintf(path, sizeof path, "%s/%s.%s", folder, name, ending);
  return fopen(path, mode);
}

static FILE *opened(const char *folder, const char *name, const char *ending, const char *mode) {
  FILE *file = tried(folder, name, ending, mode);
  if (file == NULL) {
    perror(name);
    exit(2);
  }
  return file;
}

static void unlawful(const char *name) {
  fprintf(stderr, "%s: not as `harness draw-timed` writes it\n", name);
  exit(2);
}

int has_grid(const char *folder, const char *name, const char *ending) {
  FILE *file = tried(folder, name, ending, "r");
  if (file == NULL)
    return 0;
  fclose(file);
  return 1;
}

void read_grid(const char *folder, const char *name, const char *ending, struct grid *grid) {
  FILE *file = opened(folder, name, ending, "r");
  int height;
  if (fscanf(file, "P1 %d %d", &grid->side, &height) != 2 || grid->side != height || grid->side > MOST_SIDE)
    unlawful(name);
  for (int i = 0; i < grid->side * grid->side; i++) {
    int module;
    if (fscanf(file, "%1d", &module) != 1)
      unlawful(name);
    grid->modules[i] = (uint8_t)module;
  }
  fclose(file);
}

void write_grid(const char *folder, const char *name, const char *ending, const struct grid *grid) {
  FILE *file = opened(folder, name, ending, "w");
  fprintf(file, "P1\n%d %d\n", grid->side, grid->side);
  for (int i = 0; i < grid->side * grid->side; i++)
    fprintf(file, "%d%s", grid->modules[i], (i + 1) % grid->side == 0 ? "\n" : "");
  fclose(file);
}

static void read_message(const char *folder, struct timed_case *to) {
  FILE *file = opened(folder, to->name, "bytes", "rb");
  to->length = fread(to->message, 1, MOST_BYTES, file);
  fclose(file);
}

int read_cases(const char *folder, struct timed_case *cases) {
  FILE *list = opened(folder, "list", "txt", "r");
  int count = 0;
  for (; count < MOST_CASES; count++) {
    struct timed_case *to = &cases[count];
    int found = fscanf(list, "%39s %d %d %d %d %d", to->name, &to->percent, &to->compact, &to->layers,
                       &to->data_words, &to->wrong);
    if (found != 6)
      break;
    read_grid(folder, to->name, "pbm", &to->grid);
    read_message(folder, to);
  }
  if (count == 0 || !feof(list))
    unlawful("list.txt");
  fclose(list);
  return count;
}

int shape_number(const struct timed_case *given) {
  return given->layers + (given->compact ? 0 : 4);
}

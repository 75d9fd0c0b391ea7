/* Times libzint's ZBarcode_Encode in memory: zint FOLDER
   It is given the shape, so that it draws as many modules as the others; its symbols are left beside the messages, to be judged. */
#include "cases.h"
#include "times.h"

#include <stdio.h>
#include <zint.h>

struct work {
  const struct timed_case *given;
  int fault;
  struct grid grid;
};

static void take_grid(const struct zint_symbol *symbol, struct grid *grid) {
  grid->side = symbol->rows;
  for (int y = 0; y < grid->side; y++)
    for (int x = 0; x < grid->side; x++)
      grid->modules[y * grid->side + x] = symbol->encoded_data[y][x / 8] >> x % 8 & 1;
}

static int made(const struct timed_case *given, struct grid *grid) {
  struct zint_symbol *symbol = ZBarcode_Create();
  symbol->symbology = BARCODE_AZTEC;
  symbol->input_mode = DATA_MODE;
  symbol->option_2 = shape_number(given);
  int fault = ZBarcode_Encode(symbol, given->message, (int)given->length);
  if (fault == 0 && grid != NULL)
    take_grid(symbol, grid);
  ZBarcode_Delete(symbol);
  return fault;
}

static void make_once(void *with) {
  struct work *work = with;
  work->fault = made(work->given, NULL);
}

/* What was made is judged later, by another program. */
static const char *judge(void *with) {
  const struct work *work = with;
  return work->fault == 0 ? "made" : "none";
}

static struct timed_case cases[MOST_CASES];
static struct work work;

int main(int argc, char **argv) {
  if (argc != 2)
    return 2;
  int count = read_cases(argv[1], cases);
  for (int i = 0; i < count; i++) {
    if (cases[i].wrong != 0)
      continue;
    work.given = &cases[i];
    timed("make", cases[i].name, make_once, judge, &work);
    if (made(&cases[i], &work.grid) == 0)
      write_grid(argv[1], cases[i].name, "zint", &work.grid);
  }
  return 0;
}

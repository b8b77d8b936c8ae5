/* verdicts: reads histories of one register from standard input, one call in a line as faults/nodes/check.py reads it,
   and after each history the line `end`. The value of a write is its place in the history, from 1 on. Prints for each
   history 1 if a register could have it, and otherwise 0. */
#include "register.h"

#include <stdio.h>
#include <stdlib.h>
#include <string.h>

enum { MOST_CALLS = 1000 };

static unsigned number_in(const char *text) { return strcmp(text, "-") == 0 ? 0 : (unsigned)strtoul(text, NULL, 10); }

int main(void) {
  static struct call calls[MOST_CALLS];
  char line[200], kind[16], value[16], ended[16];
  unsigned began;
  int count = 0;
  while (fgets(line, sizeof line, stdin) != NULL) {
    if (strcmp(line, "end\n") == 0) {
      printf("%d\n", register_has(calls, count, 0));
      count = 0;
    } else if (count < MOST_CALLS && sscanf(line, "%*s %15s %15s %u %15s", kind, value, &began, ended) == 4) {
      bool is_write = strcmp(kind, "write") == 0;
      calls[count++] = (struct call){0, is_write, number_in(value), 0, began, number_in(ended)};
    } else {
      return 2;
    }
  }
  return 0;
}

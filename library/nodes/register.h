/* Decides whether a history could be that of registers, by the definition of faults/nodes/check.py. */
#ifndef REGISTER_H
#define REGISTER_H

#include <stdbool.h>

/* A call of a client. A value begins with its number, and 0 is that of no value. */
struct call {
  int name;
  bool is_write;
  unsigned value, length;
  unsigned began, ended; /* moments from 1 on; `ended` is 0 without an answer */
};

/* Whether the calls of one name have an order that a register could have had. A write in `calls` has its place from 1
   on as its value, so no two write the same. */
bool register_has(const struct call *calls, int count, int name);

#endif

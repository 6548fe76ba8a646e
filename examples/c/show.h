/* Prints a value table row by row, with the names that its type table gives. */
#ifndef SHOW_H
#define SHOW_H

#include "safe.h"

/* The rows must be what reading by this table stored. */
void show_rows(struct table t, struct value v);

#endif

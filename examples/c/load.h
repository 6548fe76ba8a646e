/* Files, and type tables in hexadecimal as examples/booking/make.py makes them. */
#ifndef LOAD_H
#define LOAD_H

#include "safe.h"

/* The whole file FOLDER/NAME; ends the program with a message where it cannot be read. */
struct bytes load_file(const char *folder, const char *name);

/* A type table from two lines of hexadecimal; ends the program where they are none. */
struct table load_table(const char *folder, const char *name);

#endif

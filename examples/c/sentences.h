/* Refusals in words, for a partner desk. */
#ifndef SENTENCES_H
#define SENTENCES_H

#include "safe.h"

/* Prints the sentence of an answer that is no success, with the place in the text it is about. */
void say(struct answer a, struct bytes text);

#endif

/* What the questions about further rows share. */
#ifndef FURTHER_H
#define FURTHER_H

#include "data.h"

/* Asks about hostile buffers made of the sample of each further row that is `answered`. Of each `parents` has the built-in
 * row that it stands below, or -1. */
void ask_around_samples(struct tally *tally, const int32_t *parents, const bool *answered);

#endif

/* Printing a pattern. */
#ifndef PATTERN_H
#define PATTERN_H

#include "records.h"
#include "source.h"

/* Prints one pattern as ISLE text, one piece to a line and indented by its depth, with the line and the
   column that the piece came from before it. 0 if there is no memory, else 1. */
int print_pattern(const struct source *source, struct record_list pattern);

#endif

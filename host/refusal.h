/* Printing a refusal: its number, its text and its place in the source. */
#ifndef REFUSAL_H
#define REFUSAL_H

#include "input.h"
#include "records.h"
#include "source.h"

#include <stdint.h>

/* A token file above the limits on tokens and text bytes. */
void print_too_large(void);

/* A result of isle_read or isle_read_text. */
void print_refused_reading(const struct source *source, const struct input *input, uint64_t result);

/* A result of isle_open. */
void print_refused_opening(const struct source *source, struct record_list definitions, struct record_list pattern,
                           uint64_t result);

#endif

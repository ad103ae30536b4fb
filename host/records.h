/* A list of records, and the trees in it. */
#ifndef RECORDS_H
#define RECORDS_H

#include <stddef.h>
#include <stdint.h>

struct record_list {
    const uint8_t *bytes;
    size_t count;
};

/* The index after the tree that starts at the index; at most the list's count. */
size_t tree_end(struct record_list list, size_t index);

/* The records of the tree that starts at the index; none if the list is shorter. */
struct record_list tree_at(struct record_list list, size_t index);

#endif

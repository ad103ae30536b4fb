#include "records.h"

#include "isle.h"

size_t tree_end(struct record_list list, size_t index)
{
    size_t trees_left = 1;
    while (trees_left > 0 && index < list.count) {
        trees_left = trees_left - 1 + isle_get_record(list.bytes, index).child_count;
        index++;
    }
    return index;
}

struct record_list tree_at(struct record_list list, size_t index)
{
    struct record_list tree = {list.bytes, 0};
    if (index < list.count) {
        tree.bytes = list.bytes + index * ISLE_RECORD_BYTES;
        tree.count = tree_end(list, index) - index;
    }
    return tree;
}

#include "memory.h"

#include <stdlib.h>

void *allocate(size_t bytes)
{
    return malloc(bytes == 0 ? 1 : bytes);
}

/* Memory for buffers. */
#ifndef MEMORY_H
#define MEMORY_H

#include <stddef.h>

/* Memory of that many bytes, also for 0 of them; NULL if there is none. The caller frees it. */
void *allocate(size_t bytes);

#endif

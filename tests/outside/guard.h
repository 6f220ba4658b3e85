/* Memory that ends where an unreadable page begins, so that a call that reads or writes one byte too
   far stops the program. */
#ifndef GUARD_H
#define GUARD_H

#include <stddef.h>
#include <stdint.h>

typedef struct {
    uint8_t *bytes;
    size_t room;
} guarded;

guarded guarded_of(size_t room);
uint8_t *guarded_end(const guarded *g, size_t length);

#endif

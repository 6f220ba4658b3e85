#define _DEFAULT_SOURCE
#include "guard.h"

#include <stdio.h>
#include <stdlib.h>
#include <sys/mman.h>

enum { PAGE = 65536 }; /* a multiple of every usual page size */

/* At least `room` bytes, with an unreadable page after the last. */
guarded guarded_of(size_t room)
{
    size_t whole = (room + PAGE - 1) / PAGE * PAGE;
    uint8_t *bytes = mmap(NULL, whole + PAGE, PROT_READ | PROT_WRITE, MAP_PRIVATE | MAP_ANONYMOUS, -1, 0);
    if (bytes == MAP_FAILED || mprotect(bytes + whole, PAGE, PROT_NONE) != 0) {
        perror("guarded memory");
        exit(2);
    }
    return (guarded){bytes, whole};
}

/* The last `length` bytes in front of the unreadable page. */
uint8_t *guarded_end(const guarded *g, size_t length)
{
    if (length > g->room) {
        fprintf(stderr, "guarded memory: %zu bytes asked, %zu there\n", length, g->room);
        exit(2);
    }
    return g->bytes + g->room - length;
}

/* The writer's calls with fields made from the fuzzer's bytes. */
#ifndef WRITE_H
#define WRITE_H

#include "bytes.h"

bool writer_keeps_promises(slice data);

#endif

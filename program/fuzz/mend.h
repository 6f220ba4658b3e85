/* Mending a file's trailers. */
#ifndef MEND_H
#define MEND_H

#include "bytes.h"

slice mend(slice file);

#endif

/* Whether the library's calls say the same about one file. */
#ifndef AGREE_H
#define AGREE_H

#include "fields.h"
#include "outline.h"

uint64_t amounts_of(const fields *f);
bool records_hold(slice file);
bool calls_agree(const outline *o);

#endif

/* Reports page by page. */
#ifndef PAGER_H
#define PAGER_H

#include <stdbool.h>

#include "outline.h"

bool put_report_paged(const outline *o);

#endif

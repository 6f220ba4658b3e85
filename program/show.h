/* The report: a file's groups, accounts, items and details in aligned columns. */
#ifndef SHOW_H
#define SHOW_H

#include <stdio.h>

#include "outline.h"

void put_report(FILE *to, const outline *o);

#endif

/* The export: an accepted file's records and items, a line each, for scripts and spreadsheets. */
#ifndef EXPORT_H
#define EXPORT_H

#include "bai2.h"
#include "bytes.h"
#include "sheet.h"

bool put_export(FILE *to, sheet_format format, slice file, bai2_summary summary);

#endif

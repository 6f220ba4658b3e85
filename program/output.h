/* Results as they are written: to standard output, or to a file that is whole or not there. */
#ifndef OUTPUT_H
#define OUTPUT_H

#include "bytes.h"

bool write_result(const char *path, slice result);
bool flush_standard_output(void);
int printed(void);

#endif

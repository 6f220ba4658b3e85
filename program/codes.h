/* The record codes, as the library hands them out. */
#ifndef CODES_H
#define CODES_H

typedef enum {
    FILE_HEADER = 1,
    GROUP_HEADER = 2,
    ACCOUNT_HEADER = 3,
    DETAIL = 16,
    ACCOUNT_TRAILER = 49,
    GROUP_TRAILER = 98,
    FILE_TRAILER = 99
} record_code;

#endif

/* Asks about type codes: all numbers of three digits and some more, those around each power of two, where
   a number that is cut short becomes a code, and any. */
#include <inttypes.h>
#include <stdio.h>

#include "compare.h"

enum { LAST = 1100 /* codes go to 999 */ };

static uint64_t asked, listed;

/* Asks about one number. */
static void ask(uint64_t seed, uint64_t code)
{
    name_code(seed, code);
    bai2_code c = ask_code(code);
    asked++;
    listed += c.listed;
    must_hold("no number over 999 is listed", code <= 999 || c.listed == 0);
    must_hold("a code that is not listed is nothing",
              c.listed == 1 || (c.listed | c.status | c.summary | c.detail | c.side) == 0);
}

/* A number of 64 bits, or of fewer. */
static uint64_t some_number(dice *d)
{
    uint64_t high = roll(d, UINT64_C(1) << 32), low = roll(d, UINT64_C(1) << 32);
    return (high << 32 | low) >> roll(d, 64);
}

/* Compares what is said of type codes: of N random numbers, after those that matter most. */
int compare_codes(uint64_t count, uint64_t seed)
{
    dice d = dice_of(seed);
    for (uint64_t code = 0; code <= LAST; code++)
        ask(seed, code);
    printf("%" PRIu64 " of the numbers from 0 to %d are listed\n", listed, LAST);
    for (unsigned bit = 0; bit < 64; bit++)
        for (uint64_t i = 0; i <= 2 * LAST; i++) /* below 0 it goes on from 2^64 - 1 */
            ask(seed, (UINT64_C(1) << bit) - LAST + i);
    for (uint64_t i = 0; i < count; i++)
        ask(seed, some_number(&d));
    printf("compare codes: %" PRIu64 " numbers, 0 differences\n", asked);
    return 0;
}

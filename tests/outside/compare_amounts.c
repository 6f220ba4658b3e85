/* Asks for all details and items of a file, with the forms of their amounts: of every number, one past
   the last, and far past it. */
#include <inttypes.h>
#include <stdio.h>

#include "compare.h"

enum { FORMS = BAI2_AMOUNT_WITH_MINUS + 1 };

/* What has an amount. */
typedef enum { STATUS, SUMMARY, DETAIL, SORTS } sort;

static uint64_t forms[SORTS][FORMS], zeros[SORTS][FORMS]; /* how often each form was told, and with 0 */
static uint64_t counts[2]; /* how many summaries had no item count, and one */

/* Counts an amount that was told. */
static void count_form(sort of, uint64_t form, uint64_t amount)
{
    forms[of][form]++;
    zeros[of][form] += amount == 0;
}

/* Counts a detail that was told. */
static void count_detail(bai2_detail d)
{
    must_hold("an empty amount is 0", d.amount_form != BAI2_AMOUNT_EMPTY || d.amount == 0);
    must_hold("a detail has no minus", d.amount_form <= BAI2_AMOUNT_WITH_PLUS);
    count_form(DETAIL, d.amount_form, d.amount);
}

/* Counts an item that was told. */
static void count_item(bai2_item i)
{
    sort of = i.type <= 99 || (i.type >= 900 && i.type <= 919) ? STATUS : SUMMARY;
    must_hold("an empty amount is 0", i.amount_form != BAI2_AMOUNT_EMPTY || i.amount == 0);
    must_hold("only a status has a minus", of == STATUS || i.amount_form <= BAI2_AMOUNT_WITH_PLUS);
    must_hold("only a summary has a count", of == SUMMARY || i.count_given == 0);
    must_hold("no count is 0", i.count_given == 1 || i.count == 0);
    count_form(of, i.amount_form, i.amount);
    if (of == SUMMARY)
        counts[i.count_given]++;
}

/* Prints how often each form was told: of statuses, summaries and details; then of how many summaries
   the item count was. */
void print_forms(void)
{
    static const char *const names[] = {"statuses", "summaries", "details"};
    printf("    told   empty unsigned    plus   minus       0      +0      -0\n");
    for (size_t i = 0; i < SORTS; i++) {
        printf("%9s %7" PRIu64 "  %7" PRIu64 " %7" PRIu64 " %7" PRIu64, names[i], forms[i][0], forms[i][1],
               forms[i][2], forms[i][3]);
        printf(" %7" PRIu64 " %7" PRIu64 " %7" PRIu64 "\n", zeros[i][1], zeros[i][2], zeros[i][3]);
    }
    printf("   counts %7" PRIu64 "  %7" PRIu64 " given\n", counts[0], counts[1]);
}

/* A number that no part has; many become one that is there where they are cut short. */
static uint64_t far_number(dice *d)
{
    const uint64_t far[] = {UINT64_MAX, UINT64_MAX - roll(d, 4), (UINT64_C(1) << 63) + roll(d, 4),
                            (UINT64_C(1) << 32) + roll(d, 4), (UINT64_C(1) << 16) + roll(d, 4)};
    return far[roll(d, sizeof far / sizeof *far)];
}

/* Asks for the details and items of an account, one past the last, and one far past; adds how many were
   told. */
static void ask_account(dice *d, slice file, uint64_t group, uint64_t account, told *all)
{
    uint64_t details = 0, items = 0;
    for (bai2_detail a; (a = ask_detail(file, group, account, details)).number == 0; details++)
        count_detail(a);
    for (bai2_item a; (a = ask_item(file, group, account, items)).number == 0; items++)
        count_item(a);
    must_hold("no detail is so far", ask_detail(file, group, account, far_number(d)).number != 0);
    must_hold("no item is so far", ask_item(file, group, account, far_number(d)).number != 0);
    all->details += details;
    all->items += items;
}

/* Asks so for the accounts of a group, and for one past the last; whether there is one. */
static bool ask_group(dice *d, slice file, uint64_t group, told *all)
{
    uint64_t account = 0;
    do
        ask_account(d, file, group, account, all);
    while (oracle.account(file.bytes, file.length, group, account++).number == 0);
    return account > 1;
}

/* Asks for all details and items of a file, and for some of groups and accounts that are not there; how
   many were told. */
told ask_amounts(dice *d, slice file)
{
    told all = {0};
    for (uint64_t group = 0; ask_group(d, file, group, &all); group++)
        continue;
    ask_account(d, file, 0, far_number(d), &all);
    ask_account(d, file, far_number(d), 0, &all);
    return all;
}

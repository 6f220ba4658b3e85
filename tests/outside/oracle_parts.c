/* Parts of an accepted file (document 01, "Parts, combining, splitting, writing"), its details and items
   with the forms of their amounts (document 02, 2026-03): refusal 17. */
#include "oracle_inner.h"

/* The refusal of a part: the reader's, else 17 where the part was not found. */
static refusal part_refusal(const reader *r, bool found)
{
    if (r->refusal.number != 0)
        return r->refusal;
    return (refusal){found ? 0 : 17, 0};
}

/* Whether the reader stands in the group of that number, counted from 0. */
static bool in_group(const reader *r, uint64_t group)
{
    return r->whole.groups > 0 && r->whole.groups - 1 == group;
}

/* Whether the reader stands in that account of that group. */
static bool in_account(const reader *r, uint64_t group, uint64_t account)
{
    return in_group(r, group) && r->group.accounts > 0 && r->group.accounts - 1 == account;
}

/* The part from `start` to the reader's place, where it was found in an accepted file. */
static bai2_part part_of(const reader *r, bool found, size_t start, size_t end)
{
    refusal refused = part_refusal(r, found);
    if (refused.number != 0)
        return (bai2_part){.number = refused.number, .place = refused.place};
    return (bai2_part){0, 0, start, end - start};
}

/* The group of that number, 02 to 98. */
bai2_part oracle_group(const uint8_t *file, size_t file_length, uint64_t group)
{
    reader r = oracle_open(file, file_length);
    record rec;
    bool found = false;
    size_t start = 0, end = 0;
    while (oracle_next_record(&r, &rec)) {
        if (rec.code == GROUP_TRAILER && in_group(&r, group)) {
            found = true;
            start = r.group_start;
            end = rec.end;
        }
    }
    return part_of(&r, found, start, end);
}

/* The account of that number in that group, 03 to 49. */
bai2_part oracle_account(const uint8_t *file, size_t file_length, uint64_t group, uint64_t account)
{
    reader r = oracle_open(file, file_length);
    record rec;
    bool found = false;
    size_t start = 0, end = 0;
    while (oracle_next_record(&r, &rec)) {
        if (rec.code == ACCOUNT_TRAILER && in_account(&r, group, account)) {
            found = true;
            start = r.account_start;
            end = rec.end;
        }
    }
    return part_of(&r, found, start, end);
}

/* The detail of that number in that account of that group. */
bai2_detail oracle_detail_of(const uint8_t *file, size_t file_length,
                             uint64_t group, uint64_t account, uint64_t detail)
{
    reader r = oracle_open(file, file_length);
    record rec;
    bool found = false;
    bai2_detail answer = {0};
    while (oracle_next_record(&r, &rec)) {
        if (rec.code == DETAIL && in_account(&r, group, account) && r.account.details - 1 == detail) {
            found = true;
            answer = (bai2_detail){0, 0, rec.last.type, rec.last.amount.form, rec.last.amount.magnitude,
                                   rec.text_start, rec.text_length};
        }
    }
    refusal refused = part_refusal(&r, found);
    if (refused.number != 0)
        return (bai2_detail){.number = refused.number, .place = refused.place};
    return answer;
}

/* The item of that number in the 03 of that account of that group. */
bai2_item oracle_item_of(const uint8_t *file, size_t file_length,
                         uint64_t group, uint64_t account, uint64_t item)
{
    reader r = oracle_open(file, file_length);
    record rec;
    bool found = false;
    posting kept = {0};
    r.asked = item;
    while (oracle_next_record(&r, &rec)) {
        if (rec.code == ACCOUNT_HEADER && in_account(&r, group, account) && item < rec.items) {
            found = true;
            kept = rec.item;
        }
    }
    refusal refused = part_refusal(&r, found);
    if (refused.number != 0)
        return (bai2_item){.number = refused.number, .place = refused.place};
    return (bai2_item){0, 0, kept.type, kept.amount.form, kept.amount.magnitude, kept.count_given,
                       kept.count};
}

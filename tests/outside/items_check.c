/* Asks for items and details whose answers were worked out by hand from documents 01 and 02. It is linked
   with the oracle under the library's names, and with the library. */
#include <inttypes.h>
#include <stdio.h>
#include <string.h>

#include "bai2.h"

enum { FIGURES = 7, FAR = 100 };

/* The forms of an amount. */
enum {
    EMPTY = BAI2_AMOUNT_EMPTY,
    UNSIGNED = BAI2_AMOUNT_UNSIGNED,
    PLUS = BAI2_AMOUNT_WITH_PLUS,
    MINUS = BAI2_AMOUNT_WITH_MINUS
};

/* The first 46 bytes of each file: a 01 of 26 and a 02 of 20. The 03 after it is at 46, its first type at
   52 and that type's amount at 56; where it has no item, it ends at 57. */
#define GROUP "02,R,O,1,040620,,,/\n"
#define HEAD "01,A,B,040621,0200,1,,,2/\n" GROUP
#define NO_ITEM "03,X,,,,,/\n"

/* 5 + 5 - 5, 7, 7 and -5 are 14. */
static const char statuses[] = HEAD
    "03,X,,010,,,,015,5,,,040,+5,,,045,-5,,/\n"
    "88,001,0,,,099,+0,,,900,-0,,,919,007,,/\n"
    "88,072,-000,,,074,+007,,,905,000000000000000000,,,906,-000000000000000000,,/\n"
    "88,907,-000000000000000005,,/\n"
    "49,14,5/\n98,14,1,7/\n99,14,1,9/\n";

/* 5 + 5 + 7 + 1. */
static const char summaries[] = HEAD
    "03,X,,100,,,,400,5,3,0,110,+5,007,1/\n"
    "88,190,0,0,2,399,+0,000000000,Z,401,007,999999999,,799,+000000000000000000,,/\n"
    "88,920,000000000000000000,000000012,,999,000000000000000001,1,/\n"
    "49,18,4/\n98,18,1,6/\n99,18,1,8/\n";

/* 100 with S (1, none, 3), 010, 165 with V, 919, 400 with D, 999 with S (none at all), 015: 9 - 7. */
static const char over_88s[] = HEAD
    "03,X,,100,/\n88,2,S/\n88,1,/\n88,3,010/\n88,-0/\n88,,/\n88,165,+9,,V,040620/\n"
    "88,2400,919,-7,,,400,,0/\n88,D,2,0,5/\n88,1,5,999,00,,S,,,,015,,,/\n"
    "49,2,11/\n98,2,1,13/\n99,2,1,15/\n";

/* The details start at 57, 74, 95, 113, 127, 142, 158, 189, 235, 251, 269; 5 + 5 + 7 + 5 + 7. */
static const char details[] = HEAD NO_ITEM
    "16,165,,,,,EMPTY\n16,165,5,,,,UNSIGNED\n16,165,+5,,,,PLUS\n"
    "16,409,0,,,,/\n16,409,+0,,,,/\n16,920,007,,,,/\n16,999,000000000000000000,,,,/\n"
    "16,401,+000000000000000005,S,,5,,B,C/\n88,TEXT\n"
    "16,890,,,,,NOTE\n"
    "16,165,/\n88,1,,,/\n"
    "16,165/\n88,+007/\n88,V,040620,/\n88,,,D,1/\n"
    "49,29,18/\n98,29,1,20/\n99,29,1,22/\n";

/* Two groups, of two accounts and of one, whose detail is at 157. */
static const char places[] = HEAD
    "03,X,,010,-1,,,100,,,/\n49,-1,2/\n03,Y,,905,+2,,/\n16,165,3,,,,/\n49,5,3/\n98,4,2,7/\n"
    GROUP NO_ITEM "16,920,+4,,,,T\n49,4,3/\n98,4,1,5/\n99,8,2,14/\n";

/* All that the bound allows, with a minus and with a plus; zeros beside it. */
static const char most_minus[] = HEAD
    "03,X,,010,-999999999999999999,,,100,+0,,/\n16,165,0,,,,/\n"
    "49,-999999999999999999,3/\n98,-999999999999999999,1,5/\n99,-999999999999999999,1,7/\n";
static const char most_plus[] = HEAD
    "03,X,,010,-000,,/\n16,165,+999999999999999999,,,,/\n"
    "49,+999999999999999999,3/\n98,999999999999999999,1,5/\n99,+999999999999999999,1,7/\n";

/* Refused: without a byte (1); before its 99 (6); for a summary's minus, a detail's, at 57 + 7, a sign
   alone (8); for the total of the 49, which is at 62 (11). */
static const char no_byte[] = "";
static const char no_end[] = HEAD "03,X,,010,+5,,/\n";
static const char minus_summary[] = HEAD "03,X,,100,-5,,/\n49,-5,2/\n98,-5,1,4/\n99,-5,1,6/\n";
static const char minus_detail[] = HEAD NO_ITEM "16,165,-0,,,,/\n49,0,3/\n98,0,1,5/\n99,0,1,7/\n";
static const char sign_alone[] = HEAD "03,X,,010,-,,/\n49,0,2/\n98,0,1,4/\n99,0,1,6/\n";
static const char total_wrong[] = HEAD "03,X,,010,-0,,/\n49,1,2/\n98,1,1,4/\n99,1,1,6/\n";

/* What is asked for, and the answer's figures. */
typedef struct {
    const char *what, *file;
    size_t length;
    enum { ITEM, DETAIL } sort;
    uint64_t group, account, number, answer[FIGURES];
} sample;

/* An item or detail of a file, by the numbers of its group, of its account and of its own; its answer. */
#define OF(file, sort, group, account, number, ...) \
    {#file, file, sizeof file - 1, sort, group, account, number, {__VA_ARGS__}}

/* Answers: type, form and amount, with an item's count or a detail's text (place, length) where it has one;
   and a refusal. */
#define SHOWN(type, form, amount) 0, 0, type, form, amount
#define COUNTED(type, form, amount, count) SHOWN(type, form, amount), 1, count
#define TEXTED(type, form, amount, place, length) SHOWN(type, form, amount), place, length
#define REFUSED(number, place) number, place

static const sample samples[] = {
    OF(statuses, ITEM, 0, 0, 0, SHOWN(10, EMPTY, 0)),
    OF(statuses, ITEM, 0, 0, 1, SHOWN(15, UNSIGNED, 5)),
    OF(statuses, ITEM, 0, 0, 2, SHOWN(40, PLUS, 5)),
    OF(statuses, ITEM, 0, 0, 3, SHOWN(45, MINUS, 5)),
    OF(statuses, ITEM, 0, 0, 4, SHOWN(1, UNSIGNED, 0)),
    OF(statuses, ITEM, 0, 0, 5, SHOWN(99, PLUS, 0)),
    OF(statuses, ITEM, 0, 0, 6, SHOWN(900, MINUS, 0)),
    OF(statuses, ITEM, 0, 0, 7, SHOWN(919, UNSIGNED, 7)),
    OF(statuses, ITEM, 0, 0, 8, SHOWN(72, MINUS, 0)),
    OF(statuses, ITEM, 0, 0, 9, SHOWN(74, PLUS, 7)),
    OF(statuses, ITEM, 0, 0, 10, SHOWN(905, UNSIGNED, 0)),
    OF(statuses, ITEM, 0, 0, 11, SHOWN(906, MINUS, 0)),
    OF(statuses, ITEM, 0, 0, 12, SHOWN(907, MINUS, 5)),
    OF(statuses, ITEM, 0, 0, 13, REFUSED(17, 0)),
    OF(statuses, DETAIL, 0, 0, 0, REFUSED(17, 0)),

    OF(summaries, ITEM, 0, 0, 0, SHOWN(100, EMPTY, 0)),
    OF(summaries, ITEM, 0, 0, 1, COUNTED(400, UNSIGNED, 5, 3)),
    OF(summaries, ITEM, 0, 0, 2, COUNTED(110, PLUS, 5, 7)),
    OF(summaries, ITEM, 0, 0, 3, COUNTED(190, UNSIGNED, 0, 0)),
    OF(summaries, ITEM, 0, 0, 4, COUNTED(399, PLUS, 0, 0)),
    OF(summaries, ITEM, 0, 0, 5, COUNTED(401, UNSIGNED, 7, 999999999)),
    OF(summaries, ITEM, 0, 0, 6, SHOWN(799, PLUS, 0)),
    OF(summaries, ITEM, 0, 0, 7, COUNTED(920, UNSIGNED, 0, 12)),
    OF(summaries, ITEM, 0, 0, 8, COUNTED(999, UNSIGNED, 1, 1)),
    OF(summaries, ITEM, 0, 0, 9, REFUSED(17, 0)),

    OF(over_88s, ITEM, 0, 0, 0, COUNTED(100, EMPTY, 0, 2)),
    OF(over_88s, ITEM, 0, 0, 1, SHOWN(10, MINUS, 0)),
    OF(over_88s, ITEM, 0, 0, 2, SHOWN(165, PLUS, 9)),
    OF(over_88s, ITEM, 0, 0, 3, SHOWN(919, MINUS, 7)),
    OF(over_88s, ITEM, 0, 0, 4, COUNTED(400, EMPTY, 0, 0)),
    OF(over_88s, ITEM, 0, 0, 5, SHOWN(999, UNSIGNED, 0)),
    OF(over_88s, ITEM, 0, 0, 6, SHOWN(15, EMPTY, 0)),
    OF(over_88s, ITEM, 0, 0, 7, REFUSED(17, 0)),

    OF(details, DETAIL, 0, 0, 0, TEXTED(165, EMPTY, 0, 68, 5)),
    OF(details, DETAIL, 0, 0, 1, TEXTED(165, UNSIGNED, 5, 86, 8)),
    OF(details, DETAIL, 0, 0, 2, TEXTED(165, PLUS, 5, 108, 4)),
    OF(details, DETAIL, 0, 0, 3, SHOWN(409, UNSIGNED, 0)),
    OF(details, DETAIL, 0, 0, 4, SHOWN(409, PLUS, 0)),
    OF(details, DETAIL, 0, 0, 5, SHOWN(920, UNSIGNED, 7)),
    OF(details, DETAIL, 0, 0, 6, SHOWN(999, UNSIGNED, 0)),
    OF(details, DETAIL, 0, 0, 7, TEXTED(401, PLUS, 5, 230, 4)),
    OF(details, DETAIL, 0, 0, 8, TEXTED(890, EMPTY, 0, 246, 4)),
    OF(details, DETAIL, 0, 0, 9, SHOWN(165, EMPTY, 0)),
    OF(details, DETAIL, 0, 0, 10, TEXTED(165, PLUS, 7, 305, 4)),
    OF(details, DETAIL, 0, 0, 11, REFUSED(17, 0)),
    OF(details, ITEM, 0, 0, 0, REFUSED(17, 0)),

    OF(places, ITEM, 0, 0, 0, SHOWN(10, MINUS, 1)),
    OF(places, ITEM, 0, 0, 1, SHOWN(100, EMPTY, 0)),
    OF(places, ITEM, 0, 0, 2, REFUSED(17, 0)),
    OF(places, ITEM, 0, 1, 0, SHOWN(905, PLUS, 2)),
    OF(places, ITEM, 0, 1, 1, REFUSED(17, 0)),
    OF(places, ITEM, 0, 2, 0, REFUSED(17, 0)),
    OF(places, ITEM, 1, 0, 0, REFUSED(17, 0)),
    OF(places, ITEM, 1, 1, 0, REFUSED(17, 0)),
    OF(places, ITEM, 2, 0, 0, REFUSED(17, 0)),
    OF(places, ITEM, UINT64_MAX, 0, 0, REFUSED(17, 0)),
    OF(places, ITEM, 0, UINT64_MAX, 0, REFUSED(17, 0)),
    OF(places, ITEM, 0, 0, UINT64_MAX, REFUSED(17, 0)),
    OF(places, ITEM, 0, 0, UINT64_C(1) << 32, REFUSED(17, 0)),
    OF(places, DETAIL, 0, 0, 0, REFUSED(17, 0)),
    OF(places, DETAIL, 0, 1, 0, SHOWN(165, UNSIGNED, 3)),
    OF(places, DETAIL, 0, 1, 1, REFUSED(17, 0)),
    OF(places, DETAIL, 1, 0, 0, TEXTED(920, PLUS, 4, 170, 1)),
    OF(places, DETAIL, 2, 0, 0, REFUSED(17, 0)),
    OF(places, DETAIL, 0, 1, UINT64_MAX, REFUSED(17, 0)),

    OF(most_minus, ITEM, 0, 0, 0, SHOWN(10, MINUS, UINT64_C(999999999999999999))),
    OF(most_minus, ITEM, 0, 0, 1, SHOWN(100, PLUS, 0)),
    OF(most_minus, DETAIL, 0, 0, 0, SHOWN(165, UNSIGNED, 0)),
    OF(most_plus, ITEM, 0, 0, 0, SHOWN(10, MINUS, 0)),
    OF(most_plus, DETAIL, 0, 0, 0, SHOWN(165, PLUS, UINT64_C(999999999999999999))),

    /* the reader's refusal comes before 17 */
    OF(no_byte, ITEM, 0, 0, 0, REFUSED(1, 0)),
    OF(no_byte, DETAIL, 0, 0, 0, REFUSED(1, 0)),
    OF(no_end, ITEM, 0, 0, 0, REFUSED(6, 62)),
    OF(no_end, DETAIL, 0, 0, 0, REFUSED(6, 62)),
    OF(minus_summary, ITEM, 0, 0, 0, REFUSED(8, 56)),
    OF(minus_summary, ITEM, FAR, FAR, FAR, REFUSED(8, 56)),
    OF(minus_detail, ITEM, 0, 0, 0, REFUSED(8, 64)),
    OF(minus_detail, DETAIL, 0, 0, 0, REFUSED(8, 64)),
    OF(minus_detail, DETAIL, FAR, FAR, FAR, REFUSED(8, 64)),
    OF(sign_alone, ITEM, 0, 0, 0, REFUSED(8, 56)),
    OF(total_wrong, ITEM, 0, 0, 0, REFUSED(11, 65)),
    OF(total_wrong, ITEM, 0, 0, 1, REFUSED(11, 65)),
};

/* Whether an answer has the sample's figures. */
static int holds(const sample *s, const uint64_t *answer)
{
    if (memcmp(answer, s->answer, sizeof s->answer) == 0)
        return 1;
    printf("%s: %s %" PRIu64 " of account %" PRIu64 " of group %" PRIu64 " is told as", s->what,
           s->sort == ITEM ? "item" : "detail", s->number, s->account, s->group);
    for (size_t i = 0; i < FIGURES; i++)
        printf(" %" PRIu64, answer[i]);
    printf("\n");
    return 0;
}

/* Whether the item or detail is told as the sample has it. */
static int sample_holds(const sample *s)
{
    const uint8_t *file = (const uint8_t *)s->file;
    if (s->sort == ITEM) {
        bai2_item i = bai2_item_of(file, s->length, s->group, s->account, s->number);
        return holds(s, &i.number);
    }
    bai2_detail d = bai2_detail_of(file, s->length, s->group, s->account, s->number);
    return holds(s, &d.number);
}

/* Checks every sample. */
int main(void)
{
    unsigned count = sizeof samples / sizeof *samples, wrong = 0;
    for (unsigned i = 0; i < count; i++)
        wrong += !sample_holds(&samples[i]);
    printf("items and details: %u worked out by hand, %u differences\n", count, wrong);
    return wrong != 0;
}

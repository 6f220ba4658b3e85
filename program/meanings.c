/* What each refusal means and what to do about it (document 01, "Refusals by number"). */
#include "refusal.h"

static const explanation explanations[REFUSALS + 1] = {
    [0] = {"no refusal of this number", "'bai2 explain' lists all refusals.", "Look it up by another."},
    [BAI2_EMPTY_FILE] = {
        "the file is empty", "The file has no byte at all.",
        "Fetch the file again: a transfer that broke off often leaves an empty file."},
    [BAI2_FILE_TOO_LONG] = {
        "the file is too long",
        "The file has more than 16,777,216 bytes, the most that is read.",
        "Make sure that it is a BAI2 file. If it is, ask the sender for several smaller ones."},
    [BAI2_LINE_TOO_LONG] = {
        "a line is too long",
        "A line has more than 4,096 bytes, or more than the record length that the 01 record gives "
        "in its sixth field. The place is the first byte too many.",
        "Fetch the file again if its line ends were lost on the way. Otherwise ask the sender to "
        "carry long records on in 88 lines, or to state the record length that it really uses."},
    [BAI2_BYTE_NOT_ALLOWED] = {
        "a byte that is not allowed",
        "A line holds a byte that is not a printable ASCII character: a tab, an accented letter or "
        "a control character, for instance.",
        "Ask the sender to write plain ASCII. If the file passed through an editor or a converter, "
        "fetch the original again."},
    [BAI2_NO_RECORD_CODE] = {
        "a line without a record code",
        "Every line begins with a record code and a comma. The codes are 01, 02, 03, 16, 49, 88, 98 "
        "and 99.",
        "Look for an empty line, a text that was broken in two without its 88, or words that a "
        "mail program or a printer added. Fetch the original file again."},
    [BAI2_RECORD_OUT_OF_ORDER] = {
        "a record out of order, or no 99 at the end",
        "The order is 01; then for each group 02, its accounts (03, any number of 16, then 49) and "
        "98; then 99 and nothing after it. The place is the start of the record that may not stand "
        "there, or the file's end where the 99 is missing.",
        "If the place is the file's end, the transfer was cut short: fetch the file again. Two files "
        "pasted together are joined rightly by 'bai2 combine'. Otherwise the sender must mend it."},
    [BAI2_LINE_BADLY_ENDED] = {
        "a line or a text that is not ended rightly",
        "A line ends inside a field, with no comma or slash after it; or something follows the "
        "slash that ends the line; or a piece of text is empty or begins with a slash.",
        "Look at the end of the line for a lost or a misplaced slash, and show the line to the "
        "sender."},
    [BAI2_WRONG_FIELD] = {
        "a wrong field",
        "A field has a value that may not stand there, is missing (the place is then the record's "
        "last slash), or is one too many.",
        "Count the fields after the code. 01: sender, receiver, date, time, file number, record "
        "length, block size, version. 02: receiver, originator, status, date, time, currency, "
        "modifier. 03: account, currency, then type, amount, item count, funds for each item. "
        "16: type, amount, funds, bank reference, customer reference, text. 49: total, records. "
        "98: total, accounts, records. 99: total, groups, records. Types 001 to 099 and 900 to 919 "
        "are status codes: they stand in a 03 alone, their amount may have a minus, and their item "
        "count and funds are empty. Ask 'bai2 codes TYPE' about a type. Show the line to the sender."},
    [BAI2_WRONG_VERSION] = {
        "not version 2",
        "The last field of the 01 record names the version of the format. Only version 2 is read.",
        "Ask the sender for BAI Version 2."},
    [BAI2_AMOUNTS_TOO_LARGE] = {
        "the amounts are too large",
        "All amounts of the file, added up without their signs, pass 999,999,999,999,999,999. The "
        "place is the amount that passes it; when two files are combined there is no place.",
        "Look for an amount with digits too many. If all are right, work with smaller files."},
    [BAI2_WRONG_TOTAL] = {
        "a control total is wrong",
        "The total that a 49, 98 or 99 record states is not the sum of the amounts that it closes. "
        "Every amount of the 03 and 16 records counts with its sign, debits are added too, and the "
        "amounts inside a funds field are left out.",
        "Do not use the file: an amount or a record was lost or changed. Fetch the file again, "
        "and if it stays wrong ask the sender for a corrected one."},
    [BAI2_WRONG_COUNT] = {
        "a number of accounts or groups is wrong",
        "The 98 record states how many accounts its group has, the 99 record how many groups the "
        "file has. What it states is not what is there.",
        "Do not use the file: an account or a group was lost or added. Fetch the file again, and "
        "if it stays wrong ask the sender for a corrected one."},
    [BAI2_WRONG_RECORD_COUNT] = {
        "a number of records is wrong",
        "A 49, 98 or 99 record states how many records it closes. Every line counts: 88 lines, and "
        "the first and the last record themselves.",
        "Lines were lost or added, or the sender does not count its 88 lines. Fetch the file again, "
        "and if it stays wrong ask the sender for a corrected one."},
    [BAI2_SUM_TOO_LARGE] = {
        "a sum is too large",
        "The sum of a group or of the file passes 999,999,999,999,999,999 either way.",
        "Look for an amount with digits too many. If all are right, work with smaller files."},
    [BAI2_NO_ROOM] = {
        "no room for the result",
        "A program gave the library less room than the result needs.",
        "This program always gives enough. A program of your own must give more: bai2.h says how much is "
        "always enough."},
    [BAI2_NOT_A_NAME] = {
        "not a receiver's name",
        "The name asked for is empty, longer than 76 bytes, or has a comma, a slash or a byte that "
        "is not a printable ASCII character.",
        "Give the receiver exactly as the group's 02 record has it, with its leading zeros; "
        "'bai2 show' lists the receivers."},
    [BAI2_NO_SUCH_PART] = {
        "no such group, account, detail or item",
        "A program asked for a group, account, detail or item that the file does not have (they are "
        "numbered from 0), or for a record at the file's end or after it. A 03 whose sole item is empty "
        "has no item.",
        "Ask for the numbers first: 'bai2 summary' prints how many groups, accounts and details there "
        "are, 'bai2 show' lists the items."},
    [BAI2_RESULT_TOO_LONG] = {
        "the result is not a file that can be read",
        "The result would be longer than 16,777,216 bytes; or a line of the second file's groups is "
        "longer than the record length that the first file's 01 record states.",
        "Combine fewer files, or give the file with the greater record length first."},
    [BAI2_OUT_OF_TURN] = {
        "the writer was called out of turn",
        "A program asked for a record where it may not stand, a detail before its account for "
        "instance.",
        "Mend the program: header, then groups with their accounts and details, each with its end."},
    [BAI2_WRONG_FIELD_GIVEN] = {
        "the writer was given a wrong field",
        "A program gave a field that a reader would refuse; or a text that is longer than 76 bytes, "
        "begins with a slash or ends in a blank.",
        "Mend the program: bai2.h says which form each field has."},
};

/* The explanation of a refusal's number. */
explanation explain(uint64_t number)
{
    return explanations[number <= REFUSALS ? number : 0];
}

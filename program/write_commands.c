/* The commands that write a file: split and combine. */
#include <stdlib.h>
#include <string.h>

#include "bai2.h"
#include "commands.h"
#include "input.h"
#include "message.h"
#include "output.h"
#include "refusal.h"

enum { RECEIVER_ROOM = 128 };

/* Says so where a result has no group at all; the result is right, but may surprise. */
static void note_no_group(const char *name, const input *in, slice result)
{
    if (bai2_read(result.bytes, result.length).groups == 0)
        complain("note: %s has no group for receiver '%s'", in->name, name);
}

/* Tells why a split was refused: the name asked for, or the file. */
static void tell_split_refusal(const char *name, const input *in, bai2_answer answer)
{
    char receiver[RECEIVER_ROOM];
    snprintf(receiver, sizeof receiver, "receiver '%.100s'", name);
    if (answer.number == BAI2_NOT_A_NAME)
        tell_refusal_without_place(stderr, receiver, answer.number);
    else
        tell_refusal(stderr, in->name, in->file, answer.number, answer.place);
}

/* bai2 split NAME FILE: the file with only the groups of that receiver. */
int split_command(const arguments *a)
{
    const char *name = a->operands[0];
    input in;
    if (!load(&in, a->operands[1]))
        return REFUSED;
    size_t room = in.file.length + BAI2_TRAILER_ROOM;
    uint8_t *out = room_for(room, 1);
    bai2_answer answer = bai2_split((const uint8_t *)name, strlen(name), in.file.bytes,
                                    in.file.length, out, room);
    slice result = {out, (size_t)answer.length};
    int status = answer.number != 0 ? REFUSED : write_result(a->out, result) ? GOOD : TROUBLE;
    if (status == REFUSED)
        tell_split_refusal(name, &in, answer);
    if (status == GOOD)
        note_no_group(name, &in, result);
    free(out);
    unload(&in);
    return status;
}

/* Tells why a combination was refused: one of the files, or the two together. */
static void tell_combine_refusal(const input *first, const input *second, bai2_combined answer)
{
    const input *guilty = answer.file == 2 ? second : first;
    if (answer.file != 0)
        tell_refusal(stderr, guilty->name, guilty->file, answer.number, answer.place);
    else
        tell_refusal_without_place(stderr, "the two files together", answer.number);
}

/* Combines two files that were read, and writes the result. */
static int combine(const input *first, const input *second, const char *path)
{
    size_t room = first->file.length + second->file.length + BAI2_TRAILER_ROOM;
    uint8_t *out = room_for(room, 1);
    bai2_combined answer = bai2_combine(first->file.bytes, first->file.length, second->file.bytes,
                                        second->file.length, out, room);
    slice result = {out, (size_t)answer.length};
    int status = answer.number != 0 ? REFUSED : write_result(path, result) ? GOOD : TROUBLE;
    if (status == REFUSED)
        tell_combine_refusal(first, second, answer);
    free(out);
    return status;
}

/* bai2 combine A B: A's header and groups, then B's groups. */
int combine_command(const arguments *a)
{
    input first, second;
    if (is_standard_input(a->operands[0]) && is_standard_input(a->operands[1])) {
        complain("combine: only one of the two files can be standard input");
        return MISUSED;
    }
    if (!load(&first, a->operands[0]))
        return REFUSED;
    int status = REFUSED;
    if (load(&second, a->operands[1])) {
        status = combine(&first, &second, a->out);
        unload(&second);
    }
    unload(&first);
    return status;
}

/* The commands that look into one file: show and screen. */
#include "commands.h"
#include "export.h"
#include "input.h"
#include "message.h"
#include "outline.h"
#include "output.h"
#include "pager.h"
#include "refusal.h"
#include "screen.h"

/* Shows the report of an accepted file; false where it can't. */
static bool show_report(const input *in, bai2_summary s)
{
    outline o;
    make_outline(&o, in->file, s);
    bool shown = put_report_paged(&o);
    drop_outline(&o);
    return shown;
}

/* Writes an accepted file's lines for programs; how the command ends. */
static int export_file(const input *in, output_format format, bai2_summary s)
{
    bool whole = put_export(stdout, format == AS_JSON ? JSON_LINES : CSV, in->file, s);
    bool written = flush_standard_output();
    if (!whole)
        complain("%s: the library hands out other records than it has counted, so the output is not "
                 "whole; this is a fault of the program, please report it with the file", in->name);
    return whole && written ? GOOD : TROUBLE;
}

/* bai2 show FILE: the report or its lines for programs, or the refusal in words. */
int show_command(const arguments *a)
{
    input in;
    int status = REFUSED;
    if (!load(&in, a->operands[0]))
        return REFUSED;
    bai2_summary s = bai2_read(in.file.bytes, in.file.length);
    if (s.number != 0)
        tell_refusal(stderr, in.name, in.file, s.number, s.place);
    else if (a->format != REPORT)
        status = export_file(&in, a->format, s);
    else
        status = show_report(&in, s) ? GOOD : TROUBLE;
    unload(&in);
    return status;
}

/* Lets the user move about in an accepted file's tree; false where there is no terminal. */
static bool show_tree_screen(const input *in, bai2_summary s)
{
    outline o;
    tree_screen screen;
    make_outline(&o, in->file, s);
    view v = open_tree_view(&screen, in->name, &o);
    bool shown = run_view(&v);
    close_tree_view(&screen);
    drop_outline(&o);
    return shown;
}

/* Lets the user move about in a refused file's lines; false where there is no terminal. */
static bool show_refusal_screen(const input *in, bai2_summary s)
{
    refusal_screen screen;
    view v = open_refusal_view(&screen, in->name, in->file, s.number, s.place);
    return run_view(&v);
}

/* bai2 screen FILE: the file's tree to move about in, or its refusal at the byte. */
int screen_command(const arguments *a)
{
    input in;
    int status;
    if (!load(&in, a->operands[0]))
        return REFUSED;
    bai2_summary s = bai2_read(in.file.bytes, in.file.length);
    if (s.number != 0)
        status = show_refusal_screen(&in, s) ? REFUSED : TROUBLE;
    else
        status = show_tree_screen(&in, s) ? GOOD : TROUBLE;
    unload(&in);
    return status;
}

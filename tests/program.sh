# What the tests of the program bai2 share: where things stand, how it is built, run and looked at.
# With MAKEFLAGS='-- LIB=/path/to/libbai2.a' they link another archive than the proved one.
# shellcheck shell=bash disable=SC2034 # its variables are for the scripts that read this
root=$PWD
samples=$root/crates/run_samples/data
expected=$root/crates/run_samples/stdout
oracle=$root/tests/outside
work=$(mktemp -d)
bai2=$work/bai2
trap 'rm -rf "$work"' EXIT

check 'make and a C compiler for x86-64 are here' need_x86

# Builds by the Makefile of program/: build FOLDER [VARIABLE=VALUE..] [TARGET..].
build() {
    local folder=$1
    shift
    make -s --no-print-directory -C "$root/program" BUILD="$folder" CC="$X86_CC" "$@"
}

# Has $bai2 run this program, by way of the emulator where the machine needs one.
use_program() {
    printf '#!/bin/sh\nexec %s "%s" "$@"\n' "$2" "$1" >"$bai2" && chmod +x "$bai2"
}

# Builds the program.
builds() {
    build "$work/build" all && use_program "$work/build/bai2" "$X86_RUN"
}

# Builds the independent implementation under the library's names: stand_in COMPILER ARCHIVE [FLAG..].
stand_in() {
    local compiler=$1 archive=$2
    shift 2
    make -s --no-print-directory -C "$oracle" BUILD="$archive.objects" CC="$compiler" CFLAGS="-O2 -std=c11 $*" stand-in &&
        mv "$archive.objects/libstandin.a" "$archive"
}

# Sets $native to the variables of a native build, which sanitizers, valgrind, fuzzer and preloaded libraries need.
choose_native() {
    need gcc gcc 'programs that run under the sanitizers'
    native=(CC=gcc)
    [ -z "$X86_RUN" ] && return
    tell "the library is for x86-64 and this is $(uname -m): checked here is the C around it, with the independent implementation in its place"
    stand_in gcc "$work/native.a" && native+=(LIB="$work/native.a")
}

# Sets $native_program to the program built natively, which on x86-64 it is anyway.
builds_native() {
    native_program=$work/build/bai2
    [ -z "$X86_RUN" ] && return
    native_program=$work/native/bai2
    build "$work/native" "${native[@]}" all
}

# Builds the program natively under the sanitizers.
builds_checked() {
    build "$work/checked" "${native[@]}" CFLAGS='-O1 -g -fsanitize=address,undefined -fno-sanitize-recover=all' all
}

# Whether no sanitizer complained in this file.
no_complaint() {
    ! grep -a -n -e 'runtime error' -e Sanitizer "$1"
}

# A command's status and all it says, into $status and $said.
run() {
    said=$("$@" 2>&1 </dev/null)
    status=$?
}

# Whether the last run had that status and said each of these.
gave() {
    local wanted=$1 part
    shift
    for part; do
        [[ $said == *"$part"* ]] || { echo "not said: $part"; echo "$said" | head -n 40; return 1; }
    done
    [ "$status" -eq "$wanted" ] || { echo "status $status instead of $wanted"; echo "$said" | head -n 40; return 1; }
}

# Whether the last run had that status and each of these was one of its lines.
gave_lines() {
    local wanted=$1 line
    shift
    for line; do
        grep -qxF -e "$line" <<<"$said" || { echo "no such line: $line"; echo "$said" | head -n 40; return 1; }
    done
    gave "$wanted"
}

# Whether the last run had that status and said this and no more.
gave_exactly() {
    gave "$1" && { [ "$said" = "$2" ] || { diff <(echo "$2") <(echo "$said"); false; }; }
}

# The ways to write an amount that a report could spoil; a minus is for a status and for totals alone.
forms='-0 +0 +5 007 000000000000000000'

# K1 with this amount in its item and that one in its detail, one of them empty, and all totals written as the other is.
form_file() {
    sed "s/,010,-500,/,010,$1,/; s/^16,165,1500,/16,165,$2,/; s/^\(49\|98\|99\),1000,/\1,$1$2,/" "$samples/k01.bai"
}

# Writes the files of all forms: item_FORM.bai, whose detail has no amount, and detail_FORM.bai, whose item has none.
write_forms() {
    local form
    for form in $forms; do
        form_file "$form" '' >"item_$form.bai"
        [ "$form" = -0 ] || form_file '' "$form" >"detail_$form.bai"
    done
}

# Bytes of a file with one group, so many accounts and so many details in each.
large_file() {
    awk -v accounts="$1" -v details="$2" 'BEGIN {
        print "01,122099999,123456789,040621,0200,1,,,2/"; print "02,031001234,122099999,1,040620,2359,,2/"
        for (a = 1; a <= accounts; a++) {
            printf "03,%010d,USD,010,-500,,/\n", a
            for (d = 1; d <= details; d++) printf "16,165,1500,1,DD%d,,DEALER PAYMENTS\n", d
            printf "49,%d,%d/\n", 1500 * details - 500, details + 2
        }
        total = accounts * (1500 * details - 500); lines = accounts * (details + 2)
        printf "98,%d,%d,%d/\n99,%d,1,%d/\n", total, accounts, lines + 2, total, lines + 4 }'
}

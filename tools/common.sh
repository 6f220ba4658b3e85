# What ./bai2, ./test, the outside tests and bench/run share: messages with the time passed, checks and skips, missing packages, C for x86-64.
# shellcheck shell=bash disable=SC2034 # its variables are for the scripts that read this

# Says what happens now, with the seconds since the start.
tell() {
    printf '== %4d s  %s\n' "$SECONDS" "$1"
}

# One check of an outside test: check NAME COMMAND.. passes where the command succeeds.
check() {
    local name=$1
    shift
    if "$@"; then
        echo "passed: $name"
    else
        echo "FAILED: $name"
    fi
}

# A check that can't be made here: skip NAME WHY, where WHY has no colon. ./test counts it and shows it above its last line.
skip() {
    echo "skipped: $1: $2"
}

# A check that a tool makes, which is skipped where the tool is missing and can't be installed: check_with TOOL PACKAGE NAME COMMAND..
check_with() {
    local tool=$1 package=$2
    shift 2
    if need "$tool" "$package" "$1"; then
        check "$@"
    else
        skip "$1" "${missing[$tool]}"
    fi
}

# The tools that are missing and can't be installed, each with the words for it.
declare -A missing=()

# Whether a tool is there, or can be installed, which is said first: need TOOL PACKAGE [FOR]. It is tried once.
need() {
    command -v "$1" >/dev/null && return
    [ -z "${missing[$1]:-}" ] || return 1
    tell "$1 is missing: installing the package $2 with apt-get${3:+, for: $3}"
    install_package "$2" && command -v "$1" >/dev/null && return
    missing[$1]="$1 is missing and can't be installed"
    tell "${missing[$1]}"
    return 1
}

# Installs a package of the system. Where a server doesn't answer it gives up soon, so that a machine without a network is told so.
install_package() {
    local patience=(-o Acquire::Retries=0 -o Acquire::http::Timeout=20 -o Acquire::https::Timeout=20)
    apt-get update -qq "${patience[@]}" \
        && DEBIAN_FRONTEND=noninteractive apt-get install -y -qq "${patience[@]}" "$1" >/dev/null
}

# Sets X86_CC, X86_NM and X86_RUN: the compiler for x86-64, for which the library is built, what lists names, and what runs its programs.
# Fails where the compiler or make is missing and can't be installed; that is never a reason to skip a check.
need_x86() {
    if [ "$(uname -m)" = x86_64 ]; then
        X86_CC=gcc
        X86_NM="nm"
        X86_RUN=
        need gcc gcc 'C programs over the library' || return 1
    else
        X86_CC="x86_64-linux-gnu-gcc -static"
        X86_NM=x86_64-linux-gnu-nm
        X86_RUN=qemu-x86_64
        need x86_64-linux-gnu-gcc gcc-x86-64-linux-gnu 'C programs over the library, which is built for x86-64' || return 1
        need qemu-x86_64 qemu-user 'programs for x86-64' || return 1
    fi
    need make make 'the rules that build C programs'
}

# shellcheck shell=bash
# Sourced by sample/decode and sample/pack, and called from the repository's root. Where there is an rt, programs are built of the proved crates;
# where there is none, of the C in c/ that was made of them, which takes a C compiler alone and seconds.

# with_kit: whether the Rattle kit is here
with_kit() { command -v rt >/dev/null; }

# outdated FILE SOURCE..: whether a program is missing, or older than one of its sources
outdated() {
    local made=$1
    shift
    [ ! -x "$made" ] || [ -n "$(find "$@" -newer "$made" -name '*.[rach]*' ! -path '*/out/*' -print -quit)" ]
}

# compile WHO OUT WORD..: a program by the C compiler, put there whole
compile() {
    local who=$1 out=$2 cc=${CC:-cc}
    shift 2
    # shellcheck disable=SC2086 # CC may be several words
    set -- $cc -O2 "$@"
    command -v "$1" >/dev/null || { echo "$who: needs a C compiler, and there is no $1 on PATH (Debian: apt-get install gcc libc6-dev)" >&2 && return 1; }
    mkdir -p "$(dirname "$out")" || return 1
    "$@" -o "$out.$$" && mv "$out.$$" "$out"
}

# built NAME: builds sample/NAME.c over the library, for the processor at hand, where it is not built yet or something is newer, and prints
# where it is
built() {
    local made=target/sample/$1
    if with_kit; then
        if outdated "$made" crates "sample/$1.c" include; then
            tools/archive "$(uname -m)" target/sample/library.a >&2 || return 1
            compile "$1" "$made" -Wall -Wextra -Werror "sample/$1.c" target/sample/library.a || return 1
        fi
    else
        made=target/sample/c/$1
        if outdated "$made" "sample/$1.c" c/cinorbis.c include; then
            echo "$1: there is no rt here, so it is built of c/cinorbis.c by ${CC:-cc}" >&2
            compile "$1" "$made" -Iinclude "sample/$1.c" c/cinorbis.c || return 1
        fi
    fi
    echo "$made"
}

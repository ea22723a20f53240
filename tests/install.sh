#!/bin/sh
# The test of the installation: what `make install` puts where, a program in C and in C++ that is compiled by what pkg-config says,
# the installed program, the examples of the man pages, and that `make uninstall` leaves no file. Takes CC, CXX, CPPFLAGS, CFLAGS,
# CXXFLAGS, LDFLAGS and LDLIBS from the environment, and ARCHIVE for make. The status is 0 if none failed.
set -u
cd "$(dirname "$0")/.." || exit 2
. tests/try.sh
CC=${CC:-gcc}
CXX=${CXX:-g++}
CFLAGS=${CFLAGS:--O2 -Wall -Wextra -Werror}
CXXFLAGS=${CXXFLAGS:--O2 -Wall -Wextra -Werror}
work=$(mktemp -d) || exit 2
trap 'rm -rf "$work"' EXIT
trap 'exit 2' HUP INT TERM
place=$work/place stage=$work/stage
unset MAKEFLAGS BINDIR LIBDIR INCLUDEDIR MANDIR

# make with the goal $1, for the two installations: at a place of its own, and staged for another
at_place() { make -s "$1" PREFIX="$place" DESTDIR= ARCHIVE="${ARCHIVE:-target/c/libirr.a}"; }
at_stage() { make -s "$1" PREFIX=/nowhere DESTDIR="$stage" ARCHIVE="${ARCHIVE:-target/c/libirr.a}"; }

# the files below a folder, all of them, are those that are named in the Makefile
files() {
    printf '%s\n' bin/rackmap include/irr.h lib/libirr.a lib/pkgconfig/irr.pc share/man/man1/rackmap.1 share/man/man3/irr.3 |
        diff - "$work/found"
}
found() { (cd "$1" && find . -type f | sed 's/^\.\///' | LC_ALL=C sort) > "$work/found"; }

installed() { at_place install && found "$place" && files; }
staged() {
    at_stage install && found "$stage/nowhere" && files &&
        grep -qx 'prefix=/nowhere' "$stage/nowhere/lib/pkgconfig/irr.pc" && ! grep -rq "$work" "$stage"
}

# a program compiled by what pkg-config says of the installation
can_ask() { command -v pkg-config > /dev/null || skip "no pkg-config"; }
said() { PKG_CONFIG_PATH=$place/lib/pkgconfig pkg-config "$@" irr; }
runs() {
    { said --modversion && echo '0 0 1 11'; } > "$work/expected" && "$work/program" | diff "$work/expected" -
}
in_c() {
    can_ask || return
    # shellcheck disable=SC2046,SC2086
    $CC ${CPPFLAGS:-} $CFLAGS -std=c99 ${LDFLAGS:-} tests/installed.c $(said --cflags --libs) ${LDLIBS:-} -o "$work/program" && runs
}
in_cxx() {
    can_ask || return
    # shellcheck disable=SC2046,SC2086
    $CXX ${CPPFLAGS:-} $CXXFLAGS -std=c++11 ${LDFLAGS:-} -x c++ tests/installed.c -x none $(said --cflags --libs) ${LDLIBS:-} \
        -o "$work/program" && runs
}

# the installed program: document 01's listing, and an output that nobody reads
listing() { "$place/bin/rackmap" < crates/rackmap/stdin | diff crates/rackmap/stdout -; }
closed() {
    (trap '' PIPE && yes 'fresh 10 2' 2> /dev/null | { timeout 60 "$place/bin/rackmap"; echo $? > "$work/status"; }) | head -n 1 > "$work/found"
    grep -qx 'ok 0 1' "$work/found" && grep -qx 0 "$work/status"
}

# the examples of a man page, each between .EX and .EE, as files example.1, example.2 and so on
examples() {
    rm -f "$work"/example.*
    sed -e 's/\\(aq/'\''/g' -e 's/\\-/-/g' -e 's/\\e/\\/g' "$1" |
        awk -v to="$work/example." '/^\.EX$/ { n++; inside = 1; next } /^\.EE$/ { inside = 0 } inside { print > (to n) }'
}

# what stands behind `$ ` is run by the shell, and must print what follows it
man1() {
    examples man/rackmap.1 && [ -f "$work/example.1" ] || return 1
    for example in "$work"/example.*; do
        sed -n 's/^\$ //p' "$example" > "$work/command"
        grep -v '^\$ ' "$example" > "$work/expected"
        PATH=$place/bin:$PATH sh "$work/command" | diff "$work/expected" - || return 1
    done
}

# the second example is a program, the third what it prints
man3() {
    examples man/irr.3 && cp "$work/example.2" "$work/example.c" || return 1
    # shellcheck disable=SC2086
    $CC ${CPPFLAGS:-} $CFLAGS -std=c99 "-I$place/include" ${LDFLAGS:-} "$work/example.c" "$place/lib/libirr.a" ${LDLIBS:-} \
        -o "$work/program" && "$work/program" | diff "$work/example.3" -
}

# irr(3) has the refusals of the header: their numbers and names, and those of each call in their order
refusals() {
    {
        sed -n 's/^ *\(IRR_[A-Z_]*\) = \([1-9][0-9]*\).*/\2 \1/p' include/irr.h | sort -n
        grep -o 'Refusals: [0-9, ]*[0-9]' include/irr.h
    } > "$work/expected"
    {
        sed -n 's/^\([0-9]*\) \\fB\(IRR_[A-Z_]*\)\\fP$/\1 \2/p' man/irr.3
        grep -o 'Refusals: [0-9, ]*[0-9]' man/irr.3
    } | diff "$work/expected" -
}

removed() {
    at_place uninstall && at_stage uninstall && found "$work/place" && [ ! -s "$work/found" ] && found "$stage" && [ ! -s "$work/found" ]
}

try "installed files" installed
try "staged files" staged
try "a program in C" in_c
try "a program in C++" in_cxx
try "rackmap, document 01's listing" listing
try "rackmap, closed output" closed
try "examples of rackmap(1)" man1
try "example of irr(3)" man3
try "refusals of irr(3)" refusals
try "uninstalled" removed
summary "installation"

#!/bin/sh
# The host tests: the header alone in C and C++, the symbols of the archive, the examples, abi, capacity, carry, cuts, long and
# compare; the programs a second time under the sanitizers of addresses and of undefined behaviour, which see the tests' code and
# not the archive's. Takes ARCHIVE, OUT, CC, CXX, CPPFLAGS, CFLAGS, LDFLAGS and LDLIBS from the environment. The status is 0 if
# none failed.
set -u
cd "$(dirname "$0")/../.." || exit 2
. tests/try.sh
ARCHIVE=${ARCHIVE:-target/c/libirr.a}
OUT=${OUT:-target/c/tests}
CC=${CC:-gcc}
CXX=${CXX:-g++}
CFLAGS=${CFLAGS:--O2 -Wall -Wextra -Werror}
SANITIZE='-g -fsanitize=address,undefined -fno-sanitize-recover=all'
HERE=tests/host
mkdir -p "$OUT" || exit 2

# the header by itself, in a language: its compiler and its standard
header() {
    # shellcheck disable=SC2086
    $1 ${CPPFLAGS:-} "-std=$3" -fsyntax-only -pedantic -Wall -Wextra -Werror -x "$2" include/irr.h
}

# the archive has the twelve calls of the header, and no other symbol that a program could meet
symbols() {
    for call in bin_size carry expand find initial load place places relocations room save sheet; do
        echo "T irr_$call"
    done > "$OUT/calls"
    nm -g --defined-only "$ARCHIVE" > "$OUT/symbols" || return 1
    sed -n 's/^[0-9a-f]* \([A-Za-z] .*\)$/\1/p' "$OUT/symbols" | LC_ALL=C sort | diff "$OUT/calls" -
}

# the archive has no variables, and calls nothing but what copies, sets or compares memory
stateless() {
    nm "$ARCHIVE" > "$OUT/all-symbols" || return 1
    ! grep -E ' [BbCDdGgSs] [^ ]+$' "$OUT/all-symbols" || return 1
    ! grep -E ' U [^ ]+$' "$OUT/all-symbols" | grep -Ev ' U (mem(cpy|set|move|cmp)|bcmp)$'
}

# builds program $1 with the flags $2 from the sources named after them
build() {
    program=$OUT/$1 flags=$2
    shift 2
    # shellcheck disable=SC2086
    $CC ${CPPFLAGS:-} $CFLAGS -std=c11 $flags -Iinclude ${LDFLAGS:-} "$@" "$ARCHIVE" ${LDLIBS:-} -o "$program"
}

# builds and runs a program of the host tests, with the flags $2
host() {
    name=$1 flags=$2
    shift 2
    for source in "$@"; do
        shift
        set -- "$@" "$HERE/$source.c"
    done
    build "$name" "$flags" "$@" && "$OUT/$name"
}

# builds and runs the example $1, with the flags $2; it must print what is in its file
example() {
    build "$1-example" "$2" "examples/$1.c" && "$OUT/$1-example" > "$OUT/$1.stdout" && diff "examples/$1.stdout" "$OUT/$1.stdout"
}

# the sheet example refuses its input, the file $2, with the line $1: nothing else is printed, and the status is 1
refuses() {
    "$OUT/sheet" < "$2" > "$OUT/sheet.stdout" 2> "$OUT/sheet.stderr"
    [ $? = 1 ] && [ ! -s "$OUT/sheet.stdout" ] && echo "$1" | diff - "$OUT/sheet.stderr"
}

# and with the line $1 the stored map whose byte at $2 is $3, in octal
refuses_byte() {
    cp examples/rack14.map "$OUT/byte.map" &&
        printf '%b' "\\0$3" | dd bs=1 seek="$2" conv=notrunc of="$OUT/byte.map" 2> /dev/null && refuses "$1" "$OUT/byte.map"
}

# for awk: prints the four bytes of a number of a saved form, in octal
PUT='function put(n, i) { for (i = 0; i < 4; i++) { printf "\\0%03o", n % 256; n = int(n / 256) } }'

# the saved form, in octal, of a map at both limits: 2,081 buckets in 65 blocks of one bin, an interval for each bucket
largest() {
    awk "$PUT"' BEGIN { put(2081); put(65); put(2081); for (i = 1; i <= 65; i++) put(i); for (i = 1; i <= 2081; i++) put(i)
            for (i = 0; i < 2081; i++) put(i % 65) }'
}

# and of a map of $1 buckets in one bin
one_bin() {
    awk "$PUT BEGIN { put($1); put(1); put(1); put(1); put($1); put(0) }"
}

# the sheet example refuses what is left of a map after harm
harmed() {
    map=examples/rack14.map file=$OUT/harmed.map
    count='refused 11: B or a count outside its limits, or a file of another length'
    : > "$file" && refuses "$count" "$file" || return 1
    dd bs=1 count=67 2> /dev/null < "$map" > "$file" && refuses "$count" "$file" || return 1
    { cat "$map" && printf x; } > "$file" && refuses "$count" "$file" || return 1
    { cat "$OUT/largest.map" && printf x; } > "$file" && refuses "$count" "$file" || return 1
    refuses_byte "refused 12: tops that don't rise strictly, a first of 0, or a last above 65,535 or above B" 16 2 &&
        refuses_byte "refused 13: ends that don't rise strictly, a first of 0, or a last other than B" 44 17 &&
        refuses_byte "refused 14: an interval's block not below the number of blocks" 52 4 &&
        refuses_byte "refused 15: a block whose intervals hold another number than its due" 52 1
}

# the sheet example takes as many buckets in one bin as the label leaves room for, and refuses more
full() {
    file=$OUT/full.map
    capacity='refused 30: a capacity of 0, above its limit, or below the size of the largest bin plus 8'
    printf '%b' "$(one_bin 999999992)" > "$file" && "$OUT/sheet" < "$file" > "$OUT/sheet.stdout" &&
        echo '         0 999999991         0         0         1' | diff - "$OUT/sheet.stdout" || return 1
    for buckets in 999999993 1000000000; do
        printf '%b' "$(one_bin $buckets)" > "$file" && refuses "$capacity" "$file" || return 1
    done
}

# the sheet example fails, and says so, where it cannot read or write
closed() {
    "$OUT/sheet" <&- > "$OUT/sheet.stdout" 2> "$OUT/sheet.stderr"
    [ $? = 1 ] && [ ! -s "$OUT/sheet.stdout" ] && grep -q '^sheet: standard input: ' "$OUT/sheet.stderr" || return 1
    "$OUT/sheet" < examples/rack14.map >&- 2> "$OUT/sheet.stderr"
    [ $? = 1 ] && grep -q '^sheet: standard output: ' "$OUT/sheet.stderr"
}

# builds the sheet example with the flags $1, and runs it on the stored map, on a map at its limits, on harmed files,
# on full and overfull bins, and with its input or output closed
sheet() {
    build sheet "$1" examples/sheet.c && "$OUT/sheet" < examples/rack14.map > "$OUT/sheet.stdout" &&
        diff examples/sheet.stdout "$OUT/sheet.stdout" || return 1
    printf '%b' "$(largest)" > "$OUT/largest.map"
    awk 'BEGIN { for (i = 0; i < 2081; i++) printf "%10d%10d%10d%10d%10d\n", i, i, i % 65, i % 65, 1 }' > "$OUT/largest.stdout"
    "$OUT/sheet" < "$OUT/largest.map" | cmp - "$OUT/largest.stdout" && harmed && full && closed
}

# whether a program can be built and run under the sanitizers here
can_sanitize() {
    echo 'int main(void) { return 0; }' > "$OUT/nothing.c"
    # shellcheck disable=SC2086
    $CC $SANITIZE "$OUT/nothing.c" -o "$OUT/nothing" 2> /dev/null && "$OUT/nothing" 2> /dev/null
}

# runs a command that builds and runs a program under them
sanitized() {
    if can_sanitize; then "$@"; else skip "no program runs here with $SANITIZE"; fi
}

try "header in C" header "$CC" c c99
try "header in C++" header "$CXX" c++ c++11
try "symbols" symbols
try "no state" stateless
COMPARE='compare rounds buckets calls tables lent random reference directory'
CARRY='carry lent tables random reference'
CUTS='cuts tables random reference'
try "example" example rack ""
try "carry example" example carry ""
try "sheet example" sheet ""
try "abi" host abi "" abi
try "capacity" host capacity "" capacity
# shellcheck disable=SC2086
try "carry" host carry "" $CARRY
# shellcheck disable=SC2086
try "cuts" host cuts "" $CUTS
try "long" host long "" long
# shellcheck disable=SC2086
try "compare" host compare "" $COMPARE
try "example, sanitized" sanitized example rack "$SANITIZE"
try "carry example, sanitized" sanitized example carry "$SANITIZE"
try "sheet example, sanitized" sanitized sheet "$SANITIZE"
try "abi, sanitized" sanitized host abi "$SANITIZE" abi
try "capacity, sanitized" sanitized host capacity "$SANITIZE" capacity
# shellcheck disable=SC2086
try "carry, sanitized" sanitized host carry "$SANITIZE" $CARRY
# shellcheck disable=SC2086
try "cuts, sanitized" sanitized host cuts "$SANITIZE" $CUTS
try "long, sanitized" sanitized host long "$SANITIZE" long
# shellcheck disable=SC2086
try "compare, sanitized" sanitized host compare "$SANITIZE" $COMPARE
summary "host tests"

#!/bin/sh
# Compares the proved calls with those by hand in bench/irr.c: first that both answer the
# same, then how fast they are. Prints Markdown tables; 1.00 is level, less is faster.
#
#   bench/calls.sh [archive [rounds]]
#
# The archive is target/c/libirr.a of this repository (`make archive`) unless another is named. A round
# measures both, one right after the other; there are 101 unless another number is given. The
# tables have the medians over the rounds, of the ratio also the quartiles.
# Ends with 1 if an answer differs, with 2 if it can't compare. A slow call is no failure.
set -eu

fail() {
	echo "bench/calls.sh: $1" >&2
	exit 2
}

here=$(CDPATH='' cd -- "$(dirname -- "$0")" && pwd)
archive=${1:-$here/../target/c/libirr.a}
rounds=${2:-101}
[ -f "$archive" ] || fail "no archive $archive; build it, or name another"

work=$(mktemp -d)
trap 'rm -rf "$work"' EXIT
trap 'exit 2' HUP INT TERM

# The functions of both, and the loops that call them, begin at a cache line: where the linker
# puts a loop would otherwise decide a good part of its speed.
build() {
	gcc -O3 -std=c11 -Wall -Wextra -Werror -D_POSIX_C_SOURCE=200809L -ffunction-sections \
		-c "$here/$1.c" -o "$work/$1.o" || fail "gcc failed"
}
build calls
build irr
for file in "$work/calls.o" "$work/irr.o" "$archive"; do
	objcopy --set-section-alignment '.text*=64' "$file" "$work/aligned-${file##*/}" ||
		fail "objcopy failed"
done
gcc "$work/aligned-calls.o" "$work/aligned-irr.o" "$work/aligned-${archive##*/}" -o "$work/calls" ||
	fail "gcc failed"
status=0
"$work/calls" "$rounds" || status=$?
[ $status -le 2 ] || fail "the comparison broke off with status $status"
exit $status

#!/bin/sh
# Compares the proved program rackmap with bench/rackmap.c: first that both print
# the same, byte for byte, then how fast they are and how much memory they take.
#
#   bench/rackmap.sh [program [runs]]
#
# The program is target/bin/rackmap of this repository unless another is named;
# there are 15 runs of both, one right after the other, unless another number is given.
# Ends with 1 if the programs print different things, with 2 if it can't compare.
set -eu

fail() {
	echo "bench/rackmap.sh: $1" >&2
	exit "$2"
}

here=$(CDPATH='' cd -- "$(dirname -- "$0")" && pwd)
proved=${1:-$here/../target/bin/rackmap}
runs=${2:-15}
case $proved in
/*) ;;
*) proved=$PWD/$proved ;;
esac
[ -x "$proved" ] || fail "no program $proved; build it, or name another" 2

work=$(mktemp -d)
trap 'rm -rf "$work"' EXIT
trap 'exit 2' HUP INT TERM

plain=$work/rackmap-c
gcc -O3 -std=c11 -Wall -Wextra -Werror "$here/rackmap.c" -o "$plain" || fail "gcc failed" 2
python3 "$here/rackmap.py" inputs "$work" || fail "no inputs" 2

# The last growth of the history decides what is measured: it has to leave a large
# table and a long move list.
reply=$("$plain" <"$work/history" | tail -n 1)
moved=${reply#ok }
moved=${moved% *}
intervals=${reply##* }
[ "$reply" = "ok $moved $intervals" ] || fail "the history ends with: $reply" 2
{ [ "$intervals" -ge 1900 ] && [ "$moved" -ge 4500000 ]; } || fail "too small a table: $reply" 2

# Both programs run side by side into pipes, so that no output is stored.
mkfifo "$work/plain.out" "$work/proved.out"
for input in "$work"/*.in; do
	"$plain" <"$input" >"$work/plain.out" &
	plain_job=$!
	"$proved" <"$input" >"$work/proved.out" &
	proved_job=$!
	same=yes
	cmp "$work/plain.out" "$work/proved.out" || same=no
	if [ $same = no ]; then
		kill "$plain_job" "$proved_job" 2>/dev/null || :
	fi
	wait "$plain_job" 2>/dev/null || same=no
	wait "$proved_job" 2>/dev/null || same=no
	[ $same = yes ] || fail "the programs differ, or one failed, on the input ${input##*/}" 1
done
echo "The same output on $(find "$work" -name '*.in' | wc -l) inputs, $(cat "$work"/*.in | wc -l) lines."

python3 "$here/rackmap.py" measure "$work" "$plain" "$proved" "$runs" "$intervals" "$moved" ||
	fail "the measurement failed" 2

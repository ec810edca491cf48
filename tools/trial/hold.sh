#!/bin/sh
# Holds the calls on records of two libraries together, bit for bit, over seeded random devices, right and wrong. Needs gcc.
#   tools/trial/hold.sh ARCHIVE OTHER [DEVICES [SEED]]
# Each is a libmivtolgya.a with a libmivtolgya_bridge.a beside it; the bridge's load by cells is held to single loads by cells too.
# Prints the counts of what the calls gave. The last line says that the two agree, or after which device their sums first differ.
set -eu
here=$(cd "$(dirname "$0")" && pwd)
devices=${3:-400000}
seed=${4:-1}
work=$(mktemp -d)
trap 'rm -rf "$work"' EXIT
# compiled once, so that nothing but the archive differs
gcc -O2 -std=c11 -Wall -Wextra -Werror -I "$here/../../include" -c "$here/hold.c" -o "$work/hold.o"

run() {
    gcc "$work/hold.o" "$2" "$(dirname "$2")/libmivtolgya_bridge.a" -lm -o "$work/$1"
    status=0
    "$work/$1" "$devices" "$seed" >"$work/$1.out" || status=$?
    echo "$status" >"$work/$1.status"
    echo "ended with status $status" >>"$work/$1.out"
}

run one "$1"
run two "$2"
grep -v '^to device' "$work/one.out"
if ! cmp -s "$work/one.out" "$work/two.out"; then
    blocks=$(diff "$work/one.out" "$work/two.out" | grep -c '^< to device' || true)
    first=$(diff "$work/one.out" "$work/two.out" | sed -n '2s/^[<>] //p')
    echo "DIFFERENT: $blocks of $(grep -c '^to device' "$work/one.out") sums; the first: $first"
    exit 1
fi
if [ "$(cat "$work/one.status")" = 4 ]; then
    echo "DIFFERENT: a bridge's load by cells is not the single loads"
    exit 1
fi
if [ "$(cat "$work/one.status")" != 0 ]; then
    echo "NOT TRIED: they agree, but a number that a call can give did not occur, or another did, or no run was finished"
    exit 1
fi
echo "agree: $devices devices from seed $seed"

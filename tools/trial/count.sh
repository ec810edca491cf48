#!/bin/sh
# Counts the instructions of a call of a library, with its caller's few: tools/trial/count.sh LIBRARY. Needs gcc and valgrind.
# One line: a checksum for each case, then for each case the instructions of an evaluation, a load and a load by cells.
set -eu
here=$(cd "$(dirname "$0")" && pwd)
work=$(mktemp -d)
trap 'rm -rf "$work"' EXIT
gcc -O2 -I "$here/../../include" "$here/calls.c" "$1" -o "$work/calls"
instructions() { valgrind --tool=callgrind --callgrind-out-file="$work/out" "$work/calls" "$1" "$2" "$3" 2>&1 | awk '/Collected/ { print $4 }'; }
for case in 0 1 2; do printf '%s ' "$("$work/calls" "$case" e 0)"; done
for case in 0 1 2; do for what in e l r; do
    few=$(instructions $case $what 64)
    many=$(instructions $case $what 704)
    printf '%s%s=%s ' $case $what $(((many - few) / 640))
done; done
echo

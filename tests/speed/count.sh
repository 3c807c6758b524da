#!/bin/sh
# How many machine instructions a step of ka10_run takes, by callgrind over one call of 1,000,000 steps of the loop of
# speed.c: count.sh FOLDER LIBRARY
# It needs Debian's package valgrind, and is no part of the gate.
set -eu
here=$(cd "$(dirname "$0")" && pwd)
mkdir -p "$1"
sed 's/CALLS = 100/CALLS = 1/' "$here/speed.c" > "$1/once.c"
cc -std=c11 -O2 -Wall -Wextra -Werror -I"$here/../../include" "$1/once.c" "$2" -o "$1/once"
valgrind --tool=callgrind --callgrind-out-file="$1/callgrind.out" "$1/once" 2>&1 |
    awk '/Collected/ {printf "%.0f machine instructions a step\n", $NF / 1000000}'

#!/bin/sh
# How fast ka10_run is beside SIMH's pdp10 on the same loop, in one run: compare.sh FOLDER LIBRARY
# It needs Debian's package simh, and is no part of the gate.
set -eu
here=$(cd "$(dirname "$0")" && pwd)
mkdir -p "$1"
cc -std=c11 -O2 -Wall -Wextra -Werror -I"$here/../../include" "$here/speed.c" "$2" -o "$1/speed"
for turn in 1 2 3; do
    "$1/speed"
    before=$(awk '{print $16 + $17}' /proc/$$/stat)
    pdp10 "$here/loop.ini" > /dev/null
    after=$(awk '{print $16 + $17}' /proc/$$/stat)
    echo "$before $after" | awk '{s = ($2 - $1) / 100; printf "pdp10: %.2f s, %.0f million instructions a second\n", s, 100.536320 / s}'
done

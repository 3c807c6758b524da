#!/bin/sh
# Checks the simulator by itself, and then the library against it.
#
#   run.sh FOLDER LIBRARY
#
# FOLDER is where the test programs are built (it is made if need be), LIBRARY the static library
# that exports ka10_run. The exit status is 0 only if everything was built and nothing failed.
set -eu

if [ $# -ne 2 ]; then
    echo "usage: $0 FOLDER LIBRARY" >&2
    exit 2
fi

build=$1
library=$2
root=$(cd "$(dirname "$0")/.." && pwd)
simulator=$root/tests/simulator

compile() {
    cc -std=c11 -O2 -Wall -Wextra -Werror -I"$root/include" -I"$simulator" "$@"
}

mkdir -p "$build"

compile "$simulator/specimens.c" "$simulator/simulator.c" -o "$build/specimens"
"$build/specimens"

# The libraries at the end are those that a static library may ask for on its own account.
compile "$root/tests/compare/compare.c" "$simulator/simulator.c" "$library" \
    -lpthread -ldl -lm -o "$build/compare"
"$build/compare"

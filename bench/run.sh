#!/bin/sh
# Builds the library and the two C implementations, runs them side by side three times, each linked in another order, and prints the
# medians in microseconds a call with the spread of the ratios. A benchmark, not a test: it fails only if the implementations differ.
#
#     bench/run.sh [ROUNDS]
#
# LIBRARY=FILE.a takes a library that is built already. BEFORE=FILE.a sets a library of version 3, whose emit and receive take no
# profile, beside the others in the same run.
set -eu
cd "$(dirname "$0")/.."
rounds=${1:-300}
out=out/bench
flags=${CFLAGS:--O3}
mkdir -p $out
library=${LIBRARY:-}
if [ -z "$library" ]; then
    bash tools/staticlib.sh >$out/staticlib.log 2>&1 || { cat $out/staticlib.log; exit 1; }
    library=out/libheadend.a
fi

# table NAME SOURCE PREFIX COMPILER...: an object whose one global name is the table of the calls.
table() {
    name=$1 source=$2 prefix=$3
    shift 3
    "$@" $flags -Iinclude -Ibench -DTABLE="$name" -DSOURCE="\"$source\"" -DPREFIX="$prefix" -c bench/table.c -o $out/$name.o
    objcopy --keep-global-symbol="$name" $out/$name.o
}

table library headend.h headend_ gcc
table best_gcc best.c best_ gcc
table plain_gcc plain.c plain_ gcc
objects="$out/best_gcc.o $out/plain_gcc.o"
with=
clang=${CLANG:-/opt/rattle/toolchain/bin/clang}
# The kit's clang has no headers of its own: gcc's will do.
if [ -x "$clang" ] && table best_clang best.c best_ "$clang" -isystem "$(gcc -print-file-name=include)" 2>$out/clang.log &&
    table plain_clang plain.c plain_ "$clang" -isystem "$(gcc -print-file-name=include)" 2>$out/clang.log; then
    objects="$objects $out/best_clang.o $out/plain_clang.o"
    with=-DWITH_CLANG
else
    echo "no clang: best and plain C are gcc's alone"
fi
if [ -n "${BEFORE:-}" ]; then
    renamed=$(for call in judge try role data_count fresh_emitter fresh_receiver emit flush receive modulate; do
        echo "--redefine-sym headend_$call=before_$call"
    done)
    objcopy $renamed "$BEFORE" $out/libbefore.a
    gcc $flags -Wall -Wextra -Ibench -c bench/before.c -o $out/calls.o
    gcc -r -nostdlib $out/calls.o -Wl,--whole-archive $out/libbefore.a -o $out/before.o
    objcopy --keep-global-symbol=before $out/before.o
    objects="$objects $out/before.o"
    with="$with -DWITH_BEFORE"
fi
gcc -O2 -Wall -Wextra -Ibench $with -DFLAGS="\"$flags\"" -c bench/bench.c -o $out/bench.o
reversed=$(for o in $objects; do echo "$o"; done | tac | tr '\n' ' ')
gcc $out/bench.o $out/library.o "$library" $objects -o $out/bench-1
gcc $out/bench.o $reversed $out/library.o "$library" -o $out/bench-2
gcc $objects $out/library.o "$library" $out/bench.o -o $out/bench-3
for run in 1 2 3; do
    $out/bench-$run plans "$rounds" >$out/run-$run.tsv
done
python3 bench/table.py $out/run-1.tsv $out/run-2.tsv $out/run-3.tsv

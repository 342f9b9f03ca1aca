#!/usr/bin/env bash
# What the programs print and tell where they cannot read or write, as docs/PLANCHECK.md says: input closed, a folder, a read that fails in
# the middle, output closed or full; and what is no failure: input that ends, that comes in small parts, or that is longer than any plan;
# and what trycheck, whycheck, linkcheck and lampcheck make of the words that they are given, as docs/TRYCHECK.md, docs/WHYCHECK.md,
# docs/LINKCHECK.md and docs/LAMPCHECK.md say, and lampcheck of its symbols.
# Needs gcc, and the programs, built by `rt ci` or by `rt run` in the folder of each.
#
#     tests/programs.sh            the programs where rt leaves them, crates/NAME/out/NAME
#     tests/programs.sh FOLDER     those of a folder that has them all
set -eu
cd "$(dirname "$0")/.."
bin=${1:-}
work=$(mktemp -d)
trap 'rm -rf "$work"' EXIT
if [ -z "$bin" ]; then
    bin=$work/bin
    mkdir "$bin"
    for main in crates/*/src/main.rt; do
        program=$(basename "${main%/src/main.rt}")
        ln -s "$PWD/crates/$program/out/$program" "$bin/$program"
    done
fi
runs=0
differences=0

# A `read` that puts at most READ_STEP bytes at a time and fails once READ_BYTES were read, to stand before that of the C library.
cat > "$work/reads.c" << 'END'
#define _GNU_SOURCE
#include <errno.h>
#include <stdlib.h>
#include <sys/syscall.h>
#include <unistd.h>

static size_t number(const char *name)
{
    const char *text = getenv(name);
    return text ? strtoul(text, NULL, 10) : (size_t)-1;
}

ssize_t read(int descriptor, void *bytes, size_t size)
{
    static size_t done;
    size_t left = number("READ_BYTES") - done;
    size_t step = number("READ_STEP");
    if (left == 0) {
        errno = EIO;
        return -1;
    }
    if (step < left)
        left = step;
    ssize_t got = syscall(SYS_read, descriptor, bytes, size < left ? size : left);
    if (got > 0)
        done += (size_t)got;
    return got;
}
END
gcc -std=c11 -Wall -Wextra -Werror -O2 -shared -fPIC "$work/reads.c" -o "$work/reads.so"

differs() {
    echo "programs.sh: DIFFERS: $1"
    differences=$((differences + 1))
}

# try COMMAND ..: runs it and keeps what it writes, and its status.
try() {
    status=0
    "$@" > "$work/out" 2> "$work/err" || status=$?
}

# part BYTES COMMAND ..: the same with reads that fail after so many bytes.
part() {
    local bytes=$1
    shift
    try env READ_BYTES="$bytes" LD_PRELOAD="$work/reads.so" "$@"
}

# is LINES FILE: the file has these lines, each with its end, and no more.
is() {
    { [ -z "$1" ] || printf '%s\n' "$1"; } | cmp -s - "$2"
}

# said WHAT LINES TOLD: the run wrote these lines, told standard error this and no more, and ended with status 0.
said() {
    runs=$((runs + 1))
    [ "$status" -eq 0 ] || differs "$1: status $status"
    is "$2" "$work/out" || differs "$1: standard output has: $(head -c 200 "$work/out")"
    is "$3" "$work/err" || differs "$1: standard error has: $(head -c 200 "$work/err")"
}

# The stored words of a program; all but trycheck and lampcheck have none. A word that names a file of its data/ is that file's path.
words() {
    local word
    [ -e "crates/$1/args" ] || return 0
    while read -r word; do
        [ ! -e "crates/$1/data/$word" ] || word=crates/$1/data/$word
        echo "$word"
    done < "crates/$1/args"
}

# How many bytes a program reads of the files that its stored words name, before it reads its input.
named() {
    local word bytes=0
    for word in $(words $1); do
        [ ! -f "$word" ] || bytes=$((bytes + $(wc -c < "$word")))
    done
    echo $bytes
}

# each PROGRAM LINES LESS FIRST: on its stored input and words it prints these lines; where the last byte is not read LESS of them, and
# where nothing is read only FIRST. Other words are ignored by all but trycheck, whycheck, linkcheck and lampcheck.
each() {
    local program=$1 given=crates/$1/stdin unread="$1: standard input cannot be read" run before
    run="$bin/$program $(words $program)"
    before=$(named $program)
    try $run < "$given"
    said "$program" "$2" ''
    if [ ! -e "crates/$1/args" ] && [ "$program" != linkcheck ] && [ "$program" != whycheck ]; then
        try $run plans/refused-14.plan --help < "$given"
        said "$program with arguments" "$2" ''
    fi
    try env READ_STEP=1000 LD_PRELOAD="$work/reads.so" $run < "$given"
    said "$program on input in parts" "$2" ''
    try $run <&-
    said "$program with its input closed" "$4" "$unread"
    try $run < .
    said "$program on a folder" "$4" "$unread"
    part $((before + 3)) $run < "$given"
    said "$program where the read fails after 3 bytes" "$4" "$unread"
    part $((before + $(wc -c < "$given") - 1)) $run < "$given"
    said "$program where the last byte is not read" "$3" "$unread"
}

# The stored input of a program; one that has none reads nothing.
given() {
    [ -e "crates/$1/stdin" ] && echo "crates/$1/stdin" || echo /dev/null
}

# Output that cannot be written: full, and closed.
unwritten() {
    local given
    given=$(given "$1")
    : > "$work/out"
    for output in full closed; do
        status=0
        if [ $output = full ]; then
            "$bin/$1" $(words $1) < "$given" > /dev/full 2> "$work/err" || status=$?
        else
            "$bin/$1" $(words $1) < "$given" >&- 2> "$work/err" || status=$?
        fi
        said "$1 with its output $output" '' "$1: standard output cannot be written"
    done
}

# The bench programs: no bytes, a read that fails on a plan's record, and input that is longer than any plan.
bench() {
    local program=$1 unread="$1: standard input cannot be read" run
    run="$bin/$program $(words $program)"
    try $run < /dev/null
    said "$program on no bytes" 'refused 1 0' ''
    for bytes in 8 16 24; do
        part $bytes $run < plans/plan-a.plan
        said "$program where the read fails after $bytes bytes" '' "$unread"
    done
    head -c 70000 /dev/zero > "$work/long"
    part 65535 $run < "$work/long"
    said "$program where the read fails after 65,535 bytes" '' "$unread"
    part 65536 $run < "$work/long"
    said "$program where the read fails after 65,536 bytes" 'refused 1 0' ''
    set +e
    head -c 67108864 /dev/zero | $run > "$work/out" 2> "$work/err"
    status=$((PIPESTATUS[0] + PIPESTATUS[1]))
    set -e
    said "$program on 64 MiB, with the status of their writer" 'refused 1 0' ''
}

# worded PROGRAM LINES TOLD WORDS ..: the program with these words on Plan A prints these lines, and tells this.
worded() {
    local program=$1 lines=$2 told=$3
    shift 3
    try "$bin/$program" "$@" < plans/plan-a.plan
    said "$program with the words: $*" "$lines" "$told"
}

# unworded PROGRAM EXPECTED WORDS ..: these words are wrong. The program tells what it expects, prints nothing and reads nothing.
unworded() {
    local program=$1 expected="$1: $2"
    shift 2
    worded $program '' "$expected" "$@"
    try "$bin/$program" "$@" <&-
    said "$program with its input closed and the words: $*" '' "$expected"
}

# ranged LINE WORDS .. and unranged WORDS ..: of trycheck.
ranged() {
    local line=$1
    shift
    worded trycheck "$line" '' "$@"
}

unranged() {
    local expected='two words are expected, the first and the last subcarrier of a range, each a number from 0 to 65535 in digits,'
    unworded trycheck "$expected as in: trycheck 850 853" "$@"
}

# reasoned LINE WORDS .. and unreasoned WORDS ..: of whycheck.
reasoned() {
    local line=$1
    shift
    worded whycheck "$line" '' "$@"
}

unreasoned() {
    local expected='no words or two are expected, a subcarrier and a phase, each a number from 0 to 4294967295 in digits,'
    unworded whycheck "$expected as in: whycheck 948 0" "$@"
}

# The words of trycheck: how many, what they hold, how large and how long they are.
ranges() {
    local zeros
    zeros=$(printf '%061d' 0)
    ranged 'ok 421 3' 850 853
    ranged 'refused 14 835' 850 854
    ranged 'ok 421 3' 0850 000853
    ranged 'ok 421 3' "${zeros}850" "${zeros}853"
    ranged 'refused 4 3' 853 850
    ranged 'refused 4 3' 65535 65535
    ranged 'refused 4 3' 0 4096
    ranged 'ok 425 4' 0 0
    unranged
    unranged 850
    unranged 850 853 854
    unranged '' 853
    unranged 850 ''
    unranged '850 853'
    unranged 850 '853 '
    unranged ' 850' 853
    unranged +850 853
    unranged 850 -853
    unranged -850 853
    unranged 850 853a
    unranged x850 853
    unranged 0x352 853
    unranged 850 8.53
    unranged 850 1e3
    unranged 65536 65536
    unranged 0 65536
    unranged 66386 66389
    unranged 4294968146 4294968149
    unranged 850 18446744073709552469
    unranged "${zeros}0850" 853
    unranged --help
}

# The words of whycheck: none, or how many, what they hold, how large and how long they are.
questions() {
    local zeros
    zeros=$(printf '%061d' 0)
    reasoned 'continuous below 24'
    reasoned 'continuous below 24' 948 0
    reasoned 'continuous below 24' 948 127
    reasoned 'excluded record 1' 0 0
    reasoned 'plc record 0' 979 127
    reasoned 'continuous above 15' 994 14
    reasoned 'scattered phase 49' 1029 49
    reasoned 'data phase 49' 1029 48
    reasoned 'scattered phase 49' 01029 0049
    reasoned 'data phase 49' "${zeros:1}1029" "${zeros}048"
    reasoned 'excluded record 2' 4095 127
    reasoned 'refused 16 0' 4096 0
    reasoned 'refused 16 0' 948 128
    reasoned 'refused 16 0' 66484 0
    reasoned 'refused 16 0' 4294967295 4294967295
    try "$bin/whycheck" 4096 128 < plans/refused-14.plan
    said 'whycheck on a refused plan and numbers out of range' "$("$bin/plancheck" < plans/refused-14.plan)" ''
    unreasoned 948
    unreasoned 948 0 0
    unreasoned '' 0
    unreasoned 948 ''
    unreasoned '' ''
    unreasoned '948 0'
    unreasoned 948 '0 '
    unreasoned ' 948' 0
    unreasoned +948 0
    unreasoned 948 -0
    unreasoned -948 0
    unreasoned 948a 0
    unreasoned 948 0x0
    unreasoned 9.48 0
    unreasoned 4294967296 0
    unreasoned 948 4294967296
    unreasoned 4294968244 0
    unreasoned 18446744073709552564 0
    unreasoned "${zeros}0948" 0
    unreasoned --help
}

# loads FILE LOAD COUNT [PLACE OTHER]: a profile file with so many bytes of this load, one of them another.
loads() {
    python3 -c 'import sys
name, load, count, *other = sys.argv[1:]
profile = bytearray([int(load)]) * int(count)
if other:
    profile[int(other[0])] = int(other[1])
open(name, "wb").write(profile)' "$work/$@"
}

# profiled LINES TOLD WORDS ..: of linkcheck.
profiled() {
    worded linkcheck "$@"
}

# The profile of linkcheck: all loads, mixed ones, profiles that are refused, files that cannot be read, and more words than one.
profiles() {
    local right unread='linkcheck: the file of the load profile cannot be read' expected
    expected='linkcheck: at most one word is expected, the name of a file with a load profile, as in: linkcheck my.loads'
    right=$(cat crates/linkcheck/stdout)
    for load in 0 4 6 7 8 9 10 11 12 13 14; do
        loads each $load 4096
        profiled "$right" '' "$work/each"
        loads each $load 4096 1000 4
        profiled "$right" '' "$work/each"
    done
    python3 -c 'import sys
open(sys.argv[1], "wb").write(bytes((0, 4, *range(6, 15))[(7 * k + 3) % 11] for k in range(4096)))' "$work/mixed"
    profiled "$right" '' "$work/mixed"
    for count in 0 1 4095 4097 70000; do
        loads wrong 14 $count
        profiled 'refused 25 0' '' "$work/wrong"
    done
    for load in 1 2 3 5 15 255; do
        loads wrong 14 4096 4095 $load
        profiled 'refused 25 4095' '' "$work/wrong"
    done
    try "$bin/linkcheck" "$work/wrong" < plans/refused-14.plan
    said 'linkcheck on a refused plan and profile' "$("$bin/plancheck" < plans/refused-14.plan)" ''
    try "$bin/linkcheck" "$work/mixed" <&-
    said 'linkcheck with a profile and its input closed' '' 'linkcheck: standard input cannot be read'
    part 4000 "$bin/linkcheck" "$work/mixed" < plans/plan-a.plan
    said 'linkcheck where the read of the profile fails' '' "$unread"
    profiled '' "$unread" "$work/missing"
    profiled '' "$unread" .
    profiled '' "$unread" ''
    profiled '' "$unread" --help
    profiled '' "$unread" "$(printf '%05000d' 0)"
    profiled '' "$expected" "$work/mixed" "$work/mixed"
    profiled '' "$expected" a b c
}

# heard WHAT LINES TOLD BYTES: lampcheck under the plan of its stored run, on so many bytes of its stored symbols.
heard() {
    head -c "$4" crates/lampcheck/stdin > "$work/symbols"
    try "$bin/lampcheck" $(words lampcheck) < "$work/symbols"
    said "lampcheck on $1" "$2" "$3"
}

# lines COUNT: the first so many lines of lampcheck's stored run.
lines() {
    head -n "$1" crates/lampcheck/stdout
}

# The words of lampcheck: none, two, files that cannot be read, and plans that are refused, of which no symbol is read.
lamp_words() {
    local expected='one word is expected, the name of a file with a plan, as in: lampcheck my.plan'
    local unread='the file of the plan cannot be read' plan left size
    unworded lampcheck "$expected"
    unworded lampcheck "$expected" plans/plan-a.plan plans/plan-a.plan
    unworded lampcheck "$expected" "$work/missing" 925 0
    unworded lampcheck "$unread" "$work/missing"
    unworded lampcheck "$unread" plans
    unworded lampcheck "$unread" plans/plan-a.plan/
    unworded lampcheck "$unread" ''
    unworded lampcheck "$unread" --help
    unworded lampcheck "$unread" "$(printf '%05000d' 0)"
    part 10 "$bin/lampcheck" plans/plan-a.plan < crates/lampcheck/stdin
    said 'lampcheck where the read of the plan fails' '' "lampcheck: $unread"
    for plan in plans/empty.plan plans/refused-*.plan plans/largest-39-pilots.plan; do
        try "$bin/lampcheck" "$plan" < crates/lampcheck/stdin
        said "lampcheck $plan" "$(python3 tests/model.py < "$plan")" ''
        try "$bin/lampcheck" "$plan" <&-
        said "lampcheck $plan with its input closed" "$(python3 tests/model.py < "$plan")" ''
    done
    left=$({ "$bin/lampcheck" plans/refused-14.plan > /dev/null && cat; } < crates/lampcheck/stdin | wc -c)
    [ "$left" -eq "$(wc -c < crates/lampcheck/stdin)" ] || differs "lampcheck on a refused plan leaves $left bytes of its input"
    for size in 4097 4104 70000; do
        { cat plans/plan-a.plan && head -c $((size - 24)) /dev/zero; } > "$work/long"
        try "$bin/lampcheck" "$work/long" < crates/lampcheck/stdin
        said "lampcheck on a plan of $size bytes" 'refused 1 0' ''
    done
    status=0
    : > "$work/out"
    "$bin/lampcheck" plans/refused-14.plan > /dev/full 2> "$work/err" <&- || status=$?
    said 'lampcheck on a refused plan with its output full' '' 'lampcheck: standard output cannot be written'
}

# The symbols of lampcheck: none, parts of one, whole ones and a part, a read that fails within the second.
lamp_symbols() {
    local within='lampcheck: the input ends within a symbol, which has 8192 bytes' size
    heard 'no bytes' '' 'lampcheck: no symbol on standard input, 8192 bytes each' 0
    for size in 1 2 4096 8191; do
        heard "$size bytes" '' "$within" $size
    done
    heard 'one symbol' "$(lines 1)" '' 8192
    for size in 8193 12000 16383; do
        heard "$size bytes" "$(lines 1)" "$within" $size
    done
    heard 'two symbols' "$(lines 2)" '' 16384
    heard 'five symbols and all of the sixth but a byte' "$(lines 5)" "$within" 49151
    part $(($(named lampcheck) + 8292)) "$bin/lampcheck" $(words lampcheck) < crates/lampcheck/stdin
    said 'lampcheck where the read fails within the second symbol' "$(lines 1)" 'lampcheck: standard input cannot be read'
    part $(($(named lampcheck) + 8192)) "$bin/lampcheck" $(words lampcheck) < crates/lampcheck/stdin
    said 'lampcheck where the read fails after the first symbol' "$(lines 1)" 'lampcheck: standard input cannot be read'
}

# symbols COUNT T:K ..: so many symbols, the mark in every cell, but for subcarrier K in symbol T, counted from 0.
symbols() {
    python3 -c 'import sys
count, *lost = sys.argv[1:]
cells = {}
for word in lost:
    t, k = map(int, word.split(":"))
    cells.setdefault(t, []).append(k)
held = b"\x80\x03" * 4096
for t in range(int(count)):
    symbol = bytearray(held)
    for k in cells.get(t, ()):
        symbol[2 * k:2 * k + 2] = b"\0\0"
    sys.stdout.buffer.write(symbol)' "$@"
}

# many PLAN COUNT T:K ..: lampcheck on so many symbols from a pipe, beside the second model; 10,000 of them are more than 64 MiB.
many() {
    local plan=$1
    shift
    symbols "$@" > "$work/symbols"
    python3 tests/lamp.py "$plan" < "$work/symbols" > "$work/lines"
    [ "$(wc -l < "$work/lines")" -eq "$1" ] || differs "the model has no $1 lines of $1 symbols"
    set +e
    cat "$work/symbols" | "$bin/lampcheck" "$plan" > "$work/out" 2> "$work/err"
    status=$((PIPESTATUS[0] + PIPESTATUS[1]))
    set -e
    said "lampcheck $plan on $* from a pipe" "$(cat "$work/lines")" ''
    rm "$work/symbols"
}

# The longest line of lampcheck: 128 pilots, each on a subcarrier of four digits, all dark.
longest() {
    python3 -B -c 'import sys
sys.path.insert(0, "tests")
import plans
further = [k for k in range(1000, 2400, 10) if not 1944 <= k <= 2063]
open(sys.argv[1], "wb").write(plans.full(pilots=further[:120]))' "$work/plan"
    head -c 16384 /dev/zero > "$work/symbols"
    try "$bin/lampcheck" "$work/plan" < "$work/symbols"
    said 'lampcheck with 128 pilots, all dark' "$(python3 tests/lamp.py "$work/plan" < "$work/symbols")" ''
    [ "$(head -n 1 "$work/out" | wc -c)" -eq 645 ] || differs 'the longest line of lampcheck is another'
}

# The line of a symbol is there before the next symbol comes.
arriving() {
    mkfifo "$work/line"
    "$bin/lampcheck" $(words lampcheck) < "$work/line" > "$work/out" 2> "$work/err" &
    local reader=$! tries=0
    exec 3> "$work/line"
    head -c 8192 crates/lampcheck/stdin >&3
    while ! is "$(lines 1)" "$work/out" && [ $tries -lt 100 ]; do
        sleep 0.05
        tries=$((tries + 1))
    done
    is "$(lines 1)" "$work/out" || differs 'lampcheck has no line of a symbol before the next one comes'
    head -c 16384 crates/lampcheck/stdin | tail -c 8192 >&3
    exec 3>&-
    status=0
    wait $reader || status=$?
    said 'lampcheck on symbols as they arrive' "$(lines 2)" ''
}

# A program that is stopped and goes on while it reads has not failed.
stopped() {
    mkfifo "$work/pipe"
    "$bin/plancheck" < "$work/pipe" > "$work/out" 2> "$work/err" &
    local reader=$!
    exec 3> "$work/pipe"
    head -c 8 plans/plan-a.plan >&3
    sleep 0.2
    kill -STOP $reader
    sleep 0.2
    kill -CONT $reader
    tail -c +9 plans/plan-a.plan >&3
    exec 3>&-
    status=0
    wait $reader || status=$?
    said 'plancheck stopped in the middle' 'ok 425 4' ''
}

# The stack in KiB that docs/PLANCHECK.md gives each program is enough.
stack() {
    local given
    given=$(given "$1")
    status=0
    (ulimit -s "$2" && exec env -i "$bin/$1" $(words $1) < "$given") > "$work/out" 2> "$work/err" || status=$?
    said "$1 with a stack of $2 KiB" "$(cat "crates/$1/stdout")" ''
}

for program in plancheck trycheck whycheck linkcheck figurecheck; do
    each $program "$(cat crates/$program/stdout)" '' ''
done
for program in plancases trycases whycases emitcases receivecases fillcases modulatecases lampcases lampcheck; do
    each $program "$(cat crates/$program/stdout)" "$(sed '$d' crates/$program/stdout)" ''
done
each rolecases "$(cat crates/rolecases/stdout)" "$(sed '$d' crates/rolecases/stdout)" "$(head -n 1 crates/rolecases/stdout)"
for program in plancheck trycheck whycheck linkcheck figurecheck lampcheck plancases trycases whycases rolecases emitcases receivecases \
    fillcases pointcases modulatecases lampcases; do
    unwritten $program
done
for program in plancheck trycheck whycheck linkcheck figurecheck; do
    bench $program
done
ranges
questions
profiles
lamp_words
lamp_symbols
longest
arriving
many plans/plan-a.plan 300 0:925 1:937 1:1026 100:994 171:1003 172:1014 299:948
many plans/largest.plan 200 0:200 0:2054 5:590 72:1953
many plans/plan-a.plan 10000 0:925 5000:948 9871:1003 9872:1014 9999:1026
stopped
grep -oE '^- `[a-z]+`: [0-9]+ KiB' docs/PLANCHECK.md | tr -d '`:-' > "$work/stacks"
while read -r program size unit; do
    stack "$program" "$size"
done < "$work/stacks"
[ "$(wc -l < "$work/stacks")" -eq 16 ] || differs 'docs/PLANCHECK.md does not give the stack of sixteen programs'
[ $differences -eq 0 ] || { echo "programs.sh: $differences differences in $runs runs"; exit 1; }
echo "programs.sh: $runs runs, all as said"

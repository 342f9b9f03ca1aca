#!/usr/bin/env bash
# The host tests: libheadend.a against the second model, through include/headend.h; the two C implementations of the benchmark, which must
# do the same work; the header and the examples; and the tests themselves: wrong expectations, programs and headers must be reported. Needs
# rt, Python 3, gcc and valgrind; g++ and clang are used where they are.
#
#     tests/host.sh                             all of it
#     tests/host.sh --without-library FOLDER    makes the cases in FOLDER and runs what needs no library; needs no rt
#     tests/host.sh --library FOLDER            the rest, over those cases
set -eu
cd "$(dirname "$0")/.."
library=out/libheadend.a
warnings="-std=c11 -Wall -Wextra -Werror"
sanitizers="-g -O1 -fsanitize=address,undefined -fno-sanitize-recover=all"

# The header's names as those of another implementation.
names() {
    for call in judge try role why data_count pilots fresh_emitter fresh_receiver emit flush receive fill unfill lamp modulate; do
        echo "-Dheadend_$call=$1_$call"
    done
}

fail() {
    echo "host.sh: $1"
    exit 1
}

# A run that must report a difference.
must_differ() {
    local status=0
    "$@" > "$work/said" || status=$?
    [ $status -eq 1 ] && grep -q '^host: DIFFERS' "$work/said" || fail "not noticed: $* ended with $status"
}

# builds KIND FLAGS: the host program over another implementation.
builds() {
    local kind=$1
    shift
    gcc $warnings "$@" $(names $kind) -Iinclude tests/host.c bench/$kind.c -o "$work/$kind"
}

# The header by itself: as C and as C++, with all warnings, and a warning for each call whose number is ignored.
the_header() {
    echo '#include "headend.h"' > "$work/header.c"
    cp "$work/header.c" "$work/header.cc"
    local strict="-Wall -Wextra -Wconversion -Wsign-conversion -pedantic -Werror -Iinclude -fsyntax-only"
    for compiler in "gcc -std=c99" "gcc -std=c11" "clang -std=c11" "g++ -std=c++11" "g++ -std=c++17" "clang++ -std=c++17"; do
        local source=header.c
        case $compiler in *++*) source=header.cc ;; esac
        if command -v ${compiler%% *} > /dev/null; then
            $compiler $strict "$work/$source" || fail "the header does not pass $compiler"
            echo "the header passes $compiler"
        else
            echo "the header was not tried with $compiler, which is not here"
        fi
    done
    cat > "$work/ignored.c" << 'END'
#include "headend.h"
void ignored(uint8_t *b, float *numbers);
void ignored(uint8_t *b, float *numbers)
{
    headend_judge(b, 0, b, 0);
    headend_try(b, 0, 0, 0, b, 0);
    headend_role(b, 0, 0, 0, b, 0);
    headend_why(b, 0, 0, 0, b, 0);
    headend_data_count(b, 0, 0, b, 0);
    headend_pilots(b, 0, b, 0, b, 0);
    headend_fresh_emitter(b, 0, 0, b, 0, b, 0);
    headend_fresh_receiver(b, 0, 0, b, 0, b, 0);
    headend_emit(b, 0, b, 0, 0, b, 0, b, 0, b, 0, b, 0);
    headend_flush(b, 0, 0, b, 0, b, 0, b, 0);
    headend_receive(b, 0, b, 0, 0, 0, b, 0, b, 0, b, 0, b, 0);
    headend_fill(b, 0, b, 0, 0, b, 0, 0, b, 0, b, 0);
    headend_unfill(b, 0, b, 0, 0, b, 0, 0, b, 0, b, 0);
    headend_lamp(b, 0, b, 0, b, 0, b, 0, b, 0);
    headend_modulate(b, 0, b, 0, b, 0, numbers, 0, b, 0);
}
END
    local warned
    warned=$(LC_ALL=C gcc -Iinclude -c "$work/ignored.c" -o "$work/ignored.o" 2>&1 | grep -c 'ignoring return value' || true)
    [ "$warned" -eq 15 ] || fail "$warned of 15 ignored numbers are warned of"
}

# The cases, the two C implementations, wrong programs and wrong headers.
without_library() {
    the_header
    python3 tests/host.py "$work/all"
    python3 tests/host.py --small "$work/small"
    python3 tests/bent.py "$work"
    for kind in plain best; do
        echo "$kind C, with the sanitizers and without"
        builds $kind $sanitizers
        "$work/$kind" "$work/small"
        builds $kind -O3
        "$work/$kind" "$work/all"
    done
    echo "wrong programs"
    gcc $warnings $(names plain) -Iinclude -c tests/host.c -o "$work/host.o"
    for program in "$work"/wrong-*.c; do
        gcc -w -Ibench "$program" "$work/host.o" -o "$work/wrong"
        must_differ "$work/wrong" "$work/small"
    done
    echo "wrong headers"
    gcc -w -c bench/plain.c -o "$work/plain.o"
    for header in "$work"/header-*; do
        gcc -w $(names plain) -I"$header" tests/host.c "$work/plain.o" -o "$work/wrong"
        must_differ "$work/wrong" "$work/small"
    done
    echo "the examples over plain C"
    the_examples $(names plain) bench/plain.c
}

# prints EXAMPLE PLAN SCRIPT OPTION: what an example prints of a plan is what the second model says.
prints() {
    "$work/$1" "$2" > "$work/said" || fail "examples/$1.c ended with $? on $2"
    python3 "$3" "$4" "$2" | diff - "$work/said" || fail "examples/$1.c prints something else on $2"
    tail -n 1 "$work/said"
}

# the_examples FLAGS AND OBJECTS: the examples over an implementation.
the_examples() {
    for example in link trunks modulate lamp; do
        gcc $warnings -O2 -Iinclude examples/$example.c "$@" -o "$work/$example"
        if "$work/$example" plans/refused-14.plan 2> /dev/null; then fail "examples/$example.c took a refused plan"; fi
    done
    for plan in plan-a largest no-scattered-64-to-75; do
        prints link plans/$plan.plan tests/host.py --link
        prints trunks plans/$plan.plan tests/loss.py --trunks
        prints modulate plans/$plan.plan tests/host.py --example
        prints lamp plans/$plan.plan tests/host.py --lamp
    done
}

# The library, the examples, and wrong expectations.
with_library() {
    bash tools/staticlib.sh
    # The library has no data of its own that could be written, and calls nothing but the copying of memory.
    if nm "$library" | grep -E ' [BbDdCcGgSs] '; then fail "the library has data that can be written"; fi
    if nm -u "$library" | grep -E '^ +U ' | grep -vE ' (memcpy|memmove|memset|memcmp|bcmp|headend_[a-z_]+)$'; then
        fail "the library calls something else"
    fi
    echo "the library, with the sanitizers"
    gcc $warnings $sanitizers -Iinclude tests/host.c "$library" -o "$work/host-san"
    "$work/host-san" "$work/all"
    echo "the library, under valgrind"
    gcc $warnings -g -O1 -Iinclude tests/host.c "$library" -o "$work/host"
    valgrind -q --error-exitcode=9 "$work/host" "$work/small"
    "$work/host" --stack "$work/small"
    echo "the examples"
    the_examples "$library"
    echo "wrong expectations"
    "$work/host" "$work/straight.cases"
    for cases in "$work"/bent-*.cases; do
        must_differ "$work/host" "$cases"
    done
    echo "host.sh: all right"
}

case ${1:-} in
    --without-library)
        work=$2
        mkdir -p "$work"
        without_library
        ;;
    --library)
        work=$2
        with_library
        ;;
    '')
        work=$(mktemp -d)
        trap 'rm -rf "$work"' EXIT
        without_library
        with_library
        ;;
    *) fail "unknown word: $1" ;;
esac

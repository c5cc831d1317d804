#!/bin/bash
# Measures Tzaquedda on this machine and prints the results: bench/run.sh [--before COMMIT] [LINES]
#   - labels written and read a second through the C interface, and digits of nine-digit numbers, beside plain C, in one run
#     (bench/bench.c); with --before beside the library of that commit too, which takes as long again to be proved
#     (one that this Rattle reads);
#   - queries a second of the router at 1, 16 and 256 shards, beside plain C that walks along them (bench/routes.c);
#   - the program `line` on LINES labels (default 200000, none with 0), beside the crate vtc answering the same (compare/judge.sh).
# Needs Rattle's kit, gcc, and what compare/judge.sh needs. Ratios are of one run, so they mean something on a busy machine too; under
# the emulator they do not.
set -eu
cd "$(dirname "${BASH_SOURCE[0]}")/.."
. bin/c-build
. bench/objects.sh
before=''
if [ "${1-}" = --before ]; then before=${2:?--before takes a commit}; shift 2; fi
lines=${1:-200000}

# target/before.o, target/before-label.o and target/before-digits.o: the writers of the commit, under names of their own
earlier() {
    local at
    at=target/before-$(git rev-parse --short "$before^{commit}")
    mkdir -p "$at"
    git archive "$before" crates crates.txt include | tar -x -C "$at"
    (cd "$at/crates/exports_c" && rt lib) > "$at.log" 2>&1 || { tail -n 20 "$at.log" >&2; exit 1; }
    under_name target/before.o "$at/crates/exports_c/out/libexports_c.a" tzq_write_label=earlier_write_label
    "$(compiler)" -std=c11 -O2 -Wall -Wextra -Werror -I "$at/include" -c -o target/before-label.o bench/before.c
    digits_object before "$at"
}

processor() { sed -n 's/^model name[^:]*: //p' /proc/cpuinfo | head -n 1; }

# the time that a command takes, in seconds
seconds() {
    local start end
    start=$(date +%s%N)
    "$@"
    end=$(date +%s%N)
    echo "$(((end - start) / 1000000))" | awk '{ printf "%.3f\n", $1 / 1000 }'
}

# labels at rate 2, spread over a day: as input of `line`, and as the three commands that ask the crate for the same answers
labels() {
    awk -v n="$lines" -v ours=target/bench-line.in -v theirs=target/bench-judge.in 'BEGIN {
        for (i = 0; i < n; i++) {
            c = (i * 40503) % 2073600
            t = sprintf("%02d:%02d:%02d:%02d", c / 86400, c / 1440 % 60, c / 24 % 60, c % 24)
            print "02 " t > ours
            print "read 2 " t "\nlabel 2 " c "\nticks 2 " c > theirs
        }
    }'
}

ours() { run crates/line/out/line < target/bench-line.in > target/bench-line.out; }
theirs() { "$judge" < target/bench-judge.in > target/bench-judge.out 2> /dev/null; }

# the two programs, three times each in turn, after one of each that is not counted
programs() {
    bin/prove line
    judge=$(compare/judge.sh build)
    labels
    ours
    theirs
    paste -d ' ' - - - < target/bench-judge.out | cmp - target/bench-line.out
    for _ in 1 2 3; do
        echo "$(seconds ours) $(seconds theirs)"
    done | awk -v n="$lines" '{ a += $1; b += $2 } END {
        printf "line: %d lines in %.2f s, the crate in %.2f s, ratio %.2f\n", n, a / 3, b / 3, a / b
    }'
}

echo "processor: $(processor) ($(nproc) at hand), $(uname -m)"
if emulated; then echo "emulated: yes, so the times say nothing"; else echo "emulated: no"; fi
echo "load: $(cut -d ' ' -f 1-3 /proc/loadavg)"
library
digits_object now
objects=(target/now-digits.o)
if [ -n "$before" ]; then
    earlier
    objects+=(target/before.o target/before-label.o target/before-digits.o)
fi
compile target/bench bench/bench.c bench/plain.c "${objects[@]}"
run target/bench
compile target/bench-routes bench/routes.c bench/walk.c
run target/bench-routes
if [ "$lines" -gt 0 ]; then programs; fi

#!/usr/bin/env bash
# Times the kernels beside plain loops in Rust and prints the ratios: run.sh [ROUNDS].
set -eu
rounds=${1:-100}
here=$(cd "$(dirname "$0")" && pwd)
top=$(cd "$here/../.." && pwd)
work=$(mktemp -d)
trap 'rm -rf "$work"' EXIT

# What is timed is proved: this proves the program and the kernels before it builds the program.
echo "proving and building the kernels" >&2
if ! (cd "$top/crates/kernel_timing" && rt run) > "$work/log" 2>&1; then
    tail -n 40 "$work/log" >&2
    exit 1
fi
proved=$top/crates/kernel_timing/out/kernel_timing

plain=
if command -v rustc > /dev/null; then
    # The processor that the proved program is built for, so that both may use the same instructions.
    rustc -O -C target-cpu=x86-64-v2 --edition 2021 "$here/plain/plain.rs" -o "$work/plain"
    plain=$work/plain
    rustc -O -C target-cpu=x86-64-v2 -C no-vectorize-loops -C no-vectorize-slp --edition 2021 "$here/plain/limit.rs" -o "$work/limit"
else
    echo "no rustc here: the plain loops are left out" >&2
fi

# The programs run in turn. The least of all rounds counts, since whatever else runs here only adds to
# a time; how far the rounds with odd and with even numbers agree tells how settled a ratio is.
for round in $(seq "$rounds"); do
    half=$((round % 2))
    if [ -n "$plain" ]; then
        "$plain" | sed "s/^/plain $half /"
        "$work/limit" | sed "s/^/limit $half /"
    fi
    "$proved" times | sed "s/^/proved $half /"
done > "$work/times"

rt version
if [ -n "$plain" ]; then
    rustc --version
fi
echo "rounds $rounds"
awk '
    function keep(key) {
        if (!(key in least) || took < least[key]) least[key] = took
    }
    function ratio(of, to, half) {
        return least[of half] / least[to half]
    }
    {
        half = $2
        call = $3 " " $4
        took = $5 + 0
        if (!($3 in sum)) {
            cases[++count] = $3
            sum[$3] = $6
            if ($1 == "plain") loop[$3] = call
        }
        if (!(call in least)) calls[$3] = calls[$3] " " $4
        keep(call)
        keep(call " " half)
        if ($6 != "-" && sum[$3] "" != $6 "") differs[$3] = 1
    }
    END {
        printf "%-22s %-16s %12s %7s %12s %7s\n", "case", "call", "nanoseconds", "ratio", "halves", "limit"
        for (i = 1; i <= count; i++) {
            name = cases[i]
            many = split(calls[name], of_case, " ")
            for (j = 1; j <= many; j++) {
                call = name " " of_case[j]
                printf "%-22s %-16s %12d", name, of_case[j], least[call]
                if (name in loop) printf " %7.2f", ratio(call, loop[name], "")
                if (name in loop && call " 0" in least) printf "  %5.2f %5.2f", ratio(call, loop[name], " 1"), ratio(call, loop[name], " 0")
                limit = name " multiplications"
                if (limit in least) printf " %7.2f", least[call] / least[limit]
                print ""
            }
        }
        for (name in differs) {
            print "the checksums of " name " differ"
            wrong = 1
        }
        exit wrong
    }' "$work/times"

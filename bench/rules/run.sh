#!/usr/bin/env bash
# Times the rules of shape and of sides beside the parser over the same programs, and prints the ratios: run.sh [ROUNDS].
set -eu
rounds=${1:-10}
here=$(cd "$(dirname "$0")" && pwd)
top=$(cd "$here/../.." && pwd)
work=$(mktemp -d)
trap 'rm -rf "$work"' EXIT

# What is timed is proved: this proves the program, the parser and the rules before it builds the program.
echo "proving and building the parser and the rules" >&2
if ! (cd "$top/crates/rules_timing" && rt run) > "$work/log" 2>&1; then
    tail -n 40 "$work/log" >&2
    exit 1
fi
proved=$top/crates/rules_timing/out/rules_timing

# A program of so many statements and 256 procedures. Those of `chains` call one another 16 deep: 16 layers of 16, each procedure calling
# all of the next layer. Those of `ring` call the next one, and the last the first, so each leads back to itself by 256 calls.
program() {
    awk -v kind="$1" -v most="$2" 'BEGIN {
        printf "sial timed\nscalar s\n"
        each = int(most / 256) - 1
        for (p = 0; p < 256; p++) {
            printf "proc p%d\n", p
            layer = int(p / 16)
            calls = 0
            if (kind == "chains" && layer < 15)
                for (q = 0; q < 16; q++) { printf "call p%d\n", (layer + 1) * 16 + q; calls++ }
            if (kind == "ring")
                for (; calls < each - 1; calls++) printf "call p%d\n", (p + 1) % 256
            for (n = calls; n < each; n++) printf "s = 1\n"
            printf "endproc\n"
        }
        printf "call p0\nendsial timed\n"
    }'
}
kinds="chains ring"
for kind in $kinds; do
    for most in 16384 32768 65535; do
        program "$kind" "$most" > "$work/$kind.$most"
    done
done

# The least of all rounds counts, since whatever else runs here only adds to a time.
for round in $(seq "$rounds"); do
    for kind in $kinds; do
        for most in 16384 32768 65535; do
            "$proved" "$work/$kind.$most" | sed "s/^/$kind $most /"
        done
    done
done > "$work/times"

rt version
echo "rounds $rounds"
awk '
    {
        key = $1 " " $2 " " $3
        if (!(key in least) || $4 + 0 < least[key]) least[key] = $4 + 0
        found[key] = $5
        if (!($1 in seen)) { seen[$1] = 1; kinds[++many] = $1 }
    }
    function twice(kind, call) {
        return least[kind " 65535 " call] / least[kind " 32768 " call] / 2
    }
    END {
        printf "%-10s %16s %18s %14s %16s %12s\n", "program", "shapes to parse", "classify to parse", "shapes twice", "classify twice", "classify"
        for (n = 1; n <= many; n++) {
            kind = kinds[n]
            top = kind " 65535 "
            printf "%-10s %16.2f %18.2f %14.2f %16.2f %10.3f s\n", kind, least[top "shapes"] / least[top "parse"], least[top "classify"] / least[top "parse"],
                twice(kind, "shapes"), twice(kind, "classify"), least[top "classify"] / 1e9
        }
        if (least["chains 65535 classify"] > 1e9) { print "chains takes more than a second"; wrong = 1 }
        if (found["chains 65535 classify"] != "granted" || found["ring 65535 classify"] != "recursion") { print "the rules found something else"; wrong = 1 }
        exit wrong
    }' "$work/times"

#!/usr/bin/env bash
# Times the lexer and the parser beside a plain lexer over the same texts, and prints the ratios: run.sh [ROUNDS].
set -eu
rounds=${1:-30}
here=$(cd "$(dirname "$0")" && pwd)
top=$(cd "$here/../.." && pwd)
work=$(mktemp -d)
trap 'rm -rf "$work"' EXIT

# What is timed is proved: this proves the program, the lexer and the parser before it builds the program.
echo "proving and building the lexer and the parser" >&2
if ! (cd "$top/crates/text_timing" && rt run) > "$work/log" 2>&1; then
    tail -n 40 "$work/log" >&2
    exit 1
fi
proved=$top/crates/text_timing/out/text_timing
rustc -O -C target-cpu=x86-64-v2 --edition 2021 "$here/plain/lexer.rs" -o "$work/plain"

# Programs of a quarter, a half and a whole MiB, each of one kind of line; of any bytes: one that stops at its first byte.
text() {
    awk -v kind="$1" -v most="$2" 'BEGIN {
        head = "sial timed\naoindex i = 1, 2\naoindex j = 1, 2\naoindex k = 1, 2\n" \
            "temp left(i,k)\ntemp right(k,j)\ntemp product(i,j)\nscalar s\n"
        line["statements"] = "product(i,j) = left(i,k) * right(k,j)\n"
        line["scalars"] = "s += 18446744073709551615\n"
        line["comments"] = "# a comment that says nothing but that it is one line of the text\n"
        line["blanks"] = "                                                                \n"
        line["names"] = "execute print_scalar s\n"
        tail = "endsial timed\n"
        count = int((most - length(head) - length(tail)) / length(line[kind]))
        if (kind != "comments" && kind != "blanks" && count > 65535) count = 65535
        printf "%s", head
        for (n = 0; n < count; n++) printf "%s", line[kind]
        printf "%s", tail
    }'
}
kinds="statements scalars comments blanks names"
for kind in $kinds; do
    for most in 262144 524288 1048576; do
        text "$kind" "$most" > "$work/$kind.$most"
    done
done

# The programs run in turn, and the least of all rounds counts, since whatever else runs here only adds to a time.
for round in $(seq "$rounds"); do
    for kind in $kinds; do
        for most in 262144 524288 1048576; do
            "$work/plain" "$work/$kind.$most" | sed "s/^/$kind $most /"
            "$proved" "$work/$kind.$most" | sed "s/^/$kind $most /"
        done
    done
done > "$work/times"

rt version
rustc --version
echo "rounds $rounds"
awk '
    {
        key = $1 " " $2 " " $3
        if (!(key in least) || $5 + 0 < least[key]) least[key] = $5 + 0
        bytes[key] = $4
        count[key] = $6
        if (!($1 in seen)) { seen[$1] = 1; kinds[++many] = $1 }
    }
    function rate(kind, most, call,    key) {
        key = kind " " most " " call
        return bytes[key] * 1000 / least[key]
    }
    function twice(kind, from, to, call) {
        return least[kind " " to " " call] / least[kind " " from " " call] / (bytes[kind " " to " " call] / bytes[kind " " from " " call])
    }
    END {
        printf "%-12s %10s %10s %10s %12s %12s %14s %14s\n", "text, 1 MiB", "plain MB/s", "lex MB/s", "parse MB/s", "lex to plain", "parse to lex", "lex doubled", "parse doubled"
        for (n = 1; n <= many; n++) {
            kind = kinds[n]
            top = 1048576
            printf "%-12s %10.0f %10.0f %10.0f %12.2f %12.2f   %5.2f %5.2f    %5.2f %5.2f\n", kind, rate(kind, top, "plain"), rate(kind, top, "lex"), rate(kind, top, "parse"),
                least[kind " " top " lex"] / least[kind " " top " plain"], least[kind " " top " parse"] / least[kind " " top " lex"],
                twice(kind, 262144, 524288, "lex"), twice(kind, 524288, top, "lex"), twice(kind, 262144, 524288, "parse"), twice(kind, 524288, top, "parse")
            for (most = 262144; most <= top; most *= 2)
                if (count[kind " " most " plain"] != count[kind " " most " lex"] || count[kind " " most " lex"] == 0 || (kind != "comments" && kind != "blanks" && count[kind " " most " parse"] == 0)) {
                    print "the tokens of " kind " differ, or it is refused"
                    wrong = 1
                }
        }
        exit wrong
    }' "$work/times"

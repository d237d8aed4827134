#!/usr/bin/env bash
# The time and the memory that looking at a text of 8 MB takes: its words, their places in the grammar, their names, the events, and where looking
# ends. `rt run` proves and builds read_bench first. A text of operations, one of names that are all different, and one of nested lists.
set -eu
cd "$(dirname "$0")/../crates/read_bench"
rt run < stdin > /dev/null 2>&1
work=$(mktemp -d)
trap 'rm -rf "$work"' EXIT
line='"arith.addi"(%left_operand, %right_operand) <{overflowFlags = #arith.overflow<nsw>, n = 42 : i64}> : (i32, i32) -> i32'
{ yes "$line" || true; } | head -c 8000000 > "$work/cut"
head -n -1 "$work/cut" > "$work/operations"
awk 'BEGIN { for (i = 0; i < 160000; i++) printf "%%value_%d = \"t.x\"(%%other_%d) : (i32) -> i32\n", i, i }' > "$work/names"
{ printf '#a = '; head -c 4000000 /dev/zero | tr '\0' '['; head -c 4000000 /dev/zero | tr '\0' ']'; } > "$work/lists"
for text in operations names lists; do
    best=1000000
    for _ in 1 2 3; do
        seen=$({ /usr/bin/env time -f '%U %S %M' ./out/read_bench < "$work/$text" > "$work/said"; } 2>&1)
        read -r user system memory <<< "$seen"
        spent=$(awk -v u="$user" -v s="$system" 'BEGIN { print int((u + s) * 1000) }')
        [ "$spent" -ge "$best" ] || best=$spent
    done
    echo "$text: $(stat -c %s "$work/$text") bytes, $(cat "$work/said"), $best ms, $((memory / 1024)) MB"
done

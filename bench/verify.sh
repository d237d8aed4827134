#!/usr/bin/env bash
# Times what the built program takes to verify: a module of 16,384 functions, and a function of 4,096 blocks, a ladder in which each block goes on
# to the next one or back to the second, and uses values of the earlier blocks, all of them or 330 from the first to the last. A rule that is broken
# in front of what is verified ends the run behind reading, one behind it ends the run in front of printing; so three runs tell the three times
# apart. Each time is the best of three. Verifying the functions is to take no more than reading them, verifying the ladder less than 1 s.
set -eu
top=$(cd "$(dirname "$0")/.." && pwd)
program=${1:-$top/crates/mlir_lower/out/mlir_lower}
[ -x "$program" ] || "$top/lower" "$top/examples/inc.mlir" >/dev/null
work=$(mktemp -d)
trap 'rm -rf "$work"' EXIT

# A function of this name that breaks the rule `Attribute`, where the word is `broken`, or none.
small() {
    value='1 : i32'
    [ "$2" != broken ] || value=true
    printf '  "func.func"() <{function_type = () -> (), sym_name = "%s"}> ({\n    %%0 = "arith.constant"() <{value = %s}> : () -> i32\n    "func.return"() : () -> ()\n  }) : () -> ()\n' "$1" "$value"
}

# So many functions of four operations.
functions() {
    awk -v count="$1" 'BEGIN {
        for (i = 0; i < count; i++) {
            print "  \"func.func\"() <{function_type = (i32) -> i32, sym_name = \"f" i "\"}> ({"
            print "  ^bb0(%arg0: i32):"
            print "    %0 = \"arith.constant\"() <{value = " i " : i32}> : () -> i32"
            print "    %1 = \"arith.addi\"(%arg0, %0) <{overflowFlags = #arith.overflow<none>}> : (i32, i32) -> i32"
            print "    %2 = \"arith.muli\"(%1, %arg0) : (i32, i32) -> i32"
            print "    \"func.return\"(%2) : (i32) -> ()"
            print "  }) : () -> ()"
        }
    }'
}

# A function of so many blocks, each of which uses at most so many values.
ladder() {
    awk -v blocks="$1" -v most="$2" 'BEGIN {
        print "  \"func.func\"() <{function_type = () -> (), sym_name = \"ladder\"}> ({"
        for (k = 0; k < blocks; k++) {
            used = k < most ? k : most
            values = ""
            types = ""
            for (j = 0; j < used; j++) {
                comma = j ? ", " : ""
                values = values comma "%" int(j * k / used)
                types = types comma "i1"
            }
            if (k) print "  ^bb" k ":"
            print "    %" k " = \"t.use\"(" values ") : (" types ") -> i1"
            if (k + 1 == blocks) print "    \"func.return\"() : () -> ()"
            else if (k == 0) print "    \"cf.br\"()[^bb1] : () -> ()"
            else print "    \"cf.cond_br\"(%" k ")[^bb" k + 1 ", ^bb1] <{operandSegmentSizes = array<i32: 1, 0, 0>}> : (i1) -> ()"
        }
        print "  }) : () -> ()"
    }'
}

# What stands in $work/middle between two small functions, of which one is broken or none.
module() {
    echo '"builtin.module"() ({'
    small in_front "$1"
    cat "$work/middle"
    small behind "$2"
    echo '}) : () -> ()'
}

# The best of three runs on the text, in milliseconds, and the most memory of one, in MB. The status is to be the one that is given.
run() {
    python3 - "$program" "$1" "$2" "$work/out" <<'P'
import resource, subprocess, sys, time
program, text, status, out = sys.argv[1:]
best = None
for _ in range(3):
    with open(text, "rb") as given, open(out, "wb") as taken:
        begun = time.monotonic()
        ended = subprocess.run([program, "--allow-unregistered-dialect"], stdin=given, stdout=taken, stderr=subprocess.DEVNULL).returncode
        spent = time.monotonic() - begun
    if ended != int(status):
        sys.exit(f"status {ended} in place of {status}")
    best = spent if best is None else min(best, spent)
print(int(best * 1000), resource.getrusage(resource.RUSAGE_CHILDREN).ru_maxrss // 1024)
P
}

# The times of what stands in $work/middle.
measure() {
    module broken sound >"$work/front"
    module sound broken >"$work/back"
    module sound sound >"$work/whole"
    read -r reading peak <<<"$(run "$work/front" 2)"
    read -r verified peak <<<"$(run "$work/back" 2)"
    read -r printed peak <<<"$(run "$work/whole" 0)"
    echo "$1, $(stat -c %s "$work/whole") bytes: reading $reading ms, verifying $((verified - reading)) ms, printing $((printed - verified)) ms, $peak MB"
}

functions 16384 >"$work/middle"
measure "16,384 functions"
ladder 4096 330 >"$work/middle"
measure "a function of 4,096 blocks"

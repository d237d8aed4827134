#!/usr/bin/env bash
# The time and the memory that reading and printing a module take, beside mlir-opt where it is installed: COUNT functions (16,384 if left out) of
# arithmetic, an scf.if, a loop and memory in turn, then one function of 250,000 operations, and operations of 4,096 operands.
# `rt run` proves and builds the program first.
set -eu
count=${1:-16384}
cd "$(dirname "$0")/../crates/mlir_lower"
rt run < stdin > /dev/null 2>&1
work=$(mktemp -d)
trap 'rm -rf "$work"' EXIT
awk -v count="$count" 'BEGIN {
    print "\"builtin.module\"() ({"
    for (k = 0; k < count; k++) {
        printf "  \"func.func\"() <{function_type = (i32, i32) -> i32, sym_name = \"f%d\"}> ({\n  ^bb0(%%arg0: i32, %%arg1: i32):\n", k
        if (k % 4 == 0) {
            printf "    %%0 = \"arith.constant\"() <{value = %d : i32}> : () -> i32\n", k % 16
            print "    %1 = \"arith.muli\"(%arg0, %0) <{overflowFlags = #arith.overflow<none>}> : (i32, i32) -> i32"
            print "    %2 = \"arith.addi\"(%1, %arg1) <{overflowFlags = #arith.overflow<none>}> : (i32, i32) -> i32"
            print "    \"func.return\"(%2) : (i32) -> ()"
        } else if (k % 4 == 1) {
            printf "    %%0 = \"arith.constant\"() <{value = %d : i32}> : () -> i32\n", k % 16
            print "    %1 = \"arith.cmpi\"(%arg0, %arg1) <{predicate = 2 : i64}> : (i32, i32) -> i1"
            print "    %2 = \"scf.if\"(%1) ({\n      \"scf.yield\"(%arg0) : (i32) -> ()\n    }, {"
            print "      %3 = \"arith.addi\"(%arg1, %0) <{overflowFlags = #arith.overflow<none>}> : (i32, i32) -> i32\n      \"scf.yield\"(%3) : (i32) -> ()\n    }) : (i1) -> i32"
            print "    \"func.return\"(%2) : (i32) -> ()"
        } else if (k % 4 == 2) {
            print "    %0 = \"arith.constant\"() <{value = 0 : index}> : () -> index"
            printf "    %%1 = \"arith.constant\"() <{value = %d : index}> : () -> index\n", k % 16
            print "    %2 = \"arith.constant\"() <{value = 1 : index}> : () -> index"
            print "    %3 = \"scf.for\"(%0, %1, %2, %arg0) ({\n    ^bb0(%arg2: index, %arg3: i32):"
            print "      %4 = \"arith.addi\"(%arg3, %arg1) <{overflowFlags = #arith.overflow<none>}> : (i32, i32) -> i32\n      \"scf.yield\"(%4) : (i32) -> ()\n    }) : (index, index, index, i32) -> i32"
            print "    \"func.return\"(%3) : (i32) -> ()"
        } else {
            print "    %0 = \"memref.alloc\"() <{operandSegmentSizes = array<i32: 0, 0>}> : () -> memref<1xi32>"
            print "    %1 = \"arith.constant\"() <{value = 0 : index}> : () -> index"
            print "    \"memref.store\"(%arg0, %0, %1) : (i32, memref<1xi32>, index) -> ()"
            print "    %2 = \"memref.load\"(%0, %1) : (memref<1xi32>, index) -> i32"
            print "    %3 = \"arith.addi\"(%2, %arg1) <{overflowFlags = #arith.overflow<none>}> : (i32, i32) -> i32"
            print "    \"memref.dealloc\"(%0) : (memref<1xi32>) -> ()"
            print "    \"func.return\"(%3) : (i32) -> ()"
        }
        print "  }) : () -> ()"
    }
    print "}) : () -> ()"
}' > "$work/functions"
awk 'BEGIN {
    print "\"func.func\"() <{function_type = (i32) -> i32, sym_name = \"long\"}> ({\n^bb0(%v0: i32):"
    for (k = 0; k < 249998; k++) printf "%%v%d = \"arith.addi\"(%%v%d, %%v0) : (i32, i32) -> i32\n", k + 1, k
    print "\"func.return\"(%v249998) : (i32) -> ()\n}) : () -> ()"
}' > "$work/long"
awk 'BEGIN {
    print "\"func.func\"() <{function_type = (i32) -> (), sym_name = \"wide\"}> ({\n^bb0(%v0: i32):"
    for (k = 0; k < 300; k++) {
        printf "\"t.x\"(%%v0"; for (i = 1; i < 4096; i++) printf ", %%v0"
        printf ") : (i32"; for (i = 1; i < 4096; i++) printf ", i32"
        print ") -> ()"
    }
    print "\"func.return\"() : () -> ()\n}) : () -> ()"
}' > "$work/wide"
best() {
    local text=$1 least=1000000 memory=0 spent seen elapsed kilobytes
    shift
    for _ in 1 2 3; do
        seen=$({ /usr/bin/env time -f '%e %M' "$@" < "$work/$text" > "$work/said"; } 2>&1 | tail -n 1)
        read -r elapsed kilobytes <<< "$seen"
        spent=$(awk -v e="$elapsed" 'BEGIN { print int(e * 1000) }')
        if [ "$spent" -lt "$least" ]; then least=$spent; memory=$kilobytes; fi
    done
    echo "$least $((memory / 1024))"
}
for text in functions long wide; do
    read -r own own_memory <<< "$(best "$text" ./out/mlir_lower --allow-unregistered-dialect)"
    line="$text: $(stat -c %s "$work/$text") bytes, $own ms, $own_memory MB"
    if command -v mlir-opt-22 > /dev/null; then
        read -r peer peer_memory <<< "$(best "$text" mlir-opt-22 --mlir-print-op-generic --mlir-disable-threading --allow-unregistered-dialect)"
        line="$line; mlir-opt 22: $peer ms, $peer_memory MB, ratio $(awk -v a="$own" -v b="$peer" 'BEGIN { printf "%.2f", a / b }')"
    fi
    echo "$line"
done

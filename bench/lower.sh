#!/usr/bin/env bash
# The time and the memory of lowering: 2,000 and 16,384 generated functions (arithmetic, a choice, a loop, memory) are read, verified, lowered to the
# llvm dialect and printed by the built program, and by mlir-opt-22 or mlir-opt where one is on the PATH, on the same file in the same run; then where the time goes.
# Prints user and system seconds and the peak of memory, the least of three runs. Usage: bench/lower.sh [PROGRAM]
set -euo pipefail
top=$(cd "$(dirname "${BASH_SOURCE[0]}")/.." && pwd)
program=${1:-$top/crates/mlir_lower/out/mlir_lower}
[ -x "$program" ] || { echo "no program at $program: ./lower FILE or rt ci builds it" >&2; exit 2; }
work=$(mktemp -d)
trap 'rm -rf "$work"' EXIT

# A module of COUNT functions: their bodies and constants come of a linear congruence that begins with 2.
generate() {
  local x=2 k r c
  echo '"builtin.module"() ({'
  for ((k = 0; k < $1; k++)); do
    x=$((6364136223846793005 * x + 1442695040888963407))
    r=$(((x >> 33) & 0x7fffffff))
    c=$(((r / 4) % 16))
    printf '  "func.func"() <{function_type = (i32, i32) -> i32, sym_name = "f%d"}> ({\n  ^bb0(%%a: i32, %%b: i32):\n' "$k"
    case $((r % 4)) in
      0) printf '    %%n = "arith.constant"() <{value = %d : i32}> : () -> i32\n    %%m = "arith.muli"(%%a, %%n) : (i32, i32) -> i32\n    %%s = "arith.addi"(%%m, %%b) : (i32, i32) -> i32\n' $c ;;
      1) printf '    %%n = "arith.constant"() <{value = %d : i32}> : () -> i32\n    %%t = "arith.cmpi"(%%a, %%b) <{predicate = 2 : i64}> : (i32, i32) -> i1\n    %%s = "scf.if"(%%t) ({\n      "scf.yield"(%%a) : (i32) -> ()\n    }, {\n      %%v = "arith.addi"(%%b, %%n) : (i32, i32) -> i32\n      "scf.yield"(%%v) : (i32) -> ()\n    }) : (i1) -> i32\n' $c ;;
      2) printf '    %%l = "arith.constant"() <{value = 0 : index}> : () -> index\n    %%u = "arith.constant"() <{value = %d : index}> : () -> index\n    %%p = "arith.constant"() <{value = 1 : index}> : () -> index\n    %%s = "scf.for"(%%l, %%u, %%p, %%a) ({\n    ^bb0(%%i: index, %%x: i32):\n      %%y = "arith.addi"(%%x, %%b) : (i32, i32) -> i32\n      "scf.yield"(%%y) : (i32) -> ()\n    }) : (index, index, index, i32) -> i32\n' $c ;;
      3) printf '    %%m = "memref.alloc"() <{operandSegmentSizes = array<i32: 0, 0>}> : () -> memref<1xi32>\n    %%z = "arith.constant"() <{value = 0 : index}> : () -> index\n    "memref.store"(%%a, %%m, %%z) : (i32, memref<1xi32>, index) -> ()\n    %%v = "memref.load"(%%m, %%z) : (memref<1xi32>, index) -> i32\n    %%s = "arith.addi"(%%v, %%b) : (i32, i32) -> i32\n    "memref.dealloc"(%%m) : (memref<1xi32>) -> ()\n' ;;
    esac
    printf '    "func.return"(%%s) : (i32) -> ()\n  }) : () -> ()\n'
  done
  echo '}) : () -> ()'
}

# measure FILE COMMAND..: milliseconds and megabytes of the best of three runs
measure() {
  local file=$1 best=999999999 memory=0 user system peak spent
  shift
  for _ in 1 2 3; do
    { /usr/bin/env time -o "$work/time" -f '%U %S %M' "$@" <"$file" >"$work/out"; } 2>"$work/diag" || { cat "$work/diag" >&2; exit 1; }
    read -r user system peak <"$work/time"
    spent=$(awk -v u="$user" -v s="$system" 'BEGIN { print int((u + s) * 1000 + 0.5) }')
    if [ "$spent" -lt "$best" ]; then best=$spent; memory=$((peak / 1024)); fi
  done
  echo "$best $memory"
}

peer='builtin.module(func.func(convert-scf-to-cf,arith-expand),convert-arith-to-llvm,convert-cf-to-llvm,convert-func-to-llvm,finalize-memref-to-llvm,reconcile-unrealized-casts)'
for count in 2000 16384; do
  generate $count >"$work/$count.mlir"
  read -r read_ms read_mb <<<"$(measure "$work/$count.mlir" "$program")"
  read -r step_ms _ <<<"$(measure "$work/$count.mlir" "$program" '--pass-pipeline=builtin.module(reconcile-unrealized-casts)')"
  read -r full_ms full_mb <<<"$(measure "$work/$count.mlir" "$program" '--pass-pipeline=builtin.module(full-convert-to-llvm)')"
  echo "$count functions, $(stat -c %s "$work/$count.mlir") bytes: read, verified and printed $read_ms ms, $read_mb MB; reconciled too $step_ms ms; fully lowered $full_ms ms, $full_mb MB"
  if tool=$(command -v mlir-opt-22 || command -v mlir-opt); then
    read -r peer_ms peer_mb <<<"$(measure "$work/$count.mlir" "$tool" --mlir-disable-threading --mlir-print-op-generic "--pass-pipeline=$peer")"
    awk -v c=$count -v a="$full_ms" -v b="$peer_ms" -v m="$full_mb" -v n="$peer_mb" 'BEGIN { printf "%d functions: mlir-opt %d ms, %d MB; ratio of time %.2f, of memory %.2f\n", c, b, n, a / b, m / n }'
  else
    echo "no mlir-opt on the PATH: no ratio"
  fi
done
printf '"builtin.module"() ({\n}) : () -> ()\n' >"$work/empty.mlir"
begun=$(date +%s%N)
for _ in 1 2 3 4 5 6 7 8 9 10; do "$program" <"$work/empty.mlir" >"$work/out"; done
echo "an empty module, start to exit: $((($(date +%s%N) - begun) / 10000000)) ms"

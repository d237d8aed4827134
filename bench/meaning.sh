#!/usr/bin/env bash
# The speed of runs: a loop of ten million rounds with three additions by the structured meaning, and its lowered form by the meaning of
# llvm operations. Operations a second, of which a round has 4 (three additions and the end of the body) and 7. `rt run` proves and builds
# run_bench first.
set -eu
cd "$(dirname "$0")/../crates/run_bench"
rt run < stdin > /dev/null 2>&1
python3 - ./out/run_bench <<'P'
import resource, subprocess, sys

program, rounds = sys.argv[1], 10_000_000

# The least of three, in processor time, since other work on the machine slows each.
def seconds(kind):
    times = []
    for _ in range(3):
        before = resource.getrusage(resource.RUSAGE_CHILDREN).ru_utime
        subprocess.run([program, str(rounds), str(kind)], stdin=subprocess.DEVNULL, stdout=subprocess.DEVNULL, check=True)
        times.append(resource.getrusage(resource.RUSAGE_CHILDREN).ru_utime - before)
    return min(times)

for kind, name, operations in [(0, "structured", 4), (1, "llvm", 7)]:
    time = seconds(kind)
    print(f"{name}: {time:.2f} s, {rounds * operations / time / 1e6:.1f} million operations a second")
print(f"most memory: {resource.getrusage(resource.RUSAGE_CHILDREN).ru_maxrss / 1024:.0f} MB")
P

#!/usr/bin/env bash
# The interner's speed and memory. A million keys of which a thousand are distinct are interned, in at most 60 ns of processor
# time a key; 400,000 distinct keys are, at most 250 bytes each. Keys are of three kinds, `N : i32`, `memref<Nx?xi32>` and
# `#arith.overflow<N>`, and of all three in turn. `rt run` proves and builds intern_bench first.
set -eu
cd "$(dirname "$0")/../crates/intern_bench"
rt run < stdin > /dev/null 2>&1
python3 - ./out/intern_bench <<'P'
import os, resource, subprocess, sys

KINDS = ["integers", "memrefs", "words", "all in turn"]
program = sys.argv[1]

def seconds(keys, rounds, kind):
    before = resource.getrusage(resource.RUSAGE_CHILDREN).ru_utime
    subprocess.run([program, str(keys), str(rounds), str(kind)], stdin=subprocess.DEVNULL, stdout=subprocess.DEVNULL, check=True)
    return resource.getrusage(resource.RUSAGE_CHILDREN).ru_utime - before

# The best of five, since other work on the machine slows each. 1,001 rounds over a thousand keys, less one round.
def nanoseconds(kind):
    return min((seconds(1000, 1001, kind) - seconds(1000, 1, kind)) * 1000 for _ in range(5))

# The memory that is held once all keys are interned, while the program waits for the end of its input.
def held(keys, kind):
    run = subprocess.Popen([program, str(keys), "0", str(kind)], stdin=subprocess.PIPE, stdout=subprocess.PIPE)
    run.stdout.readline()
    with open(f"/proc/{run.pid}/statm") as sizes:
        pages = int(sizes.read().split()[1])
    run.stdin.close()
    run.wait()
    return pages * resource.getpagesize()

def bytes_each(kind):
    return (held(400000, kind) - held(1, kind)) / 400000

slow = large = 0
for kind, name in enumerate(KINDS):
    time, memory = nanoseconds(kind), bytes_each(kind)
    print(f"{name}: {time:.1f} ns a key, {memory:.0f} bytes a distinct key")
    slow, large = max(slow, time if kind == 3 else 0), max(large, memory)
sys.exit(slow > 60 or large > 250)
P

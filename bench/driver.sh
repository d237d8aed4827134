#!/usr/bin/env bash
# Times the conversion of a function of N operations, each of which becomes another one with a cast in front and one behind: the time and the most
# memory of a run, what building the function takes of the time, and the time of an operation in ns. Each time is the best of three. The aim is that
# 250,000 operations take at most 1.5 s and 400 MB. `rt run` proves and builds driver_bench first.
set -eu
cd "$(dirname "$0")/../crates/driver_bench"
rt run < stdin > /dev/null 2>&1
python3 - ./out/driver_bench <<'P'
import os, subprocess, sys, time

program = sys.argv[1]


# The best of three runs in seconds, and the most memory of one in MB.
def run(count, mode, behind):
    best, most = None, 0
    for _ in range(3):
        begun = time.monotonic()
        child = subprocess.Popen([program], stdin=subprocess.PIPE, stdout=subprocess.PIPE)
        child.stdin.write(f"{count} {mode}\n".encode())
        child.stdin.close()
        told = child.stdout.read().decode().strip()
        _, status, used = os.wait4(child.pid, 0)
        child.returncode = status
        spent = time.monotonic() - begun
        if status != 0 or told != f"{behind} operations":
            sys.exit(f"{count} {mode}: {told!r}, status {status}")
        best = spent if best is None else min(best, spent)
        most = max(most, used.ru_maxrss // 1024)
    return best, most


for count in (62_500, 125_000, 250_000):
    built, _ = run(count, "build", count + 1)
    for mode, behind in (("partial", 3 * count + 1), ("full", count + 3)):
        spent, most = run(count, mode, behind)
        print(f"{count} operations, {mode}: {spent * 1000:.0f} ms ({built * 1000:.0f} ms of them building), {most} MB, {spent * 1e9 / count:.0f} ns an operation")
P

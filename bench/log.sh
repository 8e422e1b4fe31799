#!/bin/sh
# Appends of a log on a real file beside a bare loop of the same four calls, three times each.
# Prints the appends per second of each by its least time, and their ratio. Build first: cd crates/bench_work && rt run
set -eu
top=$(cd "$(dirname "$0")/.." && pwd)
work=$(mktemp -d "${1:-.}/bench_log.XXXXXX")
trap 'rm -rf "$work"' EXIT
python3 - "$top/crates/bench_work/out/bench_work" "$work" <<'PY'
import subprocess, sys, time
program, work = sys.argv[1:]
COUNT = 2000
def least(what):
    times = []
    for _ in range(3):
        start = time.monotonic()
        done = subprocess.run([program, what, str(COUNT)], cwd=work, capture_output=True, text=True, check=True)
        times.append(time.monotonic() - start)
        assert done.stdout == f"{COUNT}\n", done.stdout
    return min(times)
log, bare = least("log"), least("bare")
print(f"log:  {COUNT / log:.0f} appends per second")
print(f"bare: {COUNT / bare:.0f} appends per second")
print(f"ratio of times: {log / bare:.2f}")
PY

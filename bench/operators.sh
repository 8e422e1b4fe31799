#!/bin/sh
# Joins of 10,000 x 10,000 and 100,000 x 100,000 rows on an integer key, 10,000 and 100,000 rows into 1,000 groups, and as
# many rows sorted, five times each. Prints the least processor times and the growth from the small case to the large one:
# a linear body has some 10, a quadratic one 100. The times include making the rows.
# Build first: cd crates/bench_work && rt run
set -eu
top=$(cd "$(dirname "$0")/.." && pwd)
python3 - "$top/crates/bench_work/out/bench_work" <<'PY'
import os, subprocess, sys
program = sys.argv[1]
def least(what, count, wanted):
    times = []
    for _ in range(5):
        with subprocess.Popen([program, what, str(count)], stdout=subprocess.PIPE, text=True) as run:
            printed = run.stdout.read()
            _, status, usage = os.wait4(run.pid, 0)
            run.returncode = os.waitstatus_to_exitcode(status)
        assert run.returncode == 0 and printed == f"{wanted}\n", printed
        times.append(usage.ru_utime + usage.ru_stime)
    return min(times)
for what, groups in ("join", 0), ("group", 1000), ("sort", 0):
    small = least(what, 10_000, groups or 10_000)
    large = least(what, 100_000, groups or 100_000)
    print(f"{what}: {small:.3f} s, {large:.3f} s, growth {large / small:.1f}")
PY

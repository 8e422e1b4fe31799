#!/bin/sh
# One statement of 6,543 and of 65,524 tokens, scripts of 35,000 and 350,000 small statements (1.6 and 16 MB), which are cut
# and read, and DDL texts of 7,000 and 70,000 tables (0.4 and 4 MB); three times each. Prints tokens per second of the large
# case by its least processor time, and the growth of time and memory from the small case to the large one: a linear reader
# has some 10. The times include making the text.
# Build first: cd crates/bench_work && rt run
set -eu
top=$(cd "$(dirname "$0")/.." && pwd)
python3 - "$top/crates/bench_work/out/bench_work" <<'PY'
import os, subprocess, sys
program = sys.argv[1]
def least(what, count):
    times, sizes = [], []
    for _ in range(3):
        with subprocess.Popen([program, what, str(count)], stdout=subprocess.PIPE, text=True) as run:
            printed = run.stdout.read()
            _, status, usage = os.wait4(run.pid, 0)
            run.returncode = os.waitstatus_to_exitcode(status)
        assert run.returncode == 0 and printed == f"{count}\n", printed
        times.append(usage.ru_utime + usage.ru_stime)
        sizes.append(usage.ru_maxrss / 1024)
    return min(times), min(sizes)
CASES = (
    ("statement", 503, 5_040, lambda n: 4 + 13 * n),
    ("script", 35_000, 350_000, lambda n: 13 * n),
    ("ddl", 7_000, 70_000, lambda n: 14 * n),
)
for what, small, large, tokens in CASES:
    (time, size), (more_time, more_size) = least(what, small), least(what, large)
    print(
        f"{what}: {tokens(large) / more_time:,.0f} tokens per second; {time:.3f} s and {size:.0f} MB, "
        f"{more_time:.3f} s and {more_size:.0f} MB, growth {more_time / time:.1f} and {more_size / size:.1f}"
    )
PY

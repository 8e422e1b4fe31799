#!/bin/sh
# What stores cost, by the least time of three runs each.
# A journaled store: 10,000 and 100,000 rows that come one by one in one branch, which is committed, and the store attached again;
# and 100,000 rows in one change. Prints the growth from the smaller store to the greater (a linear body has some 10, a quadratic
# one 100), how much longer the single changes take than the one, the greatest memory, and that memory and the log's bytes by the row.
# CSV files of 100,000 and 1,000,000 lines attached: vdb started over them with an empty script, and sqlite3's import of the
# same files where it is there. Prints their ratio, the growth, and the greatest memory of vdb, by the bytes of the file and by the row.
# Build first: cd crates/bench_work && rt run
set -eu
top=$(cd "$(dirname "$0")/.." && pwd)
work=$(mktemp -d)
trap 'rm -rf "$work"' EXIT
cat >"$work/orders.ddl" <<'DDL'
CREATE SERVER files FOREIGN DATA WRAPPER csv;
CREATE SCHEMA s SERVER files;
SET SCHEMA s;
CREATE FOREIGN TABLE orders (id integer, cust integer, qty integer, note string, PRIMARY KEY (id));
DDL
for lines in 100000 1000000; do
    mkdir "$work/$lines"
    awk -v n=$lines 'BEGIN { print "id,cust,qty,note"; for (i = 1; i <= n; i++) print i "," (i * 7919) % (n / 10) + 1 "," i % 100 ",note " i % 1000 }' >"$work/$lines/orders.csv"
done
# Builds the program where it isn't there.
"$top/vdb" run "$work/orders.ddl" "files=csv:$work/100000" </dev/null
python3 - "$top" "$work" <<'PY'
import os, shutil, subprocess, sys, time

top, work = sys.argv[1:]

def run(words, stdin):
    """The time of a run, and its greatest memory in MB."""
    start = time.monotonic()
    with open(stdin) as given:
        child = subprocess.Popen(words, stdin=given, stdout=subprocess.DEVNULL, cwd=work)
        _, status, used = os.wait4(child.pid, 0)
    if status != 0:
        sys.exit(f"{words[0]} ended with {status}")
    return time.monotonic() - start, used.ru_maxrss // 1024

def least(words, stdin):
    runs = [run(words, stdin) for _ in range(3)]
    return min(time for time, _ in runs), max(memory for _, memory in runs)

def journaled(what, count):
    return least([top + "/crates/bench_work/out/bench_work", what, str(count)], os.devnull)

def per_row(count):
    return f"the log has {os.path.getsize(work + '/bench_work.log') // count} bytes a row"

before = None
for rows in (10000, 100000):
    came, memory = journaled("rows", rows)
    again, memory_again = journaled("again", rows)
    text = f"{rows} rows one by one: {came:.2f} s, at most {memory} MB, {memory * 1048576 // rows} bytes a row; {per_row(rows)}; "
    text += f"attached again: {again:.2f} s, at most {memory_again} MB, {memory_again * 1048576 // rows} bytes a row"
    if before is not None:
        text += f"; {came / before[0]:.1f} and {again / before[1]:.1f} times the smaller"
    before = came, again
    print(text, flush=True)
at_once, memory = journaled("block", 100000)
print(f"100000 rows at once: {at_once:.2f} s, at most {memory} MB; one by one {before[0] / at_once:.1f} times as long", flush=True)

before = None
for lines in (100000, 1000000):
    file = f"{work}/{lines}/orders.csv"
    ours, memory = least([top + "/crates/vdb/out/vdb", "run", work + "/orders.ddl", f"files=csv:{work}/{lines}"], os.devnull)
    text = f"{lines} lines attached: vdb {ours:.2f} s, at most {memory} MB, {memory * 1048576 / os.path.getsize(file):.1f} times the file, {memory * 1048576 // lines} bytes a row"
    if before is not None:
        text += f", {ours / before:.1f} times the smaller"
    before = ours
    if shutil.which("sqlite3"):
        with open(work + "/lite.sql", "w") as script:
            script.write("CREATE TABLE orders (id INTEGER PRIMARY KEY, cust INTEGER, qty INTEGER, note TEXT);\n")
            script.write(f".import --csv --skip 1 {file} orders\n")
        theirs, _ = least(["sqlite3", ":memory:"], work + "/lite.sql")
        text += f"; sqlite3 {theirs:.2f} s; ratio {ours / theirs:.2f}"
    print(text, flush=True)
PY

#!/bin/sh
# A filter, and a join with grouping, over CSV files of 100,000 and 1,000,000 lines: vdb, and sqlite3 (import, then the query)
# where it is there. Prints the least time of three runs each, their ratio, the growth from the smaller files to the greater,
# and the greatest memory of vdb.
set -eu
top=$(cd "$(dirname "$0")/.." && pwd)
work=$(mktemp -d)
trap 'rm -rf "$work"' EXIT
cat >"$work/sales.ddl" <<'DDL'
CREATE SERVER files FOREIGN DATA WRAPPER csv;
CREATE SCHEMA s SERVER files;
SET SCHEMA s;
CREATE FOREIGN TABLE cust (id integer, region string);
CREATE FOREIGN TABLE orders (id integer, cust integer, qty integer);
DDL
for lines in 100000 1000000; do
    mkdir "$work/$lines"
    awk -v n=$lines 'BEGIN { print "id,region"; for (i = 1; i <= n / 10; i++) print i ",region" (i % 50) }' >"$work/$lines/cust.csv"
    awk -v n=$lines 'BEGIN { print "id,cust,qty"; for (i = 1; i <= n; i++) print i "," (i * 7919) % (n / 10) + 1 "," i % 100 }' >"$work/$lines/orders.csv"
done
cat >"$work/filter.sql" <<'SQL'
SELECT id, qty FROM s.orders WHERE qty = 7 AND cust > 100;
SQL
cat >"$work/join.sql" <<'SQL'
SELECT c.region, COUNT(*) AS n, SUM(o.qty) AS q FROM s.cust c JOIN s.orders o ON o.cust = c.id GROUP BY c.region ORDER BY 1;
SQL
# Builds the program where it isn't there.
"$top/vdb" run "$work/sales.ddl" "files=csv:$work/100000" <"$work/filter.sql" >/dev/null
python3 - "$top" "$work" <<'PY'
import os, shutil, subprocess, sys, time

top, work = sys.argv[1:]

def run(words, stdin, out):
    """The time of a run, and its greatest memory in MB."""
    start = time.monotonic()
    with open(stdin) as given, open(out, "w") as printed:
        child = subprocess.Popen(words, stdin=given, stdout=printed)
        _, status, used = os.wait4(child.pid, 0)
    if status != 0:
        sys.exit(f"{words[0]} ended with {status}")
    return time.monotonic() - start, used.ru_maxrss // 1024

def least(words, stdin, out):
    runs = [run(words, stdin, out) for _ in range(3)]
    return min(time for time, _ in runs), max(memory for _, memory in runs)

def rows(path, begins):
    with open(path) as lines:
        return sum(1 for line in lines if line.startswith(begins))

for name in ("filter", "join"):
    before = None
    for lines in (100000, 1000000):
        folder = f"{work}/{lines}"
        words = [top + "/crates/vdb/out/vdb", "run", work + "/sales.ddl", "files=csv:" + folder]
        ours, memory = least(words, f"{work}/{name}.sql", work + "/out")
        text = f"{name} of {lines} lines: {rows(work + '/out', 'ROW')} rows, vdb {ours:.2f} s, at most {memory} MB"
        if before is not None:
            text += f", {ours / before:.1f} times the smaller"
        before = ours
        if shutil.which("sqlite3"):
            with open(f"{work}/{name}.sql") as query:
                statement = query.read().replace("s.cust", "cust").replace("s.orders", "orders")
            with open(work + "/lite.sql", "w") as script:
                script.write("CREATE TABLE cust (id INTEGER, region TEXT);\nCREATE TABLE orders (id INTEGER, cust INTEGER, qty INTEGER);\n")
                for table in ("cust", "orders"):
                    script.write(f".import --csv --skip 1 {folder}/{table}.csv {table}\n")
                script.write(statement)
            theirs, _ = least(["sqlite3", ":memory:"], work + "/lite.sql", work + "/lite.out")
            text += f"; sqlite3 {theirs:.2f} s; ratio {ours / theirs:.2f}"
        print(text, flush=True)
PY

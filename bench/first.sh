#!/bin/sh
# One query over a CSV file of 1,000,000 lines, three times each: vdb, and sqlite3 (import, then the query) where it is there.
# Prints the least time of each, their ratio, and the greatest memory of vdb.
set -eu
top=$(cd "$(dirname "$0")/.." && pwd)
work=$(mktemp -d)
trap 'rm -rf "$work"' EXIT
awk 'BEGIN { print "id,name"; for (i = 1; i <= 1000000; i++) print i ",name" (i % 1000) }' >"$work/cust.csv"
echo "SELECT id, name FROM c.cust WHERE name = 'name7';" >"$work/query.sql"
"$top/vdb" run "$top/examples/first/one.ddl" crm=csv:"$work" <"$work/query.sql" >"$work/vdb.out"
python3 - "$top" "$work" <<'PY'
import resource, shutil, subprocess, sys, time
top, work = sys.argv[1:]
def least(words, stdin):
    times = []
    for _ in range(3):
        start = time.monotonic()
        with open(stdin) as given, open(work + "/out", "w") as out:
            subprocess.run(words, stdin=given, stdout=out, check=True)
        times.append(time.monotonic() - start)
    return min(times)
ours = least([top + "/crates/vdb/out/vdb", "run", top + "/examples/first/one.ddl", "crm=csv:" + work], work + "/query.sql")
memory = resource.getrusage(resource.RUSAGE_CHILDREN).ru_maxrss
print(f"rows printed: {sum(1 for line in open(work + '/vdb.out') if line.startswith('ROW'))}")
print(f"vdb: {ours:.2f} s, at most {memory // 1024} MB")
if shutil.which("sqlite3"):
    with open(work + "/lite.sql", "w") as script:
        script.write(f".import --csv {work}/cust.csv cust\nSELECT id, name FROM cust WHERE name = 'name7';\n")
    theirs = least(["sqlite3", ":memory:"], work + "/lite.sql")
    print(f"sqlite3: {theirs:.2f} s")
    print(f"ratio: {ours / theirs:.2f}")
PY

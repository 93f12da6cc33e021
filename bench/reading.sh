#!/usr/bin/env bash
# How long the program reads: bench/reading.sh [PROGRAM [STORES [WORDS..]]]
#
# Makes a season of so many stores (64 where none is given), 52 weeks, 12 rungs and the base 100 in a
# temporary folder, and runs `PROGRAM plan FOLDER WORDS..` on it three times (where none are given, with
# `--steps 0 --nodes 0`). Its demand.csv has as many
# demands for each store, week and rung as bring it near 30 MB, at most 201. The stocks are of one
# unit, so that nearly all of the time goes into reading and judging the files.
#
# Prints the rows and bytes of demand.csv, the status, the seconds of the fastest run, those for
# 100,000 rows, and the greatest memory of a run.
set -euo pipefail
root="$(cd "$(dirname "${BASH_SOURCE[0]}")/.." && pwd)"
program="${1:-$root/crates/clr_top/out/clr_top}"
stores="${2:-64}"
words=("${@:3}")
[ "${#words[@]}" -gt 0 ] || words=(--steps 0 --nodes 0)
[ -x "$program" ] || { echo "no program at $program: run ./clearance once, or give its path" >&2; exit 1; }
folder="$(mktemp -d)"
trap 'rm -rf "$folder"' EXIT
python3 - "$folder" "$stores" <<'PYTHON'
import sys

folder, stores = sys.argv[1], int(sys.argv[2])
weeks, rungs, base, near, most = 52, 12, 100, 30_000_000, 33_554_432
names = [f"s{store + 1:02}" for store in range(stores)]


def rows_of(demands):
    # The weights of a store, a week and a rung: as even as they can be, and together the base.
    weights = [base // demands + (1 if units < base % demands else 0) for units in range(demands)]
    for name in names:
        for week in range(1, weeks + 1):
            for rung in range(1, rungs + 1):
                for units, weight in enumerate(weights):
                    yield f"{name},{week},{rung},{units},{weight}\n"


def text_of(demands):
    return "store,week,rung,units,weight\n" + "".join(rows_of(demands))


# The length of the file grows nearly in step with the number of demands.
each = len(text_of(20)) / 20
demands = max(1, min(201, int(near / each)))
text = text_of(demands)
while len(text) >= most:
    demands -= 1
    text = text_of(demands)
prices = [f"{rung + 1},{rungs - rung}.00\n" for rung in range(rungs)]
files = {
    "rules.json": f'{{"weeks":{weeks},"base":{base}}}\n',
    "ladder.csv": "rung,price\n" + "".join(prices),
    "stock.csv": "store,units,salvage\n" + "".join(f"{name},1,0\n" for name in names),
    "demand.csv": text,
}
for name, content in files.items():
    with open(f"{folder}/{name}", "w") as file:
        file.write(content)
print(f"demand.csv: {stores} stores, {demands} demands each, {text.count(chr(10)) - 1} rows, {len(text)} bytes")
PYTHON
python3 - "$program" "$folder" "${words[@]}" <<'PYTHON'
import os
import subprocess
import sys
import time

program, folder, words = sys.argv[1], sys.argv[2], sys.argv[3:]
with open(f"{folder}/demand.csv", "rb") as file:
    rows = file.read().count(b"\n") - 1
best, peak, status = None, 0, None
for _ in range(3):
    start = time.monotonic()
    child = subprocess.Popen([program, "plan", folder, *words], stdout=subprocess.DEVNULL)
    _, ended, usage = os.wait4(child.pid, 0)
    seconds = time.monotonic() - start
    status = os.waitstatus_to_exitcode(ended)
    peak = max(peak, usage.ru_maxrss)
    best = seconds if best is None else min(best, seconds)
print(f"status {status}, best of three {best:.3f} s, {best * 100_000 / max(1, rows):.3f} s for 100000 rows")
print(f"greatest memory {peak / 1024:.0f} MB")
PYTHON

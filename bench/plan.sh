#!/usr/bin/env bash
# How long plans take: bench/plan.sh [PROGRAM]
#
# Plans the ordinary chain of examples/ and made seasons at the limits of each part of a plan: the tables of all stores and
# their descent (64 stores, 26 weeks and 8 rungs near 8,000,000 cells; 52 weeks and 12 rungs), the recursion over all stores
# together (at the joint limits), and the search (past 100,000 tight prefixes). Prints for each the status, what the report
# says, the seconds of the fastest of several runs, and the greatest memory of a run.
set -euo pipefail
root="$(cd "$(dirname "${BASH_SOURCE[0]}")/.." && pwd)"
program="${1:-$root/crates/clr_top/out/clr_top}"
[ -x "$program" ] || { echo "no program at $program: run ./clearance once, or give its path" >&2; exit 1; }
folder="$(mktemp -d)"
trap 'rm -rf "$folder"' EXIT
python3 "$root/bench/seasons.py" "$folder"
for season in "$root/examples/ordinary" "$folder"/*; do
  python3 - "$program" "$season" <<'PYTHON'
import resource
import subprocess
import sys
import time

program, folder = sys.argv[1:]
best, runs = None, {"ordinary": 20, "deep": 1}.get(folder.rsplit("/", 1)[1], 3)
for _ in range(runs):
    start = time.perf_counter()
    run = subprocess.run([program, "plan", folder], stdout=subprocess.PIPE, stderr=subprocess.PIPE, text=True)
    spent = time.perf_counter() - start
    best = spent if best is None else min(best, spent)
memory = resource.getrusage(resource.RUSAGE_CHILDREN).ru_maxrss / 1024
lines = [line for line in run.stdout.splitlines() if line.split()[0] in ("best", "bound", "gap", "exact")]
print(f"{folder.rsplit('/', 1)[1]}: status {run.returncode}, {', '.join(lines) or run.stderr.strip()}")
print(f"    best of {runs}: {best:.3f} s, {memory:.0f} MB")
PYTHON
done

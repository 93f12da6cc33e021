"""Runs a program and measures it: the seconds of the fastest of several runs, and the greatest memory of a run.

The memory is what /usr/bin/time tells: of a process that Python starts itself the system counts Python's memory too.
"""

import os
import subprocess
import sys
import tempfile
import time

ROOT = os.path.dirname(os.path.dirname(os.path.abspath(__file__)))


def program():
    """The program that the command line names, or the one that ./clearance builds."""
    path = sys.argv[1] if len(sys.argv) > 1 else f"{ROOT}/crates/clr_top/out/clr_top"
    if not os.access(path, os.X_OK):
        sys.exit(f"no program at {path}: run ./clearance once, or give its path")
    return os.path.abspath(path)


def measured(name, words, runs=3):
    """Runs the words, prints a line with the name, the seconds and the memory, and gives the seconds and the report of the last
    run. A run that ends with another status than 0 ends the script with its note."""
    best, most, report = None, 0, ""
    with tempfile.NamedTemporaryFile("r") as kilobytes:
        for _ in range(runs):
            start = time.perf_counter()
            run = subprocess.run(
                ["/usr/bin/time", "-q", "-f", "%M", "-o", kilobytes.name, *words], capture_output=True, text=True
            )
            spent = time.perf_counter() - start
            if run.returncode != 0:
                sys.exit(f"{name}: status {run.returncode}, {run.stderr.strip()}")
            best = spent if best is None else min(best, spent)
            kilobytes.seek(0)
            most = max(most, int(kilobytes.read().split()[-1]))
            report = run.stdout
    print(f"{name}: best of {runs}: {best:.3f} s, {most / 1024:.0f} MB", flush=True)
    return best, report


def told(report, *words):
    """Prints the lines of a report that begin with one of the words."""
    lines = [line for line in report.splitlines() if line.split()[0] in words]
    print(f"    {', '.join(lines)}", flush=True)

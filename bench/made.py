"""How long made seasons take: python3 bench/made.py [PROGRAM [SEED..]]

Makes the seasons of some seeds, plans the made files, writes a certificate and checks it. The plan of the files must be the report
that `make` gave. Prints for each run the seconds of the fastest of several runs and the greatest memory of a run, and the lines of
the plan.
"""

import os
import sys
import tempfile

import measure

SEEDS = (0, 1, 2, 3, 999_999_999)


def main():
    program = measure.program()
    for seed in [int(word) for word in sys.argv[2:]] or SEEDS:
        with tempfile.TemporaryDirectory() as folder:
            certificate = f"{folder}/certificate.csv"
            _, made = measure.measured(f"seed {seed}, make", [program, "make", folder, "--seed", str(seed)], runs=5)
            _, planned = measure.measured(f"seed {seed}, plan", [program, "plan", folder], runs=5)
            if made != planned:
                sys.exit(f"seed {seed}: the plan of the made files isn't the report that make gave")
            measure.told(planned, "revenue", "best", "bound", "gap")
            measure.measured(f"seed {seed}, plan --cert", [program, "plan", folder, "--cert", certificate], runs=5)
            measure.measured(f"seed {seed}, check", [program, "check", folder], runs=5)
            print(f"    {os.path.getsize(certificate)} bytes")


if __name__ == "__main__":
    main()

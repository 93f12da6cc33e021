"""How long certificates take to be written and checked: python3 bench/certificate.py [PROGRAM]

Plans the ordinary chain of examples/, the large chain of bench/plan.sh, a chain at the joint limits, and a chain whose
certificate has some 200 MB; each once without a certificate and once with one, which is then checked. Prints for each run the
seconds of the fastest of several runs and the greatest memory of a run, the bytes of the certificate, how many of them a
second of the check takes, and the lines of the check's report.
"""

import os
import tempfile

import measure
import seasons

# A certificate with more bytes than this is refused as too long.
MOST_BYTES = 268_435_456


def main():
    program = measure.program()
    with tempfile.TemporaryDirectory() as folder:
        chains = [("ordinary", f"{measure.ROOT}/examples/ordinary")]
        for make in (seasons.large, seasons.joint, seasons.written):
            chains.append((make.__name__, f"{folder}/{make.__name__}"))
            make(chains[-1][1])
        for name, season in chains:
            certificate = f"{folder}/{name}.certificate"
            measure.measured(f"{name}, plan", [program, "plan", season])
            measure.measured(f"{name}, plan --cert", [program, "plan", season, "--cert", certificate])
            size = os.path.getsize(certificate)
            print(f"    {size} bytes" + (", too many to be checked" if size > MOST_BYTES else ""))
            if size <= MOST_BYTES:
                seconds, report = measure.measured(f"{name}, check", [program, "check", season, "--cert", certificate])
                print(f"    {size / seconds / 1e6:.0f} MB a second")
                measure.told(report, "certificate", "revenue", "bound", "exact")
            os.remove(certificate)


if __name__ == "__main__":
    main()

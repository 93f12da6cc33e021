"""What the program does where memory is wanting: python3 bench/memory.py [PROGRAM]

Runs the jobs under limits of their address space, from 4 MB up by a tenth at a time until they end with success: plans of the
ordinary chain of examples/, of the large chain and of the chain at the joint limits of bench/plan.sh, with a certificate;
checks of these certificates; a judged policy; and a made season. Each run has to end with its whole output, or with the status 8, the note
`memory` and no output at all. Prints for each job how many runs ended with 8 and the least limit under which it succeeds, and
ends with 1 where a run ended in another way.
"""

import os
import resource
import subprocess
import sys
import tempfile

import measure
import policies
import seasons

FIRST = 4 * 1024 * 1024


def bytes_of(path):
    """The bytes of a file, and none where there is no such file."""
    if not os.path.exists(path):
        return None
    with open(path, "rb") as file:
        return file.read()


def ended(words, outputs, limit=None):
    """The status of a run, its report and its note, and the files that it made."""
    for path in outputs:
        if os.path.exists(path):
            os.remove(path)
    bound = None if limit is None else lambda: resource.setrlimit(resource.RLIMIT_AS, (limit, limit))
    run = subprocess.run(words, capture_output=True, preexec_fn=bound)
    return run.returncode, run.stdout, run.stderr, [bytes_of(path) for path in outputs]


def is_right(run, whole, outputs):
    """Whether a run ended with its whole output, or for want of memory with none."""
    status, report, note, files = run
    wanting = status == 8 and note == b"memory\n" and report == b"" and files == [None] * len(outputs)
    return run == whole or wanting


def tried(name, words, outputs):
    """Runs the words under one limit after another, and gives whether each run ended as it must."""
    whole = ended(words, outputs)
    limit, wanting = FIRST, 0
    while True:
        run = ended(words, outputs, limit)
        if not is_right(run, whole, outputs):
            print(f"{name}: under {limit} bytes status {run[0]}, report {len(run[1])} bytes, note {run[2][:60]}")
            return False
        if run[0] == 0:
            print(f"{name}: {wanting} runs ended with 8; it succeeds under {limit / 1024 / 1024:.0f} MB", flush=True)
            return True
        limit, wanting = limit + limit // 10, wanting + 1


def main():
    program = measure.program()
    with tempfile.TemporaryDirectory() as folder:
        chains = [("ordinary", f"{measure.ROOT}/examples/ordinary")]
        for make in (seasons.large, seasons.joint):
            chains.append((make.__name__, f"{folder}/{make.__name__}"))
            make(chains[-1][1])
        right = True
        for name, season in chains:
            certificate = f"{folder}/{name}.certificate"
            plan = [program, "plan", season, "--cert", certificate]
            right = tried(f"{name}, plan --cert", plan, [certificate]) and right
            ended(plan, [certificate])
            right = tried(f"{name}, check", [program, "check", season, "--cert", certificate], []) and right
        case = dict(weeks=10, rungs=10, stores=1, units=2000, greatest=31)
        seasons.judged(f"{folder}/judged", **case)
        text, _ = policies.policy(case["weeks"], case["rungs"], case["stores"], case["units"])
        with open(f"{folder}/judged/policy.json", "w") as file:
            file.write(text + "\n")
        right = tried("policy, judge", [program, "judge", f"{folder}/judged"], []) and right
        made = [f"{folder}/made/{file}" for file in ("rules.json", "ladder.csv", "stock.csv", "demand.csv")]
        os.mkdir(f"{folder}/made")
        right = tried("made, make", [program, "make", f"{folder}/made"], made) and right
    sys.exit(0 if right else 1)


if __name__ == "__main__":
    main()

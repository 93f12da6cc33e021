"""How long policies take to be judged: python3 bench/policies.py [PROGRAM]

Judges policies that test a store's stock before each markdown: one of a size near 100,000,000, the greatest that is judged, over
two stores; one over a single store of 2000 units; and one whose file has more than 20 MB. The size is the number of objects of
the file times, for each store, (units + 1) * (least of its units and the greatest demand, + 1). Prints for each the bytes of the
file, the objects, the size, the seconds of the fastest of several runs, the greatest memory of a run, and the report's lines.
"""

import os
import tempfile

import measure
import seasons


def policy(weeks, rungs, stores, units):
    """A policy's text, and its objects. Before each week but the first it tests one store's stock, the stores in turn: where
    little is left the rung stays, else the next one comes, as far as there is one. It tests as long as a rung is left."""
    cached = {}

    def place(week, rung):
        if week > weeks:
            return "null", 0
        if (week, rung) not in cached:
            cached[week, rung] = node(week, rung)
        return cached[week, rung]

    def sets(week, rung):
        then, objects = place(week + 1, rung)
        return f'{{"rung":{rung},"then":{then}}}', objects + 1

    def node(week, rung):
        if week == 1 or rung == rungs:
            return sets(week, rung)
        store = (week - 2) % stores
        limit = units * (weeks + 1 - week) // weeks
        (yes, kept), (no, lowered) = sets(week, rung), sets(week, rung + 1)
        test = f'{{"store":"{seasons.store_name(store)}","left_at_most":{limit},"yes":{yes},"no":{no}}}'
        return test, 1 + kept + lowered

    return place(1, 1)


def main():
    program = measure.program()
    cases = [
        ("two stores", dict(weeks=8, rungs=8, stores=2, units=50, greatest=9)),
        ("2000 units", dict(weeks=10, rungs=10, stores=1, units=2000, greatest=31)),
        ("a long file", dict(weeks=19, rungs=12, stores=1, units=8, greatest=8)),
    ]
    with tempfile.TemporaryDirectory() as folder:
        for name, case in cases:
            season = f"{folder}/{name.replace(' ', '_')}"
            seasons.judged(season, **case)
            text, objects = policy(case["weeks"], case["rungs"], case["stores"], case["units"])
            with open(f"{season}/policy.json", "w") as file:
                file.write(text + "\n")
            size = objects * ((case["units"] + 1) * (min(case["greatest"], case["units"]) + 1)) ** case["stores"]
            print(f"{name}: {os.path.getsize(f'{season}/policy.json')} bytes, {objects} objects, size {size}")
            _, report = measure.measured(f"{name}, judge", [program, "judge", season])
            measure.told(report, "objects", "revenue")


if __name__ == "__main__":
    main()

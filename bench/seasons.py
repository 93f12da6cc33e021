"""Makes the seasons of the benchmarks. Those of bench/plan.sh, one folder each: python3 bench/seasons.py FOLDER"""

import os
import sys


def store_name(index):
    """The name of a store by its index, from 0."""
    return f"s{index + 1:02}"


def write(folder, rules, prices, stocks, weights):
    """A season: its rules, its prices, (units, salvage) of each store, and a list of (demand, weight) for a store, week and
    rung, each counted from 1."""
    os.makedirs(folder)
    names = [store_name(index) for index in range(len(stocks))]
    rows = ["store,week,rung,units,weight\n"]
    for store, name in enumerate(names, 1):
        for week in range(1, rules["weeks"] + 1):
            for rung in range(1, len(prices) + 1):
                rows += [f"{name},{week},{rung},{units},{weight}\n" for units, weight in weights(store, week, rung)]
    files = {
        "rules.json": "{" + ",".join(f'"{field}":{number}' for field, number in rules.items()) + "}\n",
        "ladder.csv": "rung,price\n" + "".join(f"{rung},{price}.00\n" for rung, price in enumerate(prices, 1)),
        "stock.csv": "store,units,salvage\n" + "".join(f"{n},{units},{salvage}\n" for n, (units, salvage) in zip(names, stocks)),
        "demand.csv": "".join(rows),
    }
    for name, text in files.items():
        with open(f"{folder}/{name}", "w") as file:
            file.write(text)


def large(folder):
    """Near 8,000,000 cells: (weeks + 1) * rungs * (markdowns + 1) * spacing for each of a store's stocks."""
    stores, weeks, rungs, markdowns, spacing = 64, 26, 8, 3, 2
    units = 8_000_000 // (stores * (weeks + 1) * rungs * (markdowns + 1) * spacing) - 1

    def weights(store, week, rung):
        first = (rung - 1 + week % 3) // 2
        return [(first + more, weight) for more, weight in enumerate((10, 20, 40, 20, 10))]

    rules = {"weeks": weeks, "base": 100, "markdowns": markdowns, "spacing": spacing}
    write(folder, rules, [60 - 5 * rung for rung in range(rungs)], [(units, "5.00")] * stores, weights)


def deep(folder):
    """52 weeks and 12 rungs, near 8,000,000 cells."""
    stores, weeks, rungs, markdowns, spacing, units = 8, 52, 12, 3, 2, 190

    def weights(store, week, rung):
        first = (rung - 1 + (week + store) % 3) // 2
        return [(first + more, weight) for more, weight in enumerate((10, 20, 40, 20, 10))]

    rules = {"weeks": weeks, "base": 100, "markdowns": markdowns, "spacing": spacing}
    write(folder, rules, [80 - 5 * rung for rung in range(rungs)], [(units, "5.00")] * stores, weights)


def joint(folder):
    """At the joint limits: a joint size of 1,000,000, and 98,000,000 with the demands."""

    def weights(store, week, rung):
        return [(units, weight) for units, weight in enumerate((10, 20, 30, 20, 10, 5, 5))]

    rules = {"weeks": 3, "base": 100}
    write(folder, rules, [60, 45], [(249, "5.00")] * 2, weights)


def search(folder):
    """Demand that asks for one rung after another, so that paths with one markdown are poor, and more than 100,000 prefixes
    are tight."""
    stores, weeks, rungs = 6, 20, 6

    def weights(store, week, rung):
        if rung >= 1 + (week - 1) * rungs // weeks:
            return [(1, 25), (2, 50), (3, 25)]
        return [(0, 50), (1, 50)]

    rules = {"weeks": weeks, "base": 100, "markdowns": 5}
    write(folder, rules, [60 - 6 * rung for rung in range(rungs)], [(40, "5.00")] * stores, weights)


def written(folder):
    """Near 16,000,000 cells, of which five of six stand in a certificate, with some fifteen digits each: some 200 MB."""
    stores, weeks, units = 64, 52, 785

    def weights(store, week, rung):
        first = 8 + 2 * rung + (week + store) % 3
        return [(first + more, weight) for more, weight in enumerate((10, 20, 40, 20, 10))]

    rules = {"weeks": weeks, "base": 100, "markdowns": 1}
    write(folder, rules, [5000, 4500, 4000], [(units, "5.00")] * stores, weights)


def judged(folder, weeks, rungs, stores, units, greatest):
    """A season for a policy to be judged: each store may be asked for anything from nothing to the greatest demand, as evenly as
    can be."""
    base = 100

    def weights(store, week, rung):
        demands = greatest + 1
        return [(units, base // demands + (units < base % demands)) for units in range(demands)]

    rules = {"weeks": weeks, "base": base}
    write(folder, rules, [60 - 4 * rung for rung in range(rungs)], [(units, "5.00")] * stores, weights)


if __name__ == "__main__":
    for make in (large, deep, joint, search):
        make(f"{sys.argv[1]}/{make.__name__}")

#!/usr/bin/env python3
"""Compares the shards that `route` asks with the partitions that PostgreSQL leaves in a plan.

`compare/pruning.sh` calls it with the path of psql, the folder of the server's socket, and the program that answers `ask`'s commands. For each
directory a table is made that is partitioned by ranges of frames, a partition for each shard and no other; the plan of each query is
asked for (EXPLAIN), and the partitions in it must be the shards from FIRST up to AFTER, none where both are 0. Of a query of no frames PostgreSQL's
pruning alone would keep the partition that it begins in, since it looks at one bound after the other; with constraint_exclusion at its default it
also finds that `frame >= a AND frame < a` holds of nothing, and keeps none. The last line is 'pruning: N compared, 0 different'.
"""

import re
import subprocess
import sys
from random import Random

import all as comparison
import directories
from days import DAYS
from router import label, shown

QUERIES = 60


def chosen(rate, random):
    """Directories of every kind, from none to as many shards as there may be."""
    day = DAYS[rate].length
    yield from ([], [(0, day)], [(day - 1, day)], [(0, 1), (day - 1, day)], directories.touching(0, day, 256), directories.touching(day - 256, day, 256))
    yield from (directories.spaced(0, 256, 1, 1), directories.at_minutes(rate, 255, 1), directories.touching(0, day, 255), directories.spaced(7, 129, 3, 2))
    yield from (directories.scattered(random, 0, day, random.choice((1, 2, 3, 5, 8, 20, 64, 128, 200, 256))) for _ in range(5))


def some(random, day, shards):
    """Some of the queries around borders, no two the same, which end in the day."""
    queries = [*directories.every_query(day, shards)] if len(shards) < 5 else [*directories.some_queries(day, shards, random, 1)]
    queries = sorted({(start, after) for start, after in queries if after <= day})
    return random.sample(queries, min(QUERIES, len(queries)))


def asked():
    """Rate, shards and queries."""
    for rate in (5, 2, 11):
        random = Random(rate)
        yield from ((rate, shards, some(random, DAYS[rate].length, shards)) for shards in chosen(rate, random))


# -- PostgreSQL --


def script(all_asked):
    """What psql is given: the plan of each query behind a line of its own."""
    yield "SET enable_partition_pruning = on; SET constraint_exclusion = partition;"
    for _, shards, queries in all_asked:
        yield "CREATE TABLE reel (frame integer NOT NULL) PARTITION BY RANGE (frame);"
        yield from (f"CREATE TABLE shard_{n} PARTITION OF reel FOR VALUES FROM ({first}) TO ({end});" for n, (first, end) in enumerate(shards))
        for start, after in queries:
            yield f"\\echo query\nEXPLAIN (COSTS OFF) SELECT frame FROM reel WHERE frame >= {start} AND frame < {after};"
        yield "DROP TABLE reel;"


def plans(psql, folder, all_asked):
    """The partitions in the plan of each query."""
    command = [psql, "-X", "-q", "-A", "-t", "-v", "ON_ERROR_STOP=1", "-h", folder, "-U", "postgres", "postgres"]
    done = subprocess.run(command, input="\n".join(script(all_asked)), stdout=subprocess.PIPE, check=True, text=True)
    return [{int(number) for number in re.findall(r" on shard_(\d+)\b", plan)} for plan in done.stdout.split("query\n")[1:]]


# -- Our program --


def answered(ask, all_asked):
    """The shards that each query asks, and the lines that asked; no shards where the answer is no two numbers."""
    lines = []
    for rate, shards, queries in all_asked:
        lines += [b"route %d %s %d %s" % (rate, shown(shards), after - start, label(rate, start)) for start, after in queries]
    for line, answer in zip(lines, comparison.answers(ask, lines)):
        numbers = re.fullmatch(rb"(\d+) (\d+)", answer)
        yield line, answer, {*range(int(numbers[1]), int(numbers[2]))} if numbers else None


def main():
    psql, folder, *ask = sys.argv[1:]
    all_asked = [*asked()]
    lengths = [after - start for _, _, queries in all_asked for start, after in queries]
    different = 0
    for length, plan, (line, answer, ours) in zip(lengths, plans(psql, folder, all_asked), answered(ask, all_asked), strict=True):
        if plan != ours:
            different += 1
            if different <= 20:
                print(f"different: {line!r}: ours {answer!r}, partitions {sorted(plan)}")
    print(f"{len(all_asked)} directories, {lengths.count(0)} queries of no frames among the others")
    print(f"pruning: {len(lengths)} compared, {different} different")
    sys.exit(1 if different else 0)


if __name__ == "__main__":
    main()

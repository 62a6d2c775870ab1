"""Writes dockets for the benchmark of whole matches into a folder: ten lists of everybody, markets of growing size, and
some in which nearly every offer is made and displaced, one after another in the last."""
import os
import random
import sys

folder = sys.argv[1]


def write(name, quotas, lists, residents):
    with open(os.path.join(folder, name), "w") as docket:
        for p, quota in enumerate(quotas):
            docket.write(f"Q,p{p},{quota}\n")
        for p, members in enumerate(lists):
            if members:
                docket.write(f"P,p{p}," + ",".join(f"r{r}" for r in members) + "\n")
        for r, members in enumerate(residents):
            docket.write(",".join([f"R,r{r}", *(f"p{p}" for p in members)]) + "\n")


def market(name, programmes, residents):
    rng = random.Random(programmes)
    wishes = [rng.sample(range(programmes), 10) for _ in range(residents)]
    lists = [[] for _ in range(programmes)]
    for r, wish in enumerate(wishes):
        for p in wish:
            lists[p].append(r)
    for members in lists:
        rng.shuffle(members)
    write(name, [10] * programmes, lists, wishes)


write("everybody", [2000] * 10, [range(20000)] * 10, [range(10)] * 20000)
for pairs in (25000, 50000, 100000, 200000):
    market(f"market-{pairs}", pairs // 100, pairs // 10)
# Each of a hundred residents takes each of 2,000 programmes for a better one, if they come by number.
write("ladder", [1] * 2000, [range(100)] * 2000, [range(1999, -1, -1)] * 100)
# Long lists on both sides, ranked against one another.
write("reversed", [1] * 447, [range(447)] * 447, [range(446, -1, -1)] * 447)
# One free programme at a time: each offer displaces a programme, which offers next. 18,000 residents who list nobody come first.
k = 446
chain = [range(1, k + 1), *([*range(i, k + 1), *range(1, i)] for i in range(1, k + 1))]
ranked = [[*range(j + 1, k + 1), *range(j + 1)] for j in range(1, k + 1)]
write("chain", [1] * (k + 1), [[17999 + r for r in members] for members in chain], [[]] * 18000 + ranked)

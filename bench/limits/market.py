"""Prints a docket beyond the limits. market PROGRAMMES RESIDENTS WISHES QUOTA: each resident lists so many programmes by chance,
which list it in turn. chain LENGTH: one displacement after another, over lists of everybody; every pair is offered."""
import random
import sys


def show(quota, lists, wishes):
    for p in range(len(lists)):
        print(f"Q,p{p},{quota}")
    for p, members in enumerate(lists):
        if members:
            print(f"P,p{p}," + ",".join(f"r{r}" for r in members))
    for r, members in enumerate(wishes):
        print(",".join([f"R,r{r}", *(f"p{p}" for p in members)]))


def market(programmes, residents, wishes, quota):
    rng = random.Random(programmes)
    wished = [rng.sample(range(programmes), wishes) for _ in range(residents)]
    lists = [[] for _ in range(programmes)]
    for r, wish in enumerate(wished):
        for p in wish:
            lists[p].append(r)
    for members in lists:
        rng.shuffle(members)
    show(quota, lists, wished)


def chain(k):
    lists = [range(1, k + 1), *([*range(i, k + 1), *range(1, i)] for i in range(1, k + 1))]
    show(1, [[r - 1 for r in members] for members in lists], [[*range(j + 1, k + 1), *range(j + 1)] for j in range(1, k + 1)])


{"market": market, "chain": chain}[sys.argv[1]](*map(int, sys.argv[2:]))

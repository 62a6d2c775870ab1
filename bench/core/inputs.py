"""Makes dockets of many acceptable pairs in the folder given: ten long rankings and many of a hundred names, at 200,000
pairs and at half of them."""
import random
import sys


def write(folder, name, programmes, residents, length):
    chosen = random.Random(1)
    lists = [chosen.sample(range(residents), length) for _ in range(programmes)]
    ranked = [[] for _ in range(residents)]
    for p, ranking in enumerate(lists):
        for r in ranking:
            ranked[r].append(p)
    for ranking in ranked:
        chosen.shuffle(ranking)
    with open(f"{folder}/{name}", "w") as file:
        file.writelines(f"Q,p{p},{residents // programmes}\n" for p in range(programmes))
        file.writelines("P,p%d,%s\n" % (p, ",".join(f"r{r}" for r in ranking)) for p, ranking in enumerate(lists))
        file.writelines("R,r%d%s\n" % (r, "".join(f",p{p}" for p in ranking)) for r, ranking in enumerate(ranked))


folder = sys.argv[1]
write(folder, "10x20000", 10, 20000, 20000)
write(folder, "10x10000", 10, 10000, 10000)
write(folder, "2000x100", 2000, 20000, 100)
write(folder, "1000x100", 1000, 10000, 100)

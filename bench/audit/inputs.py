"""Makes dockets of 20,000 residents and 200,000 acceptable pairs in the folder given: of ten long rankings and of two
thousand short ones, each with a settled sheet and the journal that gives it, and again with a sheet of nobody matched."""
import sys

RESIDENTS = 20000


def exchange(quotas, programmes, residents):
    """Offers, takes, answers and hears in rounds: the events to the close, and what each resident holds."""
    events = []
    sent, out = [0] * len(programmes), [0] * len(programmes)
    held = [None] * len(residents)
    ranks = [{p: place for place, p in enumerate(ranking)} for ranking in residents]
    while True:
        boxes = {}
        for p, ranking in enumerate(programmes):
            while out[p] < quotas[p] and sent[p] < len(ranking):
                r = ranking[sent[p]]
                events.append(f"E,offer,p{p},r{r}\n")
                boxes.setdefault(r, []).append(p)
                sent[p] += 1
                out[p] += 1
        if not boxes:
            events.append("E,close\n")
            return events, held
        answers = [[] for _ in programmes]
        for r, box in boxes.items():
            for p in box:
                events.append(f"E,take,r{r},p{p}\n")
                before = held[r]
                if before is not None and ranks[r][p] > ranks[r][before]:
                    given = [(p, "decline")]
                else:
                    given = [(p, "hold")] + ([(before, "release")] if before is not None else [])
                    held[r] = p
                for programme, kind in given:
                    events.append(f"E,answer,r{r},p{programme},{kind}\n")
                    answers[programme].append((r, kind))
        for p, box in enumerate(answers):
            for r, kind in box:
                events.append(f"E,hear,p{p},r{r},{kind}\n")
                out[p] -= kind != "hold"


def write_sheet(file, quotas, held):
    file.writelines(f"U,r{r}\n" if p is None else f"M,r{r},p{p}\n" for r, p in enumerate(held))
    filled = [0] * len(quotas)
    for p in held:
        if p is not None:
            filled[p] += 1
    file.writelines(f"F,p{p},{filled[p]},{quota}\n" for p, quota in enumerate(quotas))


def write(folder, name, quotas, programmes, residents):
    docket = [f"Q,p{p},{quota}\n" for p, quota in enumerate(quotas)]
    docket += ["P,p%d,%s\n" % (p, ",".join(f"r{r}" for r in ranking)) for p, ranking in enumerate(programmes)]
    docket += ["R,r%d,%s\n" % (r, ",".join(f"p{p}" for p in ranking)) for r, ranking in enumerate(residents)]
    events, held = exchange(quotas, programmes, residents)
    with open(f"{folder}/{name}-settled", "w") as file:
        file.writelines(docket)
        file.write("C,full\n")
        file.writelines(events)
        write_sheet(file, quotas, held)
    with open(f"{folder}/{name}-empty", "w") as file:
        file.writelines(docket)
        write_sheet(file, quotas, [None] * len(residents))


folder = sys.argv[1]
# Ten programmes rank everybody, and each resident likes each later one better: nearly every offer is held and released.
write(folder, "long", [10000] * 10, [list(range(RESIDENTS))] * 10, [list(range(9, -1, -1))] * RESIDENTS)
# Two thousand programmes rank a hundred residents each, who like each later offer better.
rankings = [[] for _ in range(2000)]
for r in range(RESIDENTS):
    for step in range(10):
        rankings[(r + 200 * step) % 2000].append(r)
liked = [sorted(((r + 200 * step) % 2000 for step in range(10)), reverse=True) for r in range(RESIDENTS)]
write(folder, "short", [100] * 2000, rankings, liked)

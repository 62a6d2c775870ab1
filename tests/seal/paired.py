"""Receipts side by side: pairs that agree, pairs of which an office sealed a lie, and what cannot be compared; folders of receipts;
and small dockets with any placement. All of it is derived from what docs/sealed.md says, by `derivation`."""
from __future__ import annotations

import itertools
import random
from typing import Callable, Dict, Iterator, List, NamedTuple, Optional, Sequence, Tuple

import derivation
from derivation import Content, Market, Places, Roots, Sealed, Shown, Wrong, asked_of, text_of

Member = Tuple[str, str]


class Two(NamedTuple):
    """Two receipts in the order in which they are given, the roots that were published, and what is said of them, if it is known by hand."""

    what: str
    receipts: Tuple[bytes, bytes]
    roots: Roots
    said: str = ""


def roots_of(sealed: Sealed) -> Roots:
    return {word: (len(sealed.names), tree.root) for word, tree in sealed.trees().items()}


def two_of(what: str, sealed: Sealed, resident: str, programme: str, said: str = "") -> Two:
    receipts = dict(zip(sealed.names, sealed.receipts()))
    return Two(what, (receipts["R", resident], receipts["P", programme]), roots_of(sealed), said)


# Of examples/nrmp.csv by hand: what each resident's receipt says together with those of Mercy, City and General.
FULL = "and all its 2 places went to residents whom it lists before, the last of them 2nd"
EXAMPLE = {
    "Arthur": ["Arthur does not list Mercy", "Arthur is matched with City", "Arthur does not list General"],
    "Sunny": ["Mercy does not list Sunny", f"City lists Sunny 3rd, {FULL}", "Sunny does not list General"],
    "Joseph": ["Joseph is matched with a programme that it lists before Mercy", f"City lists Joseph 5th, {FULL}", "Joseph is matched with General"],
    "Latha": ["Mercy does not list Latha", f"City lists Latha 4th, {FULL}", "Latha is matched with General"],
    "Darrius": ["Darrius is matched with a programme that it lists before Mercy", "Darrius is matched with City",
                "Darrius is matched with a programme that it lists before General"]}
# A market of withdrawn members, of a programme of one place and of one without places; and by hand what is said.
SMALL = Market({"one": 1, "none": 0, "gone": 1}, {"one": ["kim", "lee"], "none": ["lee", "kim"], "gone": ["kim", "away"]},
               {"kim": ["one", "gone"], "lee": ["none", "one"], "away": ["gone", "one"]}, [("P", "gone"), ("R", "away")])
SMALL_SAID = {("lee", "none"): "none lists lee 1st, and it has no places", ("lee", "one"): "one lists lee 2nd, and its place went to the resident whom it lists 1st",
              ("kim", "gone"): "gone is withdrawn", ("away", "gone"): "away is withdrawn", ("away", "one"): "away is withdrawn",
              ("lee", "gone"): "lee does not list gone", ("kim", "one"): "kim is matched with one"}

# What an office may seal of the example, and what its two receipts say then: a resident and a programme, whose receipt is each good
# by itself; of some members the part, and what stands there in place of something; and the sentence.
Change = Tuple[str, str, str, str]
LIES: Dict[str, Tuple[str, str, List[Change], str]] = {
    "withdrawn, and neither is": ("Sunny", "City", [("result", "Sunny", "full,3,2,2", "withdrawn,,,")], "Sunny's receipt says withdrawn, and neither is withdrawn"),
    "the programme is withdrawn": ("Sunny", "Mercy", [("lists", "Mercy", "Joseph\n", "Joseph\nW,P,Mercy\n")], "Sunny's receipt says unranked, and Mercy is withdrawn"),
    "the programme of a better is withdrawn": ("Joseph", "Mercy", [("lists", "Mercy", "Joseph\n", "Joseph\nW,P,Mercy\n")],
                                               "Joseph's receipt says better, and Mercy is withdrawn"),
    "who is withdrawn is there": ("Arthur", "City", [("lists", "Arthur", "City\n", "City\nW,R,Arthur\n"), ("result", "Arthur", "M,Arthur,City", "U,Arthur"),
                                                     ("result", "Arthur", "matched", "withdrawn")], "Arthur's receipt says withdrawn, and City has Arthur"),
    "unranked, and it is listed": ("Sunny", "City", [("result", "Sunny", "full,3,2,2", "unranked,,,")], "Sunny's receipt says unranked, and City lists Sunny 3rd"),
    "unranked, and it is listed last": ("Latha", "Mercy", [("lists", "Mercy", "Joseph\n", "Joseph,Latha\n")], "Latha's receipt says unranked, and Mercy lists Latha 3rd"),
    "full, and it is not listed": ("Sunny", "Mercy", [("result", "Sunny", "unranked,,,", "full,3,2,2")], "Sunny's receipt says full, and Mercy does not list Sunny"),
    "better, and it is not listed": ("Joseph", "Mercy", [("lists", "Mercy", "Darrius,Joseph", "Darrius")], "Joseph's receipt says better, and Mercy does not list Joseph"),
    "better, and the list is missing": ("Joseph", "Mercy", [("lists", "Mercy", "P,Mercy,Darrius,Joseph\n", "")],
                                        "Joseph's receipt says better, and Mercy does not list Joseph"),
    "matched, and it is not listed": ("Latha", "General", [("lists", "General", ",Latha", ""), ("result", "General", "F,General,2,2", "F,General,1,2"),
                                                           ("result", "General", "M,Latha,General\n", "")], "Latha's receipt says matched, and General does not list Latha"),
    "matched, and it is not there": ("Joseph", "General", [("result", "General", "F,General,2,2", "F,General,1,2"), ("result", "General", "M,Joseph,General\n", "")],
                                     "Joseph's receipt says matched, and General does not have Joseph"),
    "full, and it is there": ("Sunny", "City", [("result", "City", "M,Darrius,", "M,Sunny,")], "Sunny's receipt says full, and City has Sunny"),
    "better, and it is there": ("Darrius", "Mercy", [("result", "Mercy", "F,Mercy,0,2\n", "F,Mercy,1,2\nM,Darrius,Mercy\n")],
                                "Darrius's receipt says better, and Mercy has Darrius"),
    "a later rank": ("Sunny", "City", [("result", "Sunny", "full,3,2,2", "full,11,2,2")], "Sunny's receipt says that City lists it 11th, and City lists it 3rd"),
    "an earlier rank": ("Latha", "City", [("result", "Latha", "full,4,2,2", "full,3,2,2")], "Latha's receipt says that City lists it 3rd, and City lists it 4th"),
    "fewer places": ("Sunny", "City", [("result", "Sunny", "full,3,2,2", "full,3,2,1")], "Sunny's receipt says that City has 1 places, and City has 2"),
    "no places": ("Sunny", "City", [("result", "Sunny", "full,3,2,2", "full,3,,0")], "Sunny's receipt says that City has 0 places, and City has 2"),
    "more places": ("Sunny", "City", [("lists", "City", "Q,City,2", "Q,City,3"), ("result", "City", "F,City,2,2", "F,City,2,3")],
                    "Sunny's receipt says that City has 2 places, and City has 3"),
    "a place is free": ("Sunny", "City", [("result", "City", "F,City,2,2", "F,City,1,2"), ("result", "City", "M,Darrius,City\n", "")],
                        "Sunny's receipt says that all places of City went to others, and 1 of 2 are filled"),
    "no place is taken": ("Sunny", "City", [("result", "City", "F,City,2,2", "F,City,0,2"), ("result", "City", "M,Darrius,City\n", ""), ("result", "City", "M,Arthur,City\n", "")],
                          "Sunny's receipt says that all places of City went to others, and 0 of 2 are filled"),
    "one who is later is there": ("Sunny", "City", [("result", "City", "M,Darrius,", "M,Joseph,")],
                                  "Sunny's receipt says that the last of them is 2nd with City, and it is 5th"),
    "a later last": ("Joseph", "City", [("result", "Joseph", "full,5,2,2", "full,5,4,2")], "Joseph's receipt says that the last of them is 4th with City, and it is 2nd"),
    "who does not list it is there": ("Arthur", "Mercy", [("lists", "Mercy", "Joseph\n", "Joseph,Arthur\n"), ("result", "Mercy", "F,Mercy,0,2\n", "F,Mercy,1,2\nM,Arthur,Mercy\n")],
                                      "Mercy has Arthur, and Arthur does not list Mercy"),
}


def lied(market: Market, places: Places, changes: Sequence[Change]) -> Sealed:
    """The match, sealed with other texts of some members."""
    sealed = Sealed(market, places)
    at = {name: index for index, (_, name) in enumerate(sealed.names)}
    for word, name, old, new in changes:
        texts = sealed.lists if word == "lists" else sealed.results
        assert texts is not None and texts[at[name]].count(old.encode()) == 1, (name, old)
        texts[at[name]] = texts[at[name]].replace(old.encode(), new.encode())
    return sealed


def by_hand(market: Market, places: Places) -> Iterator[Two]:
    """Pairs of which the sentence is known by hand: honest ones, and those of lies. The market is the example's."""
    for resident, told in EXAMPLE.items():
        for programme, said in zip(market.quotas, told):
            yield two_of("the example", Sealed(market, places), resident, programme, f"{resident} and {programme} agree: {said}.\n")
    small = Sealed(SMALL, derivation.match(SMALL))
    for (resident, programme), said in SMALL_SAID.items():
        yield two_of("the small market", small, resident, programme, f"{resident} and {programme} agree: {said}.\n")
    for what, (resident, programme, changes, said) in LIES.items():
        yield two_of(f"the sealed lie: {what}", lied(market, places, changes), resident, programme, f"{resident} and {programme} differ: {said}.\n")
        honest = Sealed(market, places)
        yield two_of(f"without the lie: {what}", honest, resident, programme,
                     f"{resident} and {programme} agree: {EXAMPLE[resident][list(market.quotas).index(programme)]}.\n")


def not_compared(market: Market, places: Places) -> Iterator[Two]:
    """Receipts of the example that are no pair, or of which one is no good receipt of this match; and marks that change nothing."""
    sealed, before, other = Sealed(market, places), Sealed(market), Sealed(market, places, bytes(32))
    of, roots = dict(zip([name for _, name in sealed.names], sealed.receipts())), roots_of(sealed)
    sunny, city, joseph, mercy = of["Sunny"], of["City"], of["Joseph"], of["Mercy"]
    lists_alone = dict(zip([name for _, name in sealed.names], before.receipts()))
    theirs = dict(zip([name for _, name in sealed.names], other.receipts()))
    bent, cut = swapped(sunny, b"City,Mercy", b"Mercy,City"), city[:-1]
    given = {"two residents": (sunny, joseph), "two programmes": (mercy, city), "one resident twice": (sunny, sunny), "one programme twice": (city, city),
             "files exchanged": (city, sunny), "an altered resident": (bent, city), "an altered programme": (sunny, swapped(city, b"Darrius,Arthur", b"Arthur,Darrius")),
             "both are altered": (bent, cut), "a programme that is cut": (sunny, cut), "the programme's file first, and the other altered": (city, bent),
             "two residents, of whom the second is altered": (joseph, bent), "two altered residents": (bent, swapped(joseph, b"City,General", b"General,City")),
             "a resident of before the match": (lists_alone["Sunny"], city), "a programme of before the match": (sunny, lists_alone["City"]),
             "a resident of another secret": (theirs["Sunny"], city), "a programme of another secret": (sunny, theirs["City"]),
             "nothing first": (b"", city), "nothing second": (sunny, b""), "a file that is too long": (sunny, city + b"a" * 8_000_000),
             "lines ended by CR and LF": (sunny.replace(b"\n", b"\r\n"), city), "a mark before it": (sunny, b"\xef\xbb\xbf" + city)}
    for what, receipts in given.items():
        yield Two(what, receipts, roots)
    yield Two("roots in each other's place", (sunny, city), {"lists": roots["result"], "result": roots["lists"]})
    yield Two("roots of another secret", (sunny, city), roots_of(other))
    for word, count in (("lists", 7), ("result", 9), ("lists", 0)):
        others = {**roots, word: (count, roots[word][1])}
        for what, receipts in (("a pair", (sunny, city)), ("an altered resident", (bent, city)), ("files exchanged", (city, sunny)), ("one of before the match", (lists_alone["Sunny"], city))):
            yield Two(f"{what}, and {count} members by the root of the {word}", receipts, others)


def swapped(text: bytes, old: bytes, new: bytes) -> bytes:
    assert text.count(old) >= 1, old
    return text.replace(old, new, 1)


# -- any lies

def crowded(luck: random.Random) -> Market:
    """Few places and long lists, so that many programmes are full."""
    programmes, residents = ["north", "east", "City"][:luck.randint(2, 3)], ["kim", "lee", "R", "x_1", "M", "ada", "bo"][:luck.randint(4, 7)]
    lists = {name: luck.sample(residents, luck.randint(2, len(residents))) for name in programmes}
    wishes = {name: luck.sample(programmes, luck.randint(1, len(programmes))) for name in residents}
    return Market({name: luck.choice((0, 1, 2, 2, 3)) for name in programmes}, lists, wishes)


def any_reason(luck: random.Random, reason: Sequence[str]) -> List[str]:
    """A reason in place of this one, that a receipt may have, or nearly."""
    if reason[0] == "full" and luck.random() < 0.7:
        at = luck.randint(1, 3)
        return [*reason[:at], str(max(0, int(reason[at] or 0) + luck.choice((-1, 1, 2, 10)))), *reason[at + 1:]]
    answer = luck.choice(["withdrawn", "unranked", "matched", "better", "full", "full", "full"])
    if answer != "full":
        return [answer, "", "", ""]
    return [answer, str(luck.randint(1, 6)), *luck.choice([["", "0"], [str(luck.randint(1, 4)), str(luck.randint(1, 3))]])]


def any_lie(luck: random.Random, sealed: Sealed, at: int) -> None:
    """Tells the member at this place something else than is so: a reason, a list, a withdrawal, places or residents; mostly what may be."""
    assert sealed.results is not None
    side, name = sealed.names[at]
    rows = [line.split(",") for line in (sealed.lists[at] + sealed.results[at]).decode().splitlines()]
    split = len(sealed.lists[at].splitlines())
    lists, result = rows[:split], rows[split:]
    if side == "R" and len(result) > 1:
        row = luck.randrange(1, len(result))
        result[row][3:] = any_reason(luck, result[row][3:])
    elif side == "P":
        listed: List[str] = next((row[2:] for row in lists if row[0] == "P"), [])
        quota, way = int(lists[0][2]), luck.randrange(4)
        if way == 0:
            quota = luck.randint(0, 3)
        elif way == 1 and listed:
            listed = luck.sample(listed, luck.randint(1, len(listed)))
        elif way == 2 and ["W", "P", name] not in lists:
            lists.append(["W", "P", name])
        those = [] if ["W", "P", name] in lists else luck.sample(listed, luck.randint(0, min(quota, len(listed))))
        if way and ["W", "P", name] not in lists and luck.random() < 0.5:
            those = [row[1] for row in result[1:] if row[1] in listed][:quota]
        lists = [["Q", name, str(quota)]] + [["P", name, *listed]] * bool(listed) + [row for row in lists if row[0] in ("W", "N")]
        result = [["F", name, str(len(those)), str(quota)], *(["M", resident, name] for resident in those)]
    sealed.lists[at], sealed.results[at] = text_of(lists), text_of(result)


def any_two(luck: random.Random, market: Market) -> Two:
    """The receipts of a resident and a programme, mostly of one on the resident's list; often with lies of the two, and a few altered or in the other order."""
    resident, programme = luck.choice(list(market.resident_lists)), luck.choice(list(market.quotas))
    if market.resident_lists[resident] and luck.random() < 0.9:
        programme = luck.choice(market.resident_lists[resident])
    sealed = Sealed(market, derivation.match(market))
    at = [sealed.names.index(("R", resident)), sealed.names.index(("P", programme))]
    for _ in range(luck.choice((0, 1, 1, 2))):
        any_lie(luck, sealed, luck.choice(at))
    receipts, roots = sealed.receipts(), roots_of(sealed)
    given = [receipts[index] for index in at]
    way = luck.randrange(30)
    if way == 0:
        given.reverse()
    elif way < 3:
        data = bytearray(given[way - 1])
        data[luck.randrange(len(data))] = luck.choice(b"0123abc,\nPR")
        given[way - 1] = bytes(data)
    elif way == 3:
        roots = {**roots, "result": (luck.randint(0, 9), roots["result"][1])}
    elif way == 4:
        given[1] = receipts[-1]
    return Two(f"{resident} and {programme} of {market}, {given}", (given[0], given[1]), roots)


def any_pairs(luck: random.Random, market_of: Callable[[random.Random], Market], count: int) -> List[Two]:
    """Pairs of random dockets, honest and with lies."""
    markets = (market_of(luck) for _ in itertools.count())
    return [any_two(luck, market) for market in itertools.islice((market for market in markets if market.quotas and market.resident_lists), count)]


# -- folders

class Folder(NamedTuple):
    """A folder of files, the roots that were published, and what is written and told of it, if it is known by hand."""

    what: str
    files: Dict[str, bytes]
    roots: Roots
    said: Optional[Tuple[int, str, str]] = None


def files_of(sealed: Sealed, luck: Optional[random.Random] = None) -> Dict[str, bytes]:
    """All receipts, under names in any order."""
    names = [f"{number:03}.txt" for number in range(len(sealed.names))]
    if luck:
        names = luck.sample(names + ["B.csv", "a", "é", "Z z.txt", "0"], len(names))
    return dict(zip(names, sealed.receipts()))


def folders(market: Market, places: Places) -> Iterator[Folder]:
    """Folders of the example: complete, not so, at fault, and of lies."""
    sealed = Sealed(market, places)
    whole, roots = files_of(sealed), roots_of(sealed)
    city, sunny = "001.txt", "004.txt"
    stable = "8 of 8 members are there, and 12 pairs were compared: 0 differ.\nThe placement is stable.\n"
    yield Folder("the example", whole, roots, (0, stable, ""))
    yield Folder("nothing", {}, roots, (4, "0 of 8 members are there, and 0 pairs were compared: 0 differ.\n", ""))
    yield Folder("without Sunny", {name: receipt for name, receipt in whole.items() if name != sunny}, roots,
                 (4, "7 of 8 members are there, and 10 pairs were compared: 0 differ.\n", ""))
    yield Folder("without City", {name: receipt for name, receipt in whole.items() if name != city}, roots,
                 (4, "7 of 8 members are there, and 7 pairs were compared: 0 differ.\n", ""))
    yield Folder("one receipt", {sunny: whole[sunny]}, roots, (4, "1 of 8 members are there, and 0 pairs were compared: 0 differ.\n", ""))
    yield Folder("Sunny twice", {**whole, "zoe.txt": whole[sunny]}, roots, (3, "", "residency: {}/zoe.txt: row 3: a member whose receipt is in a file before this one\n"))
    yield Folder("Sunny twice, first under a name before", {**whole, "-.txt": whole[sunny]}, roots,
                 (3, "", "residency: {}/004.txt: row 3: a member whose receipt is in a file before this one\n"))
    yield Folder("Sunny twice, in two forms", {**whole, "zoe.txt": whole[sunny].replace(b"\n", b"\r\n")}, roots,
                 (3, "", "residency: {}/zoe.txt: row 3: a member whose receipt is in a file before this one\n"))
    yield Folder("an altered receipt", {**whole, city: swapped(whole[city], b"Darrius,Arthur", b"Arthur,Darrius")}, roots,
                 (3, "", "residency: {}/001.txt: row 3: what follows doesn't open the published root\n"))
    yield Folder("two altered receipts", {**whole, sunny: whole[sunny][:-1], city: whole[city] + b"\n"}, roots)
    yield Folder("an altered receipt under a name of bytes above ASCII", {**{f"é{name}": receipt for name, receipt in whole.items()}, "z.txt": whole[sunny][:-1]}, roots)
    yield Folder("files whose names begin with a dot", {**whole, ".notes": b"Notes\n", ".000.txt": whole[sunny], "..x": b""}, roots, (0, stable, ""))
    yield Folder("a receipt under a name that begins with a dot", {name if name != sunny else ".004.txt": receipt for name, receipt in whole.items()}, roots,
                 (4, "7 of 8 members are there, and 10 pairs were compared: 0 differ.\n", ""))
    yield Folder("a file that is no receipt", {**whole, "notes.txt": b"Notes\n"}, roots)
    yield Folder("a receipt of another secret", {**whole, "007.txt": Sealed(market, places, bytes(32)).receipts()[7]}, roots)
    yield Folder("receipts of before the match", files_of(Sealed(market)), roots)
    yield Folder("the small market's receipts", files_of(Sealed(SMALL, derivation.match(SMALL))), roots)
    yield Folder("another number of members of the lists", whole, {**roots, "lists": (9, roots["lists"][1])})
    yield Folder("another number of members of the result", whole, {**roots, "result": (9, roots["result"][1])})
    yield Folder("the roots exchanged", whole, {"lists": roots["result"], "result": roots["lists"]})
    twins = Sealed(market, places)
    twins.lists[5], twins.results = twins.lists[4], [*(twins.results or [])[:5], (twins.results or [])[4], *(twins.results or [])[6:]]
    swapped_name = [receipt.replace(b"receipt,2,R,Joseph", b"receipt,2,R,Sunny") for receipt in twins.receipts()]
    yield Folder("two members of one name", dict(zip(whole, swapped_name)), roots_of(twins))
    small = Sealed(SMALL, derivation.match(SMALL))
    yield Folder("the small market", files_of(small), roots_of(small), (0, "6 of 6 members are there, and 6 pairs were compared: 0 differ.\nThe placement is stable.\n", ""))
    one = Sealed(Market({}, {}, {"kim": []}), {"kim": None})
    yield Folder("a single member", files_of(one), roots_of(one), (0, "1 of 1 members are there, and 0 pairs were compared: 0 differ.\nThe placement is stable.\n", ""))
    for what, (_, _, changes, _) in LIES.items():
        lie = lied(market, places, changes)
        yield Folder(f"the sealed lie: {what}", files_of(lie), roots_of(lie))
    yield Folder("two lies", *both(lied(market, places, [*LIES["a later rank"][2], *LIES["who does not list it is there"][2]])),
                 (4, "Sunny and City differ: Sunny's receipt says that City lists it 11th, and City lists it 3rd.\nArthur and Mercy differ: Mercy has Arthur, and Arthur does "
                  "not list Mercy.\n8 of 8 members are there, and 13 pairs were compared: 2 differ.\n", ""))


def many(market: Market) -> Iterator[Folder]:
    """Folders of many files with long names: complete, and without the last."""
    sealed = Sealed(market, derivation.match(market))
    files, roots = files_of(sealed), roots_of(sealed)
    files = {f"{side}-{name}-{'long' * 50}-{number}": files[number] for number, (side, name) in zip(files, sealed.names)}
    count = sum(map(len, market.resident_lists.values()))
    yield Folder(f"{len(files)} files", files, roots, (0, f"{len(files)} of {len(files)} members are there, and {count} pairs were compared: 0 differ.\nThe placement is stable.\n", ""))
    last = sorted(files)[-1]
    yield Folder(f"{len(files) - 1} files", {name: receipt for name, receipt in files.items() if name != last}, roots)
    yield Folder("another match in the last of many files", {**files, last: Sealed(market, derivation.match(market), bytes(32)).receipts()[-1]}, roots)


def both(sealed: Sealed) -> Tuple[Dict[str, bytes], Roots]:
    return files_of(sealed), roots_of(sealed)


def any_folders(luck: random.Random, market_of: Callable[[random.Random], Market], count: int) -> Iterator[Folder]:
    """Folders of random dockets: complete or not, with lies or without."""
    for number in range(count):
        market = market_of(luck)
        sealed = Sealed(market, derivation.match(market))
        for _ in range(luck.choice((0, 0, 1, 3)) if sealed.names else 0):
            any_lie(luck, sealed, luck.randrange(len(sealed.names)))
        files = files_of(sealed, luck)
        for name in luck.sample(sorted(files), min(len(files), luck.choice((0, 0, 1, 3)))):
            del files[name]
        yield Folder(f"folder {number} of {market}", files, roots_of(sealed))


# -- any placement of a small docket

Reason = Tuple[object, ...]


class Small(NamedTuple):
    """A docket, where each resident is told to be, and whom each programme is told to have."""

    market: Market
    places: Places
    residents: Dict[str, List[str]]

    def gone(self, side: str, name: str) -> bool:
        return (side, name) in self.market.gone

    def listed(self, programme: str) -> List[str]:
        return self.market.programme_lists.get(programme, [])


def any_small(luck: random.Random) -> Small:
    """Two to four residents, one to three programmes, and a placement: mostly one that each receipt allows, and often the match."""
    p_names, r_names = ["p", "q", "s"][:luck.randint(1, 3)], ["a", "b", "c", "d"][:luck.randint(2, 4)]
    lists = {name: luck.sample(r_names, luck.randint(0, len(r_names))) for name in p_names if luck.random() < 0.95}
    wishes = {name: luck.sample(p_names, luck.randint(0, len(p_names))) for name in r_names}
    gone = [member for member in [("P", name) for name in p_names] + [("R", name) for name in r_names] if luck.random() < 0.07]
    market = Market({name: luck.choice((0, 1, 1, 2, 3)) for name in p_names}, lists, wishes, gone)
    way, places = luck.randrange(10), derivation.match(market)
    if way > 2:
        places = dict.fromkeys(r_names)
        for name in luck.sample(r_names, len(r_names)):
            fits = [programme for programme in wishes[name] if name in lists.get(programme, []) and list(places.values()).count(programme) < market.quotas[programme]
                    and not {("R", name), ("P", programme)} & set(gone)]
            places[name] = luck.choice([*fits, None]) if way < 9 else luck.choice([*p_names, None])
    residents: Dict[str, List[str]] = {programme: [name for name, where in places.items() if where == programme] for programme in p_names}
    if way == 2:
        one = luck.choice(p_names)
        residents[one] = luck.sample(r_names, luck.randint(0, len(r_names)))
    return Small(market, places, residents)


def is_stable(small: Small) -> bool:
    """Whether residents and programmes are told one placement, everybody who is placed is listed, in a place that is there, and no two
    who are apart would both rather be together."""
    market, places, residents = small.market, small.places, small.residents
    if any((places[name] == programme) != (name in those) for programme, those in residents.items() for name in places):
        return False
    for name, where in places.items():
        if where is not None and (where not in market.resident_lists[name] or name not in small.listed(where) or small.gone("R", name) or small.gone("P", where)):
            return False
    return all(len(those) <= market.quotas[programme] for programme, those in residents.items()) and not any(
        is_blocking(small, name, quota) for name in places for quota in market.quotas)


def is_blocking(small: Small, name: str, programme: str) -> bool:
    wishes, ranked, where = small.market.resident_lists[name], small.listed(programme), small.places[name]
    if programme not in wishes or name not in ranked or where == programme or small.gone("R", name) or small.gone("P", programme):
        return False
    if where is not None and wishes.index(where) < wishes.index(programme):
        return False
    return len(small.residents[programme]) < small.market.quotas[programme] or any(ranked.index(name) < ranked.index(other) for other in small.residents[programme])


def each_reason() -> Dict[Tuple[bool, str], List[Reason]]:
    """By whether a resident is withdrawn, and where a choice stands to its own programme, each reason of small numbers that the check of one receipt allows."""
    roots: Roots = {"lists": (1, ""), "result": (1, "")}
    found: Dict[Tuple[bool, str], List[Reason]] = {}
    numbers: List[List[object]] = [["", 0, 1, 2, 3, 4, 5]] * 3
    for answer, rank, last, quota in itertools.product(["withdrawn", "unranked", "matched", "better", "full", "blocking"], *numbers):
        for is_gone, own in ((False, "two"), (True, None)):
            rows: List[List[object]] = [["receipt", 2, "R", "r"], ["lists", 1, ""], ["opens", "lists", 0], ["R", "r", "one", "two", "three"]]
            rows += [["W", "R", "r"]] if is_gone else []
            rows += [["result", 1, ""], ["opens", "result", 0], ["M", "r", own] if own else ["U", "r"]]
            rows += [["r", one, choice, answer, rank, last, quota] for choice, one in enumerate(("one", "two", "three"), 1)]
            told = Content(text_of(rows).decode(), roots)
            for choice, stand in enumerate(("before", "at", "after")):
                try:
                    derivation.want_answer(told, choice, 0)
                except Wrong:
                    continue
                reasons = found.setdefault((is_gone, stand), [])
                reasons += [] if (answer, rank, last, quota) in reasons else [(answer, rank, last, quota)]
    return found


def stand_of(small: Small, name: str, choice: int) -> str:
    own, wishes = small.places[name], small.market.resident_lists[name]
    place = wishes.index(own) if own in wishes else len(wishes)
    return "before" if choice < place else "at" if choice == place else "after"


def shown_of(small: Small, side: str, name: str) -> Shown:
    """What a member's receipt shows, but for the reasons."""
    market = small.market
    if side == "P":
        return Shown(side, name, small.gone(side, name), market.quotas[name], small.listed(name), True, None, small.residents[name], [])
    return Shown(side, name, small.gone(side, name), 0, market.resident_lists[name], True, small.places[name], [], [])


# What is asked of a pair, by its name, without which a placement that is not stable would be taken. The quota follows from the rest.
CLAUSES = ("unlisted", "withdrawn", "unranked", "matched", "rank", "filled", "last")


def agreeing(small: Small, reasons: Dict[Tuple[bool, str], List[Reason]], without: str = "") -> Optional[Dict[Tuple[str, str], Reason]]:
    """For each choice of each resident a reason that the check of one receipt allows, with which each pair agrees; None where one has no such
    reason. A clause can be left out."""
    found = {}
    programmes = {quota: shown_of(small, "P", quota) for quota in small.market.quotas}
    for name, wishes in small.market.resident_lists.items():
        resident = shown_of(small, "R", name)
        for one, programme in programmes.items():
            if one not in wishes:
                if name in programme.filled and without != "unlisted":
                    return None
                continue
            choice = wishes.index(one)
            allowed = reasons[resident.is_gone, stand_of(small, name, choice)]
            fitting = (reason for reason in allowed if fits(resident._replace(reasons=[(name, one, choice + 1, *reason)]), programme, without))
            found[name, one] = next(fitting, ())
            if not found[name, one]:
                return None
    return found


def allowed(small: Small, reasons: Dict[Tuple[bool, str], List[Reason]]) -> Dict[Tuple[str, str], Reason]:
    """For each choice of each resident a reason that the check of one receipt allows."""
    return {(name, programme): reasons[small.gone("R", name), stand_of(small, name, choice)][0]
            for name, wishes in small.market.resident_lists.items() for choice, programme in enumerate(wishes)}


def fits(resident: Shown, programme: Shown, without: str) -> bool:
    return all(said == so for what, said, so in asked_of(resident, programme)[0] if what != without)


def receipts_of(small: Small, reasons: Dict[Tuple[str, str], Reason]) -> Sealed:
    """What an office seals that tells this placement with these reasons."""
    sealed = Sealed(small.market, dict.fromkeys(small.market.resident_lists))
    results = []
    for side, name in sealed.names:
        if side == "P":
            those = small.residents[name]
            results.append(text_of([("F", name, len(those), small.market.quotas[name]), *(("M", resident, name) for resident in those)]))
            continue
        where, wishes = small.places[name], small.market.resident_lists[name]
        rows: List[Sequence[object]] = [("U", name) if where is None else ("M", name, where)]
        rows += [(name, programme, choice, *reasons[name, programme]) for choice, programme in enumerate(wishes, 1)]
        results.append(text_of(rows))
    sealed.results = results
    return sealed

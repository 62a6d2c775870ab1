"""Dockets, their matches, hash trees and receipts, derived from what docs/sealed.md says: nothing of the package or of a program."""
from __future__ import annotations

import csv
import hashlib
import os
import re
import unicodedata
from typing import Callable, Dict, List, Mapping, NamedTuple, Optional, Sequence, Tuple

# The secret with which the page's roots of examples/nrmp.csv are made.
SECRET = bytes(31) + b"\1"


class Market(NamedTuple):
    """A docket as it was written; members are in the order of their records, and lists are as written."""

    quotas: Dict[str, int]
    programme_lists: Dict[str, List[str]]
    resident_lists: Dict[str, List[str]]
    gone: Sequence[Tuple[str, str]] = ()
    # The real name and the ID of members, as their lists are sealed with them; an ID may be empty.
    names: Mapping[Tuple[str, str], Tuple[str, str]] = {}

    def members(self) -> List[Tuple[str, str]]:
        return [("P", name) for name in self.quotas] + [("R", name) for name in self.resident_lists]

    def docket(self, zeros: str = "") -> bytes:
        """The docket's bytes; `zeros` stand before each number."""
        rows = [["V", "2"]] * bool(self.gone) + [["Q", name, zeros + str(quota)] for name, quota in self.quotas.items()]
        rows += [["P", name, *listed] for name, listed in self.programme_lists.items()]
        rows += [["R", name, *listed] for name, listed in self.resident_lists.items()]
        return text_of(rows + [["W", *member] for member in self.gone])


Places = Dict[str, Optional[str]]


def text_of(rows: Sequence[Sequence[object]]) -> bytes:
    return "".join(",".join(map(str, row)) + "\n" for row in rows).encode("utf-8", "surrogateescape")


def quoted(field: str) -> str:
    """A field as CSV has it: in quotes where it has a comma, a quote or the end of a line."""
    return '"' + field.replace('"', '""') + '"' if any(sign in field for sign in ',"\r\n') else field


def match(market: Market) -> Places:
    """Programmes propose: each offers its places down its list, and a resident keeps the best offer so far."""
    gone = set(market.gone)
    rank = {name: {one: place for place, one in enumerate(listed)} for name, listed in market.resident_lists.items()}
    held: Places = dict.fromkeys(market.resident_lists)
    free = dict(market.quotas)
    wishes = {name: iter(listed) for name, listed in market.programme_lists.items()}
    waiting = [name for name in market.quotas if ("P", name) not in gone]
    while waiting:
        programme = waiting.pop()
        while free[programme]:
            resident = next(wishes.get(programme, iter(())), None)
            if resident is None:
                break
            if ("R", resident) in gone or programme not in rank[resident]:
                continue
            now = held[resident]
            if now is None or rank[resident][programme] < rank[resident][now]:
                held[resident] = programme
                free[programme] -= 1
                if now is not None:
                    free[now] += 1
                    waiting.append(now)
    return held


def sheet(market: Market, places: Places) -> bytes:
    rows: List[Sequence[object]] = [("U", resident) if where is None else ("M", resident, where) for resident, where in places.items()]
    filled = list(places.values())
    counts = {name: 0 for name in market.quotas}
    for where in filled:
        if where is not None:
            counts[where] += 1
    return text_of(rows + [("F", name, counts[name], quota) for name, quota in market.quotas.items()])


class Sealed:
    """A docket's leaves, and those of its result; everything of a receipt follows from them."""

    def __init__(self, market: Market, places: Optional[Places] = None, secret: bytes = SECRET) -> None:
        self.market, self.secret = market, secret
        self.names = market.members()
        self.gone = set(market.gone)
        self.lists = [self.list_text(*name) for name in self.names]
        self.results: Optional[List[bytes]] = None
        if places is not None:
            told = Results(market, places)
            self.results = [told.text(*name) for name in self.names]

    def list_text(self, side: str, name: str) -> bytes:
        market = self.market
        rows: List[Sequence[object]] = [("R", name, *market.resident_lists[name])] if side == "R" else [("Q", name, market.quotas[name])]
        if side == "P" and name in market.programme_lists:
            rows.append(("P", name, *market.programme_lists[name]))
        real = market.names.get((side, name))
        last: List[Sequence[object]] = [("N", *map(quoted, filter(None, real)))] if real else []
        return text_of(rows + [("W", side, name)] * ((side, name) in self.gone) + last)

    def trees(self) -> Dict[str, Tree]:
        leaves = {"lists": self.lists} if self.results is None else {"lists": self.lists, "result": self.results}
        return {word: Tree(texts, self.secret, word[0].upper()) for word, texts in leaves.items()}

    def roots(self) -> bytes:
        """The rows of roots that are published."""
        return text_of([(word, len(self.names), tree.root) for word, tree in self.trees().items()])

    def receipts(self) -> List[bytes]:
        """Each member's receipt, in order."""
        trees = self.trees()
        made = []
        for index, member in enumerate(self.names):
            text = text_of([("receipt", 2, *member)])
            for word, tree in trees.items():
                text += text_of([(word, len(self.names), tree.root), ("opens", word, index, tree.salt(index).hex(), *tree.path(index))])
                text += tree.texts[index]
            made.append(text)
        return made

    def bundle(self) -> bytes:
        """All receipts, each after a row of its member."""
        return b"".join(text_of([("member", *member)]) + receipt for member, receipt in zip(self.names, self.receipts()))


class Results:
    """What the result tree says of each member, by the lists as written and where each resident is."""

    def __init__(self, market: Market, places: Places) -> None:
        self.market, self.places, self.gone = market, places, set(market.gone)
        self.rank = {name: {resident: place for place, resident in enumerate(listed, 1)} for name, listed in market.programme_lists.items()}
        self.residents: Dict[str, List[str]] = {name: [] for name in market.quotas}
        for resident, where in places.items():
            if where is not None:
                self.residents[where].append(resident)
        self.last = {name: max((self.rank[name][resident] for resident in those), default=0) for name, those in self.residents.items()}

    def text(self, side: str, name: str) -> bytes:
        if side == "P":
            those = self.residents[name]
            rows: List[Sequence[object]] = [("F", name, len(those), self.market.quotas[name])]
            return text_of(rows + [("M", resident, name) for resident in those])
        where = self.places[name]
        rows = [("U", name) if where is None else ("M", name, where)]
        return text_of(rows + [self.reason(name, choice, programme) for choice, programme in enumerate(self.market.resident_lists[name], 1)])

    def reason(self, name: str, choice: int, programme: str) -> Sequence[object]:
        listed, where = self.market.resident_lists[name], self.places[name]
        row = [name, programme, choice]
        if ("R", name) in self.gone or ("P", programme) in self.gone:
            return (*row, "withdrawn", "", "", "")
        if name not in self.rank.get(programme, {}):
            return (*row, "unranked", "", "", "")
        if where == programme:
            return (*row, "matched", "", "", "")
        if where is not None and listed.index(where) < choice:
            return (*row, "better", "", "", "")
        return (*row, "full", self.rank[programme][name], self.last[programme] or "", self.market.quotas[programme])


class Shown(NamedTuple):
    """What a member's receipt shows, and the words in which each checker says so."""

    side: str
    name: str
    is_gone: bool
    quota: int
    listed: Sequence[str]
    has_result: bool
    where: Optional[str]
    filled: Sequence[str]
    reasons: Sequence[Sequence[object]]
    # The real name and the ID; no name where none was sealed.
    real: Tuple[str, str] = ("", "")

    def who(self) -> List[str]:
        """Who it is, if the real name was sealed."""
        name, one = self.real
        return [f"{name}{f' ({one})' if one else ''} is {self.name} in the lists."] if name else []

    def by_program(self) -> str:
        places = f"quota of {self.quota}, and your " if self.side == "P" else ""
        lines = [*self.who(), f"{self.name}: the sealed lists have your {places}list: {', '.join(self.listed) or 'nobody'}."]
        lines += ["You are withdrawn."] * self.is_gone
        if self.has_result and self.side == "P":
            lines.append(f"The sealed result has {len(self.filled)} of your places filled: {', '.join(self.filled) or 'nobody'}.")
        elif self.has_result:
            lines.append(f"The sealed result has you {f'matched with {self.where}' if self.where else 'unmatched'}.")
        says = {"matched": "you are matched there", "withdrawn": "you or the programme is withdrawn", "unranked": "it did not rank you",
                "better": "you have a programme that you ranked higher"}
        for _, programme, _, answer, rank, last, quota in self.reasons:
            ends: Dict[object, str] = {0: ", and it has no places", 1: f". Its place went to a resident it ranked higher, {ordinal(last)}"}
            more = f". Its {quota} places went to residents it ranked higher, the last of them {ordinal(last)}"
            lines.append(f"{programme}: {says[str(answer)] if answer != 'full' else f'it ranked you {ordinal(rank)}{ends.get(quota, more)}'}.")
        return "".join(f"{line}\n" for line in lines)

    def by_page(self) -> List[object]:
        """The class of the answer, and each of its elements with its text; a list has its items."""
        who = "a resident" if self.side == "R" else f"a programme of {self.quota} place{'s' * (self.quota != 1)}"
        told: List[object] = ["good", "H3 This receipt holds", *(f"P {line}" for line in self.who()), f"P It is that of {self.name}, {who}{', who is withdrawn' * self.is_gone}.",
                              "H3 Your list, as it was sealed", self.listed or "P It ranks nobody.",
                              "P Compare it with the list that you handed in. If it is another one, tell the office."]
        if self.has_result:
            told += ["H3 Your result", f"P {self.result_on_page()}"]
        if self.reasons:
            told += ["H3 Why, choice by choice", [f"{reason[1]}: {self.reason_on_page(reason)}" for reason in self.reasons]]
        return told

    def result_on_page(self) -> str:
        if self.side == "P":
            names = f": {', '.join(self.filled)}" if self.filled else ""
            return f"{len(self.filled)} of your {self.quota} places {'is' if len(self.filled) == 1 else 'are'} filled{names}."
        if self.where is None:
            return "You are not matched."
        return f"You are matched with {self.where}, your {self.mine()} choice of {len(self.listed)}."

    def mine(self) -> str:
        return ordinal(self.listed.index(self.where or "") + 1)

    def reason_on_page(self, reason: Sequence[object]) -> str:
        _, _, choice, answer, rank, last, quota = reason
        if answer == "full" and quota == 0:
            return "it had no places."
        if answer == "full":
            rest = f"one place went to the resident it ranked {ordinal(last)}" if quota == 1 else (
                f"{quota} places went to residents it ranked higher, the last of them {ordinal(last)}")
            return f"it ranked you {ordinal(rank)}. Its {rest}."
        if answer == "better":
            return f"this was your {ordinal(choice)} choice, and you have your {self.mine()}, {self.where}."
        return {"matched": "you are matched here.", "unranked": "it did not rank you.",
                "withdrawn": f"{'you' if self.is_gone else 'it'} withdrew from the match."}[str(answer)]


def shown_in(market: Market, places: Optional[Places], side: str, name: str) -> Shown:
    """What the receipt of a member shows, by the docket."""
    is_programme, told = side == "P", Results(market, places or {})
    listed = market.programme_lists.get(name, []) if is_programme else market.resident_lists[name]
    reasons = [] if is_programme or places is None else [told.reason(name, choice, programme) for choice, programme in enumerate(listed, 1)]
    return Shown(side, name, (side, name) in set(market.gone), market.quotas[name] if is_programme else 0, listed, places is not None,
                 None if is_programme else (places or {}).get(name), told.residents[name] if is_programme else [], reasons, market.names.get((side, name), ("", "")))


def ordinal(number: object) -> str:
    """1st, 2nd, 3rd, 4th, and 11th to 13th."""
    digits = str(number)
    is_teen = digits[-2:-1] == "1"
    return digits + ("th" if is_teen else {"1": "st", "2": "nd", "3": "rd"}.get(digits[-1:], "th"))


class Tree:
    """A hash tree, level by level: neighbours are paired, and an odd last one goes up as it is."""

    def __init__(self, texts: Sequence[bytes], secret: bytes, tag: str) -> None:
        self.texts, self.secret, self.tag = texts, secret, tag.encode()
        self.levels = [[sha(b"\0", bytes.fromhex(self.salt(index).hex()), text) for index, text in enumerate(texts)]]
        while len(self.levels[-1]) > 1:
            below = self.levels[-1]
            pairs = [below[at:at + 2] for at in range(0, len(below), 2)]
            self.levels.append([pair[0] if len(pair) == 1 else sha(b"\1", *pair) for pair in pairs])
        self.root = counted(len(texts), self.levels[-1][0] if texts else sha())

    def salt(self, index: int) -> bytes:
        return sha(self.secret, self.tag, index.to_bytes(8, "big"))

    def path(self, index: int) -> List[str]:
        found = []
        for level in self.levels[:-1]:
            sibling = index ^ 1
            found += [level[sibling].hex()] if sibling < len(level) else []
            index //= 2
        return found


def sha(*parts: bytes) -> bytes:
    return hashlib.sha256(b"".join(parts)).digest()


def counted(count: int, top: bytes) -> str:
    """What is published of a tree with this many leaves."""
    return sha(b"\2", count.to_bytes(8, "big"), top).hex()


NAME = "[A-Za-z0-9_.-]"
ANSWERS = {"unmatched": ("withdrawn", "unranked", "full"), "before": ("withdrawn", "unranked", "full"), "at": ("matched",),
           "after": ("withdrawn", "unranked", "better")}


class Wrong(Exception):
    """The row of a receipt with which something is wrong, from 1, and what it is."""

    def __init__(self, row: int, cause: str) -> None:
        super().__init__(row, cause)
        self.row, self.cause = row, cause


def want(holds: object, row: int, cause: str) -> None:
    if not holds:
        raise Wrong(row, cause)


def is_number(text: str) -> bool:
    return re.fullmatch("0|[1-9][0-9]{0,8}", text) is not None


def is_digest(text: str) -> bool:
    return re.fullmatch("[0-9a-f]{64}", text) is not None


def siblings(index: int, count: int) -> List[str]:
    """On which side the sibling is, level by level, where there is one."""
    sides = []
    while count > 1:
        sides += ["left"] if index % 2 else ["right"] if index + 1 < count else []
        index, count = index // 2, (count + 1) // 2
    return sides


AGAIN = ": this file was changed by a program; ask for it again or paste the text"
# What the program and the Python check tell of a row, by its cause: the rows come first, then the openings, the list and the result.
TELLS = {"header": "not the first row of a receipt" + AGAIN, "root row": "not the row of a root" + AGAIN, "opening row": "not the row of an opening" + AGAIN,
         "age": "a receipt of an earlier form, whose root has no number of members: ask for a new one", "cut": "the receipt is cut off here: ask for it again",
         "long": "longer than any receipt" + AGAIN,
         "root": "another root than the published one", "count": "another count than that of the lists", "place": "another place than in the lists",
         "opening": "what follows doesn't open the published root", "list": "not a row of this member's list", "result": "not a row of this member's result",
         "unasked": "a result, and no root of a result was given", "name": "not a name of a docket", "real name": "not a real name that can be shown", "twice": "a name that stands twice",
         "not listed": "a name that isn't on the list", "numbers": "the numbers don't fit the rows", "gone": "a result of a member who is withdrawn",
         "reason": "a reason that can't stand here", "full": "full, but not of residents who are ranked before",
         # What is asked where receipts are compared.
         "members": "another number of members than the published one", "resident": "not a resident's receipt", "programme": "not a programme's receipt",
         "again": "a member whose receipt is in a file before this one"}
# How the page tells it.
SAYS = {"header": "this is not the first row of a receipt.", "root row": "this is not the row of a root.", "opening row": "this is not the row of an opening.",
        "age": "this is a receipt of an earlier form, whose root has no number of members.",
        "cut": "here rows are missing: the receipt is cut off, or it is one of before the match.", "long": "the file is longer than any receipt.",
        "root": "its root is not the one that the office published.", "count": "it has another number of members than the row of the lists.",
        "place": "it has another place than in the lists.",
        "opening": "what follows is not what the office sealed: it does not lead to the published root.",
        "list": "this is not a row of this member\u2019s list.", "result": "this is not a row of this member\u2019s result.",
        "unasked": "here is a result, and this page is from before the match. Take the page of after the match.",
        "name": "here is a name that no docket has.", "real name": "here is a real name that cannot be shown as it is.", "twice": "here is a name that stands twice.", "not listed": "here is a name that is not on the list.",
        "numbers": "the numbers do not fit the rows.", "gone": "here is a result of a member who is withdrawn.",
        "reason": "here is a reason that cannot stand here.", "full": "a programme is called full, and not of residents whom it ranked higher.",
        "members": "it has another number of members than the office published."}
# With one of these the file is not as it was given; with another the receipt is wrong.
CHANGED = ("header", "root row", "opening row", "age", "cut", "long")


def by_words(wrong: Wrong) -> Tuple[int, str]:
    """The status with which a check ends, and what it tells."""
    return 3 if wrong.cause in CHANGED else 4, f"row {wrong.row}: {TELLS[wrong.cause]}\n"


def by_page(wrong: Wrong) -> List[str]:
    """The class of the page's answer, and its elements."""
    kind, head, end = ("changed", "This file is not as it was given",
                       "Ask the office for it again, or paste the text that it gave you. A program that opens such a file may change it.") \
        if wrong.cause in CHANGED else ("bad", "This receipt is wrong", "Look whether it is yours, and of this match. If it is, tell the office, and whoever audits the match.")
    return [kind, f"H3 {head}", f"P Row {wrong.row}: {SAYS[wrong.cause]}", f"P {end}"]


class Content:
    """What the rows of a receipt tell, whatever they are; and the receipt that tells it, printed again."""

    def __init__(self, text: str, roots: Dict[str, Tuple[int, str]]) -> None:
        self.rows = rows = [line.split(",") for line in text.split("\n")[:-1]]
        self.text, self.roots = text, roots
        self.side, self.name, self.count, self.index = "P" if self.cell(0, 2) == "P" else "R", self.cell(0, 3), self.cell(1, 1), self.cell(2, 2)
        self.has_list = self.side == "P" and self.cell(4, 0) == "P"
        at = 3 + self.has_list
        self.listed = rows[at][2:] if at < len(rows) and (self.side == "R" or self.has_list) else []
        self.quota, self.is_gone = self.cell(3, 2), self.cell(at + 1, 0) == "W"
        last = at + 1 + self.is_gone
        self.real = ",".join(rows[last][1:]) if self.cell(last, 0) == "N" and len(rows[last]) > 1 else None
        self.end = end = last + (self.real is not None)
        self.paths = {"lists": rows[2][3:] if len(rows) > 2 else [], "result": rows[end + 1][3:] if len(rows) > end + 1 else []}
        self.own = self.cell(end + 2, 2) if self.cell(end + 2, 0) == "M" else None
        self.after = rows[end + 3:]

    def cell(self, row: int, place: int) -> str:
        return (self.rows[row] + [""] * 9)[place] if row < len(self.rows) else ""

    def leaf(self, word: str) -> List[List[str]]:
        """The rows that were sealed of the member."""
        side, name = self.side, self.name
        if word == "lists":
            lists = [["Q", name, self.quota]] + [["P", name, *self.listed]] * self.has_list if side == "P" else [["R", name, *self.listed]]
            return lists + [["W", side, name]] * self.is_gone + ([] if self.real is None else [["N", self.real]])
        if side == "P":
            return [["F", name, str(len(self.after)), self.quota], *(["M", member, name] for member in self.members())]
        answers = (self.after + [[]] * len(self.listed))[:len(self.listed)]
        return [["U", name] if self.own is None else ["M", name, self.own],
                *([name, programme, str(choice), *row[3:]] for choice, (programme, row) in enumerate(zip(self.listed, answers), 1))]

    def members(self) -> List[str]:
        return [row[1] if len(row) > 1 else "" for row in self.after]

    def printed(self) -> str:
        rows = [["receipt", "2", self.side, self.name]]
        for word, (_, root) in self.roots.items():
            rows += [[word, self.count, root], ["opens", word, self.index, *self.paths[word]], *self.leaf(word)]
        return "".join(",".join(row) + "\n" for row in rows)


def shown_by(receipt: bytes, roots: Dict[str, Tuple[int, str]]) -> Shown:
    """What a receipt shows with which nothing is wrong, by its rows."""
    told = Content(plain(receipt), roots)
    is_programme, has_result = told.side == "P", "result" in roots
    reasons = [] if is_programme or not has_result else [
        (told.name, programme, choice, row[3], *(int(digits) if digits else "" for digits in row[4:]))
        for choice, (programme, row) in enumerate(zip(told.listed, told.after), 1)]
    return Shown(told.side, told.name, told.is_gone, int(told.quota) if is_programme else 0, told.listed, has_result, told.own,
                 told.members() if is_programme and has_result else [], reasons, ("", "") if told.real is None else real_of(told, 0))


def plain(receipt: bytes) -> str:
    """The text as it was printed: without a mark before it, and without the carriage returns at the ends of lines."""
    return (receipt[3:] if receipt.startswith(b"\xef\xbb\xbf") else receipt).replace(b"\r\n", b"\n").decode("latin-1")


def want_same(told: Content) -> None:
    """The first row that is not as the receipt with this content has it."""
    text, other, end = told.text, told.printed(), told.end
    if text == other:
        return
    same = next((at for at, (one, two) in enumerate(zip(text, other)) if one != two), min(len(text), len(other)))
    row = text[:same].count("\n")
    if row >= len(told.rows):
        raise Wrong(row + 1, "cut")
    where = "lists" if row == 1 else "result"
    if row == 0:
        raise Wrong(1, "age" if told.rows[0][:2] == ["receipt", "1"] else "header")
    if row == 1 or row == end and "result" in told.roots and told.cell(end, 0) == "result":
        digits = told.cell(row, 2)
        raise Wrong(row + 1, "root row" if len(digits) != 64 else "root" if digits != told.roots[where][1] else
                    "root row" if told.cell(row, 1) == told.count else "count")
    if row == 2:
        raise Wrong(3, "opening row")
    if row < end or "result" not in told.roots:
        raise Wrong(row + 1, "unasked" if row >= end and told.cell(row, 0) == "result" else "list")
    raise Wrong(row + 1, "list" if row == end else "result" if row > end + 1 else "opening row" if told.cell(row, 2) == told.index else "place")


def want_open(told: Content, word: str, row: int) -> None:
    """The opening climbs to the published root."""
    digests, index, count = told.paths[word], int(told.index), int(told.count)
    want(digests and all(map(is_digest, digests)), row, "opening row")
    sides, path = siblings(index, count) if index < count else None, [bytes.fromhex(digest) for digest in digests[1:]]
    want(sides is not None and len(sides) == len(path), row, "opening")
    top = sha(b"\0", bytes.fromhex(digests[0]), "".join(",".join(line) + "\n" for line in told.leaf(word)).encode("latin-1"))
    for side, sibling in zip(sides or [], path):
        top = sha(b"\1", sibling, top) if side == "left" else sha(b"\1", top, sibling)
    want(counted(count, top) == told.roots[word][1], row, "opening")


def want_names(names: Sequence[str], row: Callable[[int], int], listed: Optional[Sequence[str]] = None) -> None:
    seen = set()
    for place, name in enumerate(names):
        want(re.fullmatch(f"{NAME}{{1,32}}", name), row(place), "name")
        want(listed is None or name in listed, row(place), "not listed")
        want(name not in seen, row(place), "twice")
        seen.add(name)


# Marks of direction, which are no control characters by their category.
MARKS = ("ARABIC LETTER MARK", "LEFT-TO-RIGHT MARK", "RIGHT-TO-LEFT MARK")
TURNING = ("LRE", "RLE", "PDF", "LRO", "RLO", "LRI", "RLI", "FSI", "PDI")


def is_seen(char: str) -> bool:
    """Whether a real name can have the character: it is no control character, ends no line and turns no text."""
    return unicodedata.category(char) not in ("Cc", "Zl", "Zp") and unicodedata.bidirectional(char) not in TURNING and unicodedata.name(char, "") not in MARKS


def real_of(told: Content, row: int) -> Tuple[str, str]:
    """The real name and the ID, as CSV reads the row; they are written exactly as CSV writes them."""
    try:
        fields: List[str] = next(csv.reader([told.real or ""], strict=True), [])
        texts = [field.encode("latin-1").decode("utf-8") for field in fields]
    except (csv.Error, UnicodeDecodeError):
        raise Wrong(row, "real name") from None
    want(",".join(map(quoted, fields)) == told.real and len(texts) in (1, 2) and all(texts) and all(map(is_seen, "".join(texts))), row, "real name")
    return texts[0], "".join(texts[1:])


def want_answer(told: Content, choice: int, row: int) -> None:
    """The answer to a choice, from 0, can stand there."""
    place = None if told.own is None else told.listed.index(told.own)
    answer, *numbers = (told.after[choice] if choice < len(told.after) else [])[3:] or [""]
    stand = "before" if place is None or choice < place else "at" if choice == place else "after"
    is_bare = numbers == ["", "", ""]
    rank, last, quota = [int(number) if is_number(number) else None for number in numbers] if len(numbers) == 3 else [None] * 3
    is_full = rank is not None and quota is not None and (1 <= quota <= last < rank if last is not None else numbers[1] == "" and quota == 0 and rank >= 1)
    right = is_bare and answer == "withdrawn" if told.is_gone else answer == "full" and is_full and stand == "before" or answer in ANSWERS[stand] and is_bare and answer != "full"
    want(right, row, "full" if answer == "full" else "reason")


def fault_of(receipt: bytes, roots: Dict[str, Tuple[int, str]]) -> Optional[Wrong]:
    """The first thing that is wrong with a receipt, or None."""
    if len(receipt) > 8_000_000:
        return Wrong(1, "long")
    told = Content(plain(receipt), roots)
    try:
        want_same(told)
        want(is_number(told.count), 2, "root row")
        want(is_number(told.index), 3, "opening row")
        want_open(told, "lists", 3)
        if "result" in roots:
            want_open(told, "result", told.end + 2)
        want_names([told.name], lambda _: 1)
        want(told.side == "R" or is_number(told.quota), 4, "numbers")
        want_names(told.listed, lambda _: 4 + told.has_list)
        if told.real is not None:
            real_of(told, told.end)
        if "result" in roots:
            want_result(told, told.end + 3)
    except Wrong as wrong:
        return wrong
    return None


def want_result(told: Content, first: int) -> None:
    """The result fits the list; its first row has this number."""
    if told.side == "P":
        want(len(told.after) <= int(told.quota), first, "numbers")
        want(not told.is_gone or not told.after, first, "gone")
        want_names(told.members(), lambda place: first + 1 + place, told.listed)
    else:
        want(told.own is None or not told.is_gone, first, "gone")
        want(told.own is None or told.own in told.listed, first, "not listed")
        for choice in range(len(told.listed)):
            want_answer(told, choice, first + 1 + choice)


# What is said of two receipts together, by its name.
SENTENCES = {
    "agree.unlisted": "{resident} does not list {programme}", "agree.gone": "{name} is withdrawn", "agree.unranked": "{programme} does not list {resident}",
    "agree.matched": "{resident} is matched with {programme}", "agree.better": "{resident} is matched with a programme that it lists before {programme}",
    "agree.no-places": "{programme} lists {resident} {rank}, and it has no places",
    "agree.one-place": "{programme} lists {resident} {rank}, and its place went to the resident whom it lists {last}",
    "agree.places": "{programme} lists {resident} {rank}, and all its {quota} places went to residents whom it lists before, the last of them {last}",
    "differ.unlisted": "{programme} has {resident}, and {resident} does not list {programme}",
    "differ.gone": "{resident}'s receipt says {answer}, and {name} is withdrawn", "differ.not-gone": "{resident}'s receipt says {answer}, and neither is withdrawn",
    "differ.listed": "{resident}'s receipt says {answer}, and {programme} lists {resident} {rank}",
    "differ.unranked": "{resident}'s receipt says {answer}, and {programme} does not list {resident}",
    "differ.there": "{resident}'s receipt says {answer}, and {programme} has {resident}",
    "differ.not-there": "{resident}'s receipt says {answer}, and {programme} does not have {resident}",
    "differ.rank": "{resident}'s receipt says that {programme} lists it {rank}, and {programme} lists it {here}",
    "differ.quota": "{resident}'s receipt says that {programme} has {quota} places, and {programme} has {places}",
    "differ.filled": "{resident}'s receipt says that all places of {programme} went to others, and {filled} of {places} are filled",
    "differ.last": "{resident}'s receipt says that the last of them is {last} with {programme}, and it is {here}"}
# The values of a sentence that are ranks.
RANKS = ("rank", "last", "here")


class Pair(NamedTuple):
    """What the receipts of a resident and a programme say together: a sentence by its name, with its values."""

    what: str
    values: Dict[str, object]

    @property
    def agree(self) -> bool:
        return self.what.startswith("agree")

    def sentence(self) -> str:
        values = {key: ordinal(value) if key in RANKS else value for key, value in self.values.items()}
        return "{resident} and {programme} {0}: {1}.".format(self.what.partition(".")[0], SENTENCES[self.what].format(**values), **values)


# A thing that is asked of a pair: its name, what the resident's receipt says, and what is so by both.
Asked = Tuple[str, object, object]


def asked_of(resident: Shown, programme: Shown) -> Tuple[List[Asked], Dict[str, object]]:
    """What is asked of a pair, in order, where the programme is on the resident's list; and the values of what is said."""
    place = {name: rank for rank, name in enumerate(programme.listed, 1)}
    gone, rank = [side.name for side in (resident, programme) if side.is_gone], place.get(resident.name)
    answer, said_rank, said_last, said_quota = next(reason[3:] for reason in resident.reasons if reason[1] == programme.name)
    asked: List[Asked] = [("withdrawn", answer == "withdrawn", bool(gone)), ("unranked", answer == "unranked", rank is None and not gone),
                          ("matched", answer == "matched", resident.name in programme.filled)]
    last, filled = max((place[name] for name in programme.filled if name in place), default=""), len(programme.filled)
    if answer == "full":
        asked += [("rank", said_rank, rank), ("quota", said_quota, programme.quota), ("filled", programme.quota, filled), ("last", said_last, last)]
    return asked, {"name": "".join(gone[:1]), "answer": answer, "rank": said_rank, "last": said_last, "quota": said_quota, "places": programme.quota, "filled": filled}


# By what is asked, and where it is of yes and no, by what is so: the name of what is said where the two differ.
DIFFERENT: Dict[Tuple[str, object], str] = {
    ("withdrawn", True): "gone", ("withdrawn", False): "not-gone", ("unranked", True): "unranked", ("unranked", False): "listed",
    ("matched", True): "there", ("matched", False): "not-there"}


def pair_of(resident: Shown, programme: Shown) -> Pair:
    """What the receipts of a resident and a programme say together, both of which hold."""
    names: Dict[str, object] = {"resident": resident.name, "programme": programme.name}
    if programme.name not in resident.listed:
        return Pair("differ.unlisted" if resident.name in programme.filled else "agree.unlisted", names)
    asked, values = asked_of(resident, programme)
    names.update(values)
    for what, said, so in asked:
        if said != so:
            name = DIFFERENT.get((what, so), what)
            here = list(programme.listed).index(resident.name) + 1 if name == "listed" else so
            return Pair(f"differ.{name}", {**names, "here": here, **({"rank": here} if name == "listed" else {})})
    answer = str(values["answer"])
    if answer == "full":
        answer = {0: "no-places", 1: "one-place"}.get(programme.quota, "places")
    return Pair(f"agree.{'gone' if answer == 'withdrawn' else answer}", names)


Roots = Dict[str, Tuple[int, str]]


def compared_fault(receipt: bytes, roots: Roots, side: str = "") -> Optional[Wrong]:
    """Why a receipt can't be compared: it isn't good, or has another number of members than was published, or is of the other side."""
    wrong = fault_of(receipt, roots)
    if wrong:
        return wrong
    told = Content(plain(receipt), roots)
    rows = [row for row, word in ((2, "lists"), (told.end + 1, "result")) if int(told.count) != roots[word][0]]
    return Wrong(rows[0], "members") if rows else Wrong(1, {"R": "resident", "P": "programme"}[side]) if side not in ("", told.side) else None


def pair_said(files: Sequence[Tuple[str, bytes]], roots: Roots) -> Tuple[int, str]:
    """The status and what is told of two files with their names, of which the first should be a resident's receipt, and the second a programme's."""
    for (path, receipt), side in zip(files, "RP"):
        wrong = compared_fault(receipt, roots, side)
        if wrong:
            return 3, f"{path}: {by_words(wrong)[1]}"
    pair = pair_of(*(shown_by(receipt, roots) for _, receipt in files))
    return (0 if pair.agree else 4), f"{pair.sentence()}\n"


def pair_by_page(given: Sequence[bytes], roots: Roots) -> List[object]:
    """Each part of the page's answer to two receipts."""
    faults = [compared_fault(receipt, roots) for receipt in given]
    parts = [by_page(wrong) if wrong else shown_by(receipt, roots).by_page() for wrong, receipt in zip(faults, given)]
    return [together_by_page(given, faults, roots), "H3 The first receipt", parts[0], "H3 The second receipt", parts[1]]


def together_by_page(given: Sequence[bytes], faults: Sequence[Optional[Wrong]], roots: Roots) -> List[str]:
    none = "H3 The two receipts cannot be compared"
    for wrong in filter(None, faults):
        return [by_page(wrong)[0], none, "P Only receipts that hold can be compared. One that does not is shown below."]
    told = {shown.side: shown for shown in (shown_by(receipt, roots) for receipt in given)}
    if len(told) < 2:
        return ["bad", none, f"P Both are receipts of {'residents' if 'R' in told else 'programmes'}. Choose one of a resident and one of a programme."]
    pair = pair_of(told["R"], told["P"])
    if pair.agree:
        return ["good", "H3 The two receipts agree", f"P {pair.sentence()}", "P This shows that these two fit together, and nothing of other members."]
    return ["bad", "H3 The two receipts differ", f"P {pair.sentence()}",
            "P The office sealed both, and they cannot both be right. Keep both files, and tell whoever audits the match."]


def folder_said(files: Mapping[str, bytes], folder: str, roots: Roots) -> Tuple[int, str, str]:
    """The status, and what is written and told of a folder with these files: all receipts are compared with each other. A file whose name
    begins with a dot is passed over."""
    told: Dict[Tuple[str, str], Shown] = {}
    for name in sorted((file for file in files if not file.startswith(".")), key=os.fsencode):
        wrong = compared_fault(files[name], roots)
        if wrong is None:
            shown = shown_by(files[name], roots)
            wrong = Wrong(3, "again") if (shown.side, shown.name) in told else None
            told[shown.side, shown.name] = shown
        if wrong:
            return 3, "", f"residency: {folder}/{name}: {by_words(wrong)[1]}"
    pairs = [pair_of(resident, told["P", programme]) for (side, _), resident in told.items() if side == "R" for programme in resident.listed if ("P", programme) in told]
    pairs += [pair_of(told["R", name_filled], programme) for (side, name), programme in told.items() if side == "P"
              for name_filled in programme.filled if ("R", name_filled) in told and name not in told["R", name_filled].listed]
    lines, count = [pair.sentence() for pair in pairs if not pair.agree], roots["lists"][0]
    is_stable = len(told) == count and not lines
    lines = [*lines, f"{len(told)} of {count} members are there, and {len(pairs)} pairs were compared: {len(lines)} differ.", *["The placement is stable."] * is_stable]
    return (0 if is_stable else 4), "".join(f"{line}\n" for line in lines), ""


def read(docket: bytes) -> Market:
    """A docket that has no faults, of plain rows."""
    rows = [line.split(",") for line in docket.decode("ascii").splitlines()]
    of: Callable[[str], List[List[str]]] = lambda kind: [row for row in rows if row[0] == kind]
    return Market({row[1]: int(row[2]) for row in of("Q")}, {row[1]: row[2:] for row in of("P")},
                  {row[1]: row[2:] for row in of("R")}, [(row[1], row[2]) for row in of("W")])

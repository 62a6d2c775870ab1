"""Checks a receipt of a sealed match against the roots that the office published, from docs/sealed.md alone: --lists ROOT
[--result ROOT] RECEIPT. A ROOT is the 64 digits that were published, or the number of members, a comma and the digits. It says
what the receipt shows; else the first row that is wrong and why, with status 3 where the file is not as it was given, or 4.
--lists ROOT --result ROOT RESIDENT PROGRAMME compares the receipts of a resident and of a programme. It says whether they agree,
with status 4 where they differ; else the first row that is wrong of the first file that can't be compared, with status 3."""
import os, sys
# Nothing is run that lies beside this file or in the current folder.
sys.path[:] = [folder for folder in sys.path if folder not in ("", os.getcwd(), os.path.dirname(os.path.realpath(__file__)))]
import argparse, hashlib, re

AGAIN = ": this file was changed by a program; ask for it again or paste the text"
CHANGED = {"header": f"not the first row of a receipt{AGAIN}", "root row": f"not the row of a root{AGAIN}",
           "opening row": f"not the row of an opening{AGAIN}", "missing": "the receipt is cut off here: ask for it again", "long": f"longer than any receipt{AGAIN}",
           "age": "a receipt of an earlier form, whose root has no number of members: ask for a new one"}
WRONG = {"root": "another root than the published one", "count": "another count than that of the lists",
         "place": "another place than in the lists", "opening": "what follows doesn't open the published root",
         "list": "not a row of this member's list", "result": "not a row of this member's result",
         "unasked": "a result, and no root of a result was given", "name": "not a name of a docket", "real name": "not a real name that can be shown", "twice": "a name that stands twice",
         "not listed": "a name that isn't on the list", "numbers": "the numbers don't fit the rows",
         "gone": "a result of a member who is withdrawn", "reason": "a reason that can't stand here",
         "full": "full, but not of residents who are ranked before", "members": "another number of members than the published one",
         "R": "not a resident's receipt", "P": "not a programme's receipt"}
SAYS = {"matched": "you are matched there", "withdrawn": "you or the programme is withdrawn", "unranked": "it did not rank you",
        "better": "you have a programme that you ranked higher"}
sha = lambda *parts: hashlib.sha256(b"".join(parts)).digest()
printed = lambda those: "".join(",".join(row) + "\n" for row in those)
number = lambda digits: int(digits) if re.fullmatch("0|[1-9][0-9]{0,8}", digits) else None
names = lambda those: ", ".join(those) or "nobody"
ranked = lambda digits: digits + ("th" if digits[-2:-1] == "1" else {"1": "st", "2": "nd", "3": "rd"}.get(digits[-1:], "th"))

class Wrong(Exception):
    """The row of a receipt, from 0, that is the first at fault, and why."""

def need(holds, row, cause):
    """Ends at this row unless the test holds."""
    if not holds:
        raise Wrong(row, cause)

def named(those, rows_of, on=None):
    """Each is a name of a docket, stands on the list, if it has to, and stands once."""
    seen = set()
    for place, name in enumerate(those):
        need(re.fullmatch("[A-Za-z0-9_.-]{1,32}", name), rows_of(place), "name")
        need(on is None or name in on, rows_of(place), "not listed")
        need(name not in seen, rows_of(place), "twice")
        seen.add(name)

class Receipt:
    """What the rows of a file tell, whatever they are."""

    def __init__(self, data):
        self.is_long = len(data) > 8000000
        self.text = (data[3:] if data[:3] == b"\xef\xbb\xbf" else data).replace(b"\r\n", b"\n").decode("latin-1")
        self.rows = [line.split(",") for line in self.text.split("\n")[:-1]]
        rest, cell = self.rest, self.cell
        self.side, self.name, self.count, self.index = "P" if cell(0, 2) == "P" else "R", cell(0, 3), cell(1, 1), cell(2, 2)
        has_list, self.quota = self.side == "P" and cell(4, 0) == "P", cell(3, 2)
        self.own_row = 3 + has_list
        self.listed, self.is_gone = rest(self.own_row, 2) if self.side == "R" or has_list else [], cell(self.own_row + 1, 0) == "W"
        self.named_at = self.own_row + 1 + self.is_gone
        self.real = rest(self.named_at, 1) if cell(self.named_at, 0) == "N" else []
        self.end = end = self.named_at + bool(self.real)
        self.own, after = cell(end + 2, 2) if cell(end + 2, 0) == "M" else None, self.rows[end + 3:]
        self.members, self.answers = [(row + ["", ""])[1] for row in after], [rest(end + 3 + place, 3) for place in range(len(self.listed))]
        # What was sealed of a member with this content.
        name, quota = self.name, self.quota
        self.sealed = ([["Q", name, quota]] + [["P", name, *self.listed]] * has_list if self.side == "P" else [["R", name, *self.listed]]) + [
            ["W", self.side, name]] * self.is_gone + [["N", *self.real]] * bool(self.real)
        self.placed = [["F", name, str(len(after)), quota]] + [["M", member, name] for member in self.members] if self.side == "P" else [
            ["U", name] if self.own is None else ["M", name, self.own]] + [
            [name, programme, str(place + 1), *self.answers[place]] for place, programme in enumerate(self.listed)]

    def rest(self, row, first):
        return self.rows[row][first:] if row < len(self.rows) else []

    def cell(self, row, place):
        return (self.rest(row, place) or [""])[0]

    def whole(self, lists, result):
        """The text of the receipt with this content."""
        rows = [["receipt", "2", self.side, self.name], ["lists", self.count, lists], ["opens", "lists", self.index, *self.rest(2, 3)], *self.sealed]
        return printed(rows + [["result", self.count, result], ["opens", "result", self.index, *self.rest(self.end + 1, 3)], *self.placed] * (result is not None))

    def unlike(self, row, lists, result):
        """Why the first row that is not as the receipt with this content has it is none of a receipt."""
        cell, end = self.cell, self.end
        if row >= len(self.rows):
            return "missing"
        if row == 0:
            return "age" if self.rows[0][:2] == ["receipt", "1"] else "header"
        if row == 1 or row == end and result and cell(row, 0) == "result":
            digits = cell(row, 2)
            return "root row" if len(digits) != 64 else "root" if digits != (lists if row == 1 else result) else "root row" if cell(row, 1) == self.count else "count"
        if row == 2 or row == end + 1 and result:
            return "opening row" if row == 2 or cell(row, 2) == self.index else "place"
        return "result" if row > end and result else "unasked" if row >= end and not result and cell(row, 0) == "result" else "list"

    def opens(self, text, root, row):
        """The leaf with this text leads to the root, from the member's number and with the number of members, by the opening of this row."""
        digests = self.rest(row, 3)
        need(digests and all(re.fullmatch("[0-9a-f]{64}", digest) for digest in digests), row, "opening row")
        salt, *path = map(bytes.fromhex, digests)
        place, width, now = number(self.index), number(self.count), sha(b"\0", salt, text.encode("latin-1"))
        need(place < width, row, "opening")
        while width > 1:
            if place % 2 or place + 1 < width:
                need(path, row, "opening")
                now = sha(b"\1", path.pop(0), now) if place % 2 else sha(b"\1", now, path.pop(0))
            place, width = place // 2, (width + 1) // 2
        need(not path and sha(b"\2", number(self.count).to_bytes(8, "big"), now).hex() == root, row, "opening")

    def real_name(self):
        """Who it is: the fields after the `N`, exactly as CSV writes a name and perhaps an ID, with nothing that hides or turns a text."""
        field, real, row = '[^",]+|"[^",]*(?:,|"")(?:[^"]|"")*"', ",".join(self.real), self.named_at
        found, text = re.fullmatch(f"({field})(?:,({field}))?", real), real.encode("latin-1").decode("utf-8", "replace")
        need(found and text.encode("utf-8").decode("latin-1") == real, row, "real name")
        need(not re.search("[\0-\x1f\x7f-\x9f\u061c\u200e\u200f\u2028-\u202e\u2066-\u2069]", text), row, "real name")
        parts = [group[1:-1].replace('""', '"') if group[0] == '"' else group for group in found.groups() if group]
        return " (".join(parts).encode("latin-1").decode("utf-8") + ")" * (len(parts) - 1)

    def right(self, answer, choice, mine):
        """Whether the answer can be that to this choice, where the resident has the choice `mine`; choices are from 0."""
        if answer[:1] == ["full"] and len(answer) == 4:
            rank, last, quota = map(number, answer[1:])
            is_before = last is not None and 1 <= quota <= last < rank if None not in (rank, quota) and answer[2] else answer[2] == "" and quota == 0 and rank
            return not self.is_gone and choice < mine and is_before
        stands = ("withdrawn",) if self.is_gone else ("matched",) if choice == mine else ("withdrawn", "unranked", "better")[:2 + (choice > mine)]
        return len(answer) == 4 and answer[0] in stands and not any(answer[1:])

    def shows(self, lists, result):
        """What the receipt shows under these roots. Of each there is the number of members, or None, and the digits; the result's may be missing."""
        (of_lists, lists), (of_result, result) = lists, result
        name, side, listed, own, end = self.name, self.side, self.listed, self.own, self.end
        need(not self.is_long, 0, "long")
        whole = self.whole(lists, result)
        if self.text != whole:
            row = os.path.commonprefix([self.text, whole]).count("\n")
            need(False, row, self.unlike(row, lists, result))
        need(number(self.count) is not None, 1, "root row")
        need(number(self.index) is not None, 2, "opening row")
        self.opens(printed(self.sealed), lists, 2)
        if result:
            self.opens(printed(self.placed), result, end + 1)
        named([name], lambda _: 0)
        need(side == "R" or number(self.quota) is not None, 3, "numbers")
        named(listed, lambda _: self.own_row)
        told = [f"{self.real_name()} is {name} in the lists."] if self.real else []
        told += [f"{name}: the sealed lists have your {f'quota of {self.quota}, and your ' if side == 'P' else ''}list: {names(listed)}."]
        told += ["You are withdrawn."] * self.is_gone
        if result and side == "P":
            need(len(self.members) <= int(self.quota), end + 2, "numbers")
            need(not self.is_gone or not self.members, end + 2, "gone")
            named(self.members, lambda place: end + 3 + place, set(listed))
            told.append(f"The sealed result has {len(self.members)} of your places filled: {names(self.members)}.")
        elif result:
            need(own is None or not self.is_gone, end + 2, "gone")
            need(own is None or own in listed, end + 2, "not listed")
            told.append(f"The sealed result has you {'unmatched' if own is None else f'matched with {own}'}.")
            mine = len(listed) if own is None else listed.index(own)
            for choice, (programme, answer) in enumerate(zip(listed, self.answers)):
                need(self.right(answer, choice, mine), end + 3 + choice, "full" if answer[:1] == ["full"] else "reason")
                full = "" if answer[0] != "full" else f"it ranked you {ranked(answer[1])}" + (
                    ", and it has no places" if answer[3] == "0" else f". Its place went to a resident it ranked higher, {ranked(answer[2])}" if answer[3] == "1"
                    else f". Its {answer[3]} places went to residents it ranked higher, the last of them {ranked(answer[2])}")
                told.append(f"{programme}: {full or SAYS[answer[0]]}.")
        need(of_lists in (None, self.count), 1, "members")
        need(of_result in (None, self.count), end, "members")
        return told

def together(r, p):
    """Whether the receipts of a resident and a programme agree, and what the two say together; both of them are good."""
    has, gone = r.name in p.members, r.name if r.is_gone else p.name if p.is_gone else None
    if p.name not in r.listed:
        return not has, f"{p.name} has {r.name}, and {r.name} does not list {p.name}" if has else f"{r.name} does not list {p.name}"
    answer, rank, last, quota = r.answers[r.listed.index(p.name)]
    places = {resident: str(place) for place, resident in enumerate(p.listed, 1)}
    says, here, filled = f"{r.name}'s receipt says ", places.get(r.name, ""), str(len(p.members))
    last_here = max((places[member] for member in p.members), key=int, default="")
    if (answer == "withdrawn") != (gone is not None):
        return False, f"{says}{answer}, and {gone or 'neither'} is withdrawn"
    if not gone and (answer == "unranked") != (here == ""):
        return False, f"{says}{answer}, and {p.name} " + (f"lists {r.name} {ranked(here)}" if here else f"does not list {r.name}")
    if (answer == "matched") != has:
        return False, f"{says}{answer}, and {p.name} {'has' if has else 'does not have'} {r.name}"
    if answer != "full":
        return True, {"withdrawn": f"{gone} is withdrawn", "unranked": f"{p.name} does not list {r.name}", "matched": f"{r.name} is matched with {p.name}",
                      "better": f"{r.name} is matched with a programme that it lists before {p.name}"}[answer]
    if rank != here:
        return False, f"{says}that {p.name} lists it {ranked(rank)}, and {p.name} lists it {ranked(here)}"
    if quota != p.quota:
        return False, f"{says}that {p.name} has {quota} places, and {p.name} has {p.quota}"
    if filled != p.quota:
        return False, f"{says}that all places of {p.name} went to others, and {filled} of {p.quota} are filled"
    if last != last_here:
        return False, f"{says}that the last of them is {ranked(last)} with {p.name}, and it is {ranked(last_here)}"
    return True, f"{p.name} lists {r.name} {ranked(rank)}" + (", and it has no places" if quota == "0" else
        f", and its place went to the resident whom it lists {ranked(last)}" if quota == "1" else
        f", and all its {quota} places went to residents whom it lists before, the last of them {ranked(last)}")

words = argparse.ArgumentParser(description=__doc__)
published = lambda text: re.fullmatch("(?:(0|[1-9][0-9]{0,8}),)?([0-9a-f]{64})", text).groups()
words.add_argument("--lists", metavar="ROOT", required=True, type=published)
words.add_argument("--result", metavar="ROOT", type=published, default=(None, None))
words.add_argument("receipt", metavar="RECEIPT", type=argparse.FileType("rb"))
words.add_argument("programme", metavar="PROGRAMME", nargs="?", type=argparse.FileType("rb"))
given = words.parse_args()
if given.programme and not given.result[1]:
    words.error("receipts are compared after the match: give --result, too")
getattr(sys.stdout, "reconfigure", lambda **_: None)(encoding="utf-8", errors="surrogateescape")
receipts = []
for file, side in ((given.receipt, "R"), (given.programme, "P")):
    if file:
        receipts.append(Receipt(file.read()))
        try:
            told = receipts[-1].shows(given.lists, given.result)
            need(not given.programme or receipts[-1].side == side, 0, side)
        except Wrong as wrong:
            row, cause = wrong.args
            print(f"{file.name}: " * bool(given.programme) + f"row {row + 1}: {CHANGED.get(cause) or WRONG[cause]}")
            sys.exit(3 if cause in CHANGED or given.programme else 4)
if given.programme:
    agree, said = together(*receipts)
    told = [f"{receipts[0].name} and {receipts[1].name} {'agree' if agree else 'differ'}: {said}."]
print("\n".join(told))
sys.exit(4 if given.programme and not agree else 0)

"""What a match of two wide tables has to give, derived here from the tables alone: nothing of the office's code is used."""
import csv
from collections import defaultdict
from typing import Dict, List, NamedTuple, Optional, Sequence


class Derived(NamedTuple):
    """The tables as dictionaries, and where each resident is."""

    places: Dict[str, int]
    programme_lists: Dict[str, List[str]]
    resident_lists: Dict[str, List[str]]
    match: Dict[str, Optional[str]]

    def choice(self, resident: str) -> int:
        """The rank of a resident's programme on the resident's list as written."""
        return self.resident_lists[resident].index(self.match[resident] or "") + 1

    def rank(self, resident: str) -> int:
        """The rank of a resident on the list, as written, of the programme where the resident is."""
        return self.programme_lists[self.match[resident] or ""].index(resident) + 1

    def members(self, programme: str) -> List[str]:
        """A programme's residents, in the order of its list."""
        return [programme_list for programme_list in self.programme_lists[programme] if self.match.get(programme_list) == programme]

    def ranked_back(self, resident: str, gone: Sequence[str] = ()) -> bool:
        return any(resident in self.programme_lists[resident_list] for resident_list in self.resident_lists[resident] if resident_list not in gone)


def tables(programmes: str, residents: str) -> Derived:
    """The two tables of these texts, each with commas or semicolons."""
    read = []
    for text in (programmes, residents):
        mark = ";" if ";" in text.split("\n")[0] else ","
        read.append(
            [[cell.strip() for cell in row] for row in csv.reader(text.lstrip("\ufeff").splitlines(), delimiter=mark)][1:]
        )
    return Derived(
        {row[0]: int(row[1]) for row in read[0]},
        {row[0]: [cell for cell in row[2:] if cell] for row in read[0]},
        {row[0]: [cell for cell in row[1:] if cell] for row in read[1]},
        {},
    )


def match(given: Derived, gone: Sequence[str] = ()) -> Derived:
    """Programmes propose: each offers its free places down its list; a resident keeps the best offer so far."""
    held: Dict[str, Optional[str]] = {resident: None for resident in given.resident_lists}
    nxt: Dict[str, int] = defaultdict(int)
    free = {programme: places for programme, places in given.places.items() if programme not in gone}
    moved = True
    while moved:
        moved = False
        for programme in free:
            listed = given.programme_lists[programme]
            while free[programme] and nxt[programme] < len(listed):
                resident = listed[nxt[programme]]
                nxt[programme] += 1
                moved = True
                wishes = given.resident_lists[resident]
                if resident in gone or programme not in wishes:
                    continue
                now = held[resident]
                if now is None or wishes.index(programme) < wishes.index(now):
                    held[resident] = programme
                    free[programme] -= 1
                    if now is not None:
                        free[now] += 1
    return given._replace(match=held)


def became(given: Derived, resident: str, gone: Sequence[str] = ()) -> List[str]:
    """What a letter has to say of each programme on a resident's list, best first, by the page on the office."""
    where, said = given.match[resident], []
    for place, programme in enumerate(given.resident_lists[resident]):
        if resident in gone:
            said.append("you withdrew from the match")
        elif programme in gone:
            said.append("it withdrew from the match")
        elif programme == where:
            said.append("you are matched here")
        elif where is not None and place > given.resident_lists[resident].index(where):
            said.append("not needed, since you have one that you would rather have")
        elif resident not in given.programme_lists[programme]:
            said.append("it did not rank you")
        elif given.places[programme] == 0:
            said.append("it had no places")
        else:
            # Such a programme is full of residents whom it ranks before this one, or the match is none.
            held = [given.programme_lists[programme].index(member) for member in given.members(programme)]
            assert len(held) == given.places[programme] and max(held) < given.programme_lists[programme].index(resident)
            said.append("it filled all of its places with residents whom it ranks before you")
    return said


def outcome(given: Derived, resident: str, gone: Sequence[str] = ()) -> str:
    """The sentence of a letter on what the match gave, on one line."""
    listed, where = given.resident_lists[resident], given.match[resident]
    if resident in gone:
        return "You withdrew from the match, and so you have no place in it."
    if where is not None:
        return f"You are matched with {where}, the {nth(listed.index(where) + 1)} of the {len(listed)} on your list."
    if not listed:
        return "You are not matched, since your list is empty."
    return "We are sorry that you are not matched. " + sentence(became(given, resident, gone))


def sentence(said: Sequence[str]) -> str:
    """What a letter says of a list that led to no place, by what it says of each programme on it."""
    parts, kinds = [], []
    for words, one, more in (
        ("it filled", "filled all of its places with residents whom it ranks before you",
         "filled all of their places with residents whom they rank before you"),
        ("it had", "had no places", "had no places"),
        ("it did", "did not rank you", "did not rank you"),
        ("it withdrew", "withdrew from the match", "withdrew from the match"),
    ):
        count = len([line for line in said if line.startswith(words)])
        if count:
            kinds.append(words)
            parts.append(f"{count} {one if count == 1 else more}")
    if len(kinds) == 1:
        every = {1: "The programme", 2: "Both programmes"}.get(len(said), f"All {len(said)} programmes")
        if kinds == ["it did"] and len(said) > 1:
            return f"{'Neither' if len(said) == 2 else 'None'} of the {len(said)} programmes on your list ranked you."
        return f"{every} on your list {parts[0].split(' ', 1)[1]}."
    last = parts.pop()
    middle = parts[0] if len(parts) == 1 else ", ".join(parts) + ","
    return f"Of the {len(said)} programmes on your list, {middle} and {last}."


def nth(number: int) -> str:
    """1st, 2nd, 3rd, 4th, .. 11th, 12th, 13th, .. 21st, .. 111th."""
    if str(number)[-2:] in ("11", "12", "13"):
        return f"{number:,}th"
    return f"{number:,}" + {"1": "st", "2": "nd", "3": "rd"}.get(str(number)[-1], "th")

"""What changed between two matches: ten lines of figures, and by name who moved, who came and went, and which programmes
filled otherwise."""
from collections import Counter
from dataclasses import dataclass
from typing import Dict, List, Mapping, Optional, Sequence, Tuple, TypeVar, Union

from .faults import shown
from .outcome import Outcome, Programme, Resident, Standing, called
from .phrases import Phrases, english
from .rosters import heads, table_bytes

One = TypeVar("One", Resident, Programme)
ORDER = MOVED, NOW_MATCHED, NO_LONGER, WITHDRAWN, OTHERWISE, NEW, GONE, OTHER_NAME = (
    "moved", "now-matched", "no-longer-matched", "withdrawn", "stands-otherwise", "new", "gone", "other-name")


@dataclass(frozen=True)
class Change:
    """One member who differs: `what` is one of ORDER or `filled-otherwise`, `before` and `now` the member in each match, if there."""

    what: str
    before: Union[Resident, Programme, None]
    now: Union[Resident, Programme, None]

    @property
    def member(self) -> Union[Resident, Programme]:
        found = self.now or self.before
        assert found is not None
        return found

    @property
    def side(self) -> str:
        return "resident" if isinstance(self.member, Resident) else "programme"

    def both(self, phrases: Phrases) -> Tuple[str, str]:
        """How the member stood, and stands; or who had an ID, and has it now."""
        if self.what == OTHER_NAME:
            return (self.before.name if self.before else ""), self.member.name
        return stood(self.before, phrases), stood(self.now, phrases)

    def cells(self) -> Tuple[str, ...]:
        """What changed, who it is, and how the member stood and stands."""
        return english().say(f"change.{self.what}"), called(self.member), *self.both(english())

    def line(self) -> str:
        member, words = self.member, english()
        before, now = (shown(said, 300) for said in self.both(words))
        return f"{shown(called(member), 200)}: {words.say(f'change.{self.what}')}; {before} -> {now}"


def figures_of(outcome: Outcome, phrases: Phrases) -> List[Tuple[str, str]]:
    """The ten figures of a match; parts are parts of the residents who take part."""
    there = outcome.taking_part()
    choices = outcome.choices()
    kinds = {standing: len(outcome.standing(standing)) for standing in Standing}
    of_all = {"matched": kinds[Standing.MATCHED], "first": sum(choices[:1]), "second": sum(choices[1:2]), "third": sum(choices[2:3]),
              "later": sum(choices[3:]), "lost-out": kinds[Standing.LOST_OUT],
              "not-ranked": kinds[Standing.NOT_RANKED_BACK] + kinds[Standing.RANKED_NOBODY]}
    programmes = sum(not programme.withdrawn for programme in outcome.programmes.values())
    left = sum(programme.unfilled for programme in outcome.programmes.values())
    shares = {what: phrases.say("figure.share", count=count, share=phrases.percent(count, there)) if there else phrases.number(count)
              for what, count in of_all.items()}
    figures = {"taking-part": phrases.number(there), **shares,
               "programmes": phrases.number(programmes), "left": phrases.say("figure.of", count=left, whole=outcome.places())}
    return [(phrases.say(f"figure.{what}"), figure) for what, figure in figures.items()]


def keyed(members: Mapping[str, One], others: Mapping[str, One]) -> Dict[str, One]:
    """Members by what they are known by in both matches: their IDs where all have one, else their names."""
    by_id = all(member.id for member in (*members.values(), *others.values()))
    return {member.id if by_id else name: member for name, member in members.items()}


def stood(member: Union[Resident, Programme, None], phrases: Phrases) -> str:
    if member is None:
        return phrases.say("change.not-there")
    if isinstance(member, Programme):
        return phrases.say("change.withdrawn") if member.withdrawn else phrases.say("change.filled", filled=member.filled, places=member.places)
    if member.standing is Standing.MATCHED:
        return phrases.say("change.matched", programme=member.programme, choice=phrases.ordinal(member.choice or 0), count=member.ranked)
    standing = phrases.say(f"standing.{member.standing.key}")
    return standing if member.standing is Standing.WITHDRAWN else phrases.say("change.unmatched", standing=standing)


def is_one(name: str, other: str) -> bool:
    """Whether two names differ in capitals, accents and the order of their words alone."""
    return sorted(english().alphabetical(name)[0].split()) == sorted(english().alphabetical(other)[0].split())


def of_resident(before: Optional[Resident], now: Optional[Resident], same: Mapping[str, str]) -> str:
    """What became of a resident, or nothing; `same` names each programme now by its name before. Whoever has another's ID isn't compared."""
    if before is None or now is None:
        return NEW if before is None else GONE
    if not is_one(before.name, now.name):
        return OTHER_NAME
    if now.standing is Standing.MATCHED and before.standing is Standing.MATCHED:
        return "" if same.get(before.programme or "") == now.programme else MOVED
    if now.standing is before.standing:
        return ""
    if now.standing is Standing.WITHDRAWN:
        return WITHDRAWN
    if Standing.MATCHED in (before.standing, now.standing):
        return NOW_MATCHED if now.standing is Standing.MATCHED else NO_LONGER
    return OTHERWISE


def of_programme(before: Optional[Programme], now: Optional[Programme]) -> str:
    if before is None or now is None:
        return NEW if before is None else GONE
    if now.withdrawn and not before.withdrawn:
        return WITHDRAWN
    is_same = (before.withdrawn, before.filled, before.places) == (now.withdrawn, now.filled, now.places)
    return "" if is_same or before.withdrawn and now.withdrawn else "filled-otherwise"


def changes(before: Outcome, now: Outcome) -> List[Change]:
    """Every member who stands otherwise now, residents first, each kind of change by name."""
    old, new = keyed(before.programmes, now.programmes), keyed(now.programmes, before.programmes)
    same = {old[key].name: new[key].name for key in old if key in new}
    found = [Change(of_programme(old.get(key), new.get(key)), old.get(key), new.get(key)) for key in dict.fromkeys([*old, *new])]
    people, now_people = keyed(before.residents, now.residents), keyed(now.residents, before.residents)
    found += [Change(of_resident(people.get(key), now_people.get(key), same), people.get(key), now_people.get(key))
              for key in dict.fromkeys([*people, *now_people])]
    return ordered([change for change in found if change.what], english())


def ordered(found: Sequence[Change], phrases: Phrases) -> List[Change]:
    """Changes by kind, and each kind by name."""
    order = {what: place for place, what in enumerate(ORDER)}
    return sorted(found, key=lambda change: (change.side == "programme", order.get(change.what, 0), phrases.alphabetical(change.member.name), change.member.id))


def summary(before: Outcome, now: Outcome, found: Sequence[Change]) -> str:
    """One line on who stands otherwise, and how they are known."""
    counts = Counter(change.what for change in found if change.side == "resident")
    told = ", ".join(f"{counts[what]:,} {english().say(f'change.{what}')}" for what in ORDER if what in counts) or "nobody stands otherwise"
    known = "by their IDs" if all(resident.id for outcome in (before, now) for resident in outcome.residents.values()) else "by their names, since not all have an ID"
    return f"residents {known}: {told}"


def changes_table(found: Sequence[Change], phrases: Phrases) -> bytes:
    rows = [(phrases.say(f"change.{change.side}"), change.member.name, change.member.id, phrases.say(f"change.{change.what}"), *change.both(phrases))
            for change in ordered(found, phrases)]
    return table_bytes(heads(phrases, "side", "name", "id", "change", "before", "now"), rows)

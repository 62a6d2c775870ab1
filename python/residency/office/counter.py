"""The counter: what became of each choice of one resident, from a folder alone, in the folder's words."""
from dataclasses import replace
from datetime import date
from typing import List, Optional, Sequence, Tuple

from ..names import RESIDENT, Member
from ..program import DEFAULT_TIMEOUT
from ..results import Why
from . import steps
from .letters import Letters
from .outcome import Became, Resident, Standing
from .phrases import Phrases
from .running import Run
from .who import the_one

LETTERS = {"unranked": Became.NOT_RANKED, "matched": Became.MATCHED, "better": Became.NOT_NEEDED}


def reason(why: Why, resident: Resident, phrases: Phrases) -> str:
    """What became of one programme, as it is said to the resident."""
    if why.answer is None:
        return phrases.say("letter.unlisted")
    if why.answer == "full" and why.last_rank is not None:
        return phrases.say("letter.full", rank=phrases.ordinal(why.rank or 0), quota=why.quota, last=phrases.ordinal(why.last_rank))
    withdrawn = Became.YOU_WITHDREW if resident.standing is Standing.WITHDRAWN else Became.IT_WITHDREW
    return phrases.say(f"letter.became.{LETTERS.get(why.answer, Became.NO_PLACES if why.answer == 'full' else withdrawn).key}")


def asked(run: Run, name: str, programme: Optional[str], timeout: float) -> Tuple[Member, Resident, Sequence[Why]]:
    """Who is meant, and what became of each choice, or of one programme. OfficeError for a name that nobody has, or several."""
    member = the_one(run.names, name, RESIDENT)
    resident = run.outcome.residents[run.names.name(RESIDENT, member.docket_name)]
    return member, resident, steps.why(run, name, programme or "", timeout)


def answer(run: Run, name: str, programme: Optional[str] = None, timeout: float = DEFAULT_TIMEOUT) -> List[str]:
    """Whose answer it is, how the resident stands, and what became of what was asked."""
    phrases, (member, resident, found) = run.language().phrases(), asked(run, name, programme, timeout)
    rows = [(f"{why.choice}. " if why.choice else "") + phrases.say("letter.row", programme=why.programme, said=reason(why, resident, phrases))
            for why in found]
    return [member.label, " ".join(Letters(run.market, run.outcome, run.about()).said(resident)), *rows]


def letter(run: Run, name: str, programme: Optional[str], timeout: float, day: date) -> str:
    """The answer as a letter to the resident, in the resident's language."""
    _, resident, found = asked(run, name, programme, timeout)
    letters = Letters(run.market, run.outcome, replace(run.about(), day=day), None, "name", run.language().column, run.texts())
    return letters.letter(resident, [(why.choice or 0, why.programme, reason(why, resident, letters.phrases[resident.name])) for why in found])

"""Where a docket goes that is over a limit of residency: the program of the national limits, which takes larger ones."""
from ..passes import NATIONAL

PROGRAM = "residency-national"
# How each fault of a docket begins that the program of the national limits may not have.
OVER = "more than "


# What is said as soon as a step of such a match begins.
STEPS = {"match": f"{PROGRAM} matches, audits and replays", "folder": "the folder is written"}
# What is told of tables over a limit before their match begins.
NOTE = f"note: over a limit of residency: {PROGRAM} matches this"


def line() -> str:
    """What is told after a docket's faults, where one is over a limit."""
    return (f"{PROGRAM} takes {NATIONAL.programmes:,} programmes, {NATIONAL.residents:,} residents, {NATIONAL.pairs:,} acceptable pairs and "
            f"{NATIONAL.records:,} records")

"""A residency match from Python: markets in your own names, matched, audited and replayed by the built program."""
from __future__ import annotations

from .calls import audit, match, replay, why, why_all
from .docket import Docket, Journal, read_docket, write_docket
from .errors import (DocketFault, KeyFault, MarketFault, NotValid, OtherOptimum, ProgramError, ProgramFailed, ProgramMissing,
                     ProgramTimeout, ResidencyError, UnknownMember, UnknownStatus)
from .key import from_cell, read_key, to_cell, write_key
from .lint import lint
from .market import Market
from .names import Member, Names, docket_names
from .program import find_program
from .results import Audit, Match, Replay, Why
from .version import version as _version

__version__ = _version()

__all__ = ["Audit", "Docket", "DocketFault", "Journal", "KeyFault", "Market", "MarketFault", "Match", "Member", "Names",
           "NotValid", "OtherOptimum", "ProgramError", "ProgramFailed", "ProgramMissing", "ProgramTimeout", "Replay",
           "ResidencyError", "UnknownMember", "UnknownStatus", "Why", "audit", "docket_names", "find_program", "from_cell", "lint", "match",
           "read_docket", "read_key", "replay", "to_cell", "why", "why_all", "write_docket", "write_key", "__version__"]

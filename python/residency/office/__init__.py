"""The office: from two tables with real names to a folder with a checked match, its page, letters and rosters.

`main` is the command `office`; its parts are one module each.
"""
from .command import main

__all__ = ["main"]

"""Prints a docket of as many members as there may be, in which each programme lists every resident. With the word
`mutual` each resident lists every programme too, and with `long-names` each name has 32 bytes."""
import sys

PROGRAMMES = 2000
RESIDENTS = 20000

words = sys.argv[1:]
if words == ["long-names"]:
    programmes = [f"programme-of-the-long-names-{p:04}" for p in range(PROGRAMMES)]
    residents = [f"resident-of-the-long-names-{r:05}" for r in range(RESIDENTS)]
else:
    programmes = [f"p{p}" for p in range(PROGRAMMES)]
    residents = [f"r{r}" for r in range(RESIDENTS)]
listed = "".join(f",{it}" for it in programmes) if words == ["mutual"] else ""
everybody = "".join(f",{it}" for it in residents)
for programme in programmes:
    print(f"Q,{programme},10")
for programme in programmes:
    print(f"P,{programme}{everybody}")
for resident in residents:
    print(f"R,{resident}{listed}")

"""Reads CSV by the words of docs/statement.md on `records`, and says what a match writes of dockets in which nobody is ranked."""
import re
import subprocess
from typing import List, Tuple

MARK = b"\xef\xbb\xbf"
NAME = re.compile(rb"[A-Za-z0-9_.-]{1,32}")
# Dockets with each form that the words speak of, and some that look like one.
EXAMPLES = [
    b"Q,a,1\nR,x\n", b"Q,a,1\r\nR,x\r\n", b"Q,a,1\rR,x\r", b"Q,a,1\nR,x", b"\n\r\n\rQ,a,1\n\n\n\rR,x\n\r", MARK + b"Q,a,1\nR,x\n",
    b"Q,a,1\n" + MARK + b"R,x\n", b'"Q","a","1"\n"R","x"', b'Q,"a"b,1\nR,x\n', b'Q,"a"b"c,1\nR,x\n', b'Q,a"b,1\nR,x\n', b'Q,"a""b",1\nR,x\n',
    b'Q,"",1\n', b'Q,"a\nb",1\n', b'Q,a,1\nQ,"b\r\n\r\nc",1\n', b'Q,"a,1\nR,x\n', b'Q, "a",1\n', b"Q,a,1\nR,x,\n", b"Q,a,1\nR,x,,\n",
    b",\n", b'Q,a,1\n""\nR,x\n', b'Q,a,"1"\r\nR,"x"\r\nR,y', b"Q,a,1,\n", b"Q,a\n", b'Q,a,1\nR,"x"y\rR,z', b'R,"x""",\n', b" \n", b"Q;a;1\n",
]


def records(data: bytes) -> List[List[bytes]]:
    """The records of these bytes, each as its fields, byte by byte."""
    data = data[len(MARK):] if data.startswith(MARK) else data
    found: List[List[bytes]] = []
    at = 0
    while at < len(data):
        if data[at:at + 1] in (b"\n", b"\r"):
            at += 1
            continue
        fields: List[bytes] = []
        while True:
            field, at = field_at(data, at)
            fields.append(field)
            if data[at:at + 1] != b",":
                break
            at += 1
        found.append(fields)
        at += 1
    return found


def field_at(data: bytes, at: int) -> Tuple[bytes, int]:
    """The field that begins here, and where the comma or the end behind it is."""
    field = b""
    if data[at:at + 1] == b'"':
        at += 1
        while at < len(data) and (data[at:at + 1] != b'"' or data[at:at + 2] == b'""'):
            field += data[at:at + 1]
            at += 2 if data[at:at + 1] == b'"' else 1
        at += 1
    while at < len(data) and data[at:at + 1] not in (b",", b"\n", b"\r"):
        field += data[at:at + 1]
        at += 1
    return field, at


def fault_of(row: List[bytes]) -> str:
    """What is wrong with a record of a programme or a resident, by docs/format.md; a list may name nobody here."""
    if row[0] not in (b"Q", b"R"):
        return "unknown kind of row"
    if len(row) != 3 if row[0] == b"Q" else len(row) < 2:
        return "wrong number of fields"
    names = row[1:2] if row[0] == b"Q" else row[1:]
    return "" if all(NAME.fullmatch(it) for it in names) else "bad name"


def answer(data: bytes) -> Tuple[int, str]:
    """The status and the text of a match of this docket."""
    rows = records(data)
    for number, row in enumerate(rows, 1):
        fault = fault_of(row)
        if fault:
            return 3, f"residency: record {number}: {fault}\n"
    residents = "".join(f"U,{row[1].decode()}\n" for row in rows if row[0] == b"R")
    return 0, residents + "".join(f"F,{row[1].decode()},0,{int(row[2])}\n" for row in rows if row[0] == b"Q")


def said(program: str, data: bytes) -> Tuple[int, str]:
    done = subprocess.run([program, "match"], input=data, stdout=subprocess.PIPE, stderr=subprocess.STDOUT)
    return done.returncode, done.stdout.decode()

#!/usr/bin/env python3
"""Our own cases of the field question, written by hand from document 01. Used by tests/card_cases.py, which writes
    crates/card_cases/data/own_fields.cases    field number (4 bytes), length (4), the lone record
and their lines behind `own, fields` in crates/card_cases/stdout.

A case is a name, a field number, a record, and what document 01 gives it: the bytes of the part, or the line of a refusal. They are written here
by hand; only the hash that stands for a part's bytes is computed. No program under test was asked for an answer.

A line is `P length hash` of the part handed back, or `R number record column`.
"""
from records import AJ
from stored import hashed, number

# ---- The record's fields, 1 to 26 ------------------------------------------------------------------------------------------------------------

FIELDS = [b"CV", b"POSTO 7        ", b"000000012345", b"20231114", b"235959", b"1", b"20231215", b"D", b"1", b"00000010000", b"00000000250",
          b"00000009750", b"0004111111111111111", b"00", b"00", b"000000000000", b"00000000001", b"00000000002", b"00000000003", b"422", b"000123",
          b"45678-9    ", b"000000998877", b"001", b"010", b"000003"]
CV = b"".join(FIELDS)
assert len(FIELDS) == 26 and len(CV) == 199

# ---- The cases -------------------------------------------------------------------------------------------------------------------------------

CASES = [(f"field {n}", n, CV, FIELDS[n - 1]) for n in range(1, 27) if n != 13]
CASES += [
    ("accents are handed back as they stand", 2, CV[:2] + b"CONCEI\xc7\xc3O N\xba 7 " + CV[17:], b"CONCEI\xc7\xc3O N\xba 7 "),
    ("the card is never handed back", 13, CV, "R 14 0 0"),
    ("no field 0", 0, CV, "R 14 0 0"),
    ("no field 27", 27, CV, "R 14 0 0"),
    ("no field 256 + 1", 257, CV, "R 14 0 0"),
    ("no field 2^32 - 1", 2**32 - 1, CV, "R 14 0 0"),
    ("an empty record", 1, b"", "R 4 1 1"),
    ("one byte of a kind", 1, b"C", "R 4 1 1"),
    ("a kind alone", 1, b"CV", "R 6 1 0"),
    ("another kind, of the right width", 2, b"CP" + CV[2:], "R 4 1 1"),
    ("an adjustment", 2, AJ, "R 4 1 1"),
    ("an adjustment of the right width", 2, b"AJ" + CV[2:], "R 4 1 1"),
    ("4 before 6 and 14", 13, b"L0", "R 4 1 1"),
    ("198 wide", 26, CV[:-1], "R 6 1 0"),
    ("200 wide", 26, CV + b" ", "R 6 1 0"),
    ("a line end is no part of the record", 26, CV + b"\r\n", "R 6 1 0"),
    ("6 before 14", 13, CV[:-1], "R 6 1 0"),
    ("the field itself is not judged", 5, CV[:37] + b"25:6~\x00" + CV[43:], b"25:6~\x00"),
    ("no other field is judged", 26, b"CV" + bytes(191) + b"999999", b"999999"),
    ("nor is a card with letters", 12, CV[:87] + b"NOT A CARD AT ALL!!" + CV[106:], b"00000009750"),
]

# ---- How they are stored ---------------------------------------------------------------------------------------------------------------------


def line(answer):
    """The line of a refusal, or of a part's bytes."""
    return answer if isinstance(answer, str) else f"P {len(answer)} {hashed(answer)}"


STORED = [number(field) + number(len(record)) + record for _, field, record, _ in CASES]
LINES = [(name, line(answer)) for name, _, _, answer in CASES]

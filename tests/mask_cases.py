#!/usr/bin/env python3
"""Our own cases of masked copies, written by hand from document 01 and requests Q-7, Q-2, Q-4 and Q-11 of document 02.

    tests/mask_cases.py           write the files below
    tests/mask_cases.py --list    and print where in `stdout` each case stands, its name and its answer

It writes crates/mask_cases/data/own.cases (edition (1 byte), the output's length (4), length (4), the file) and what stands from the line `own` on in
crates/mask_cases/stdout: the lines of files masked whole, and the same lines again for the files in chunks, where the outside cases' lines are repeated
too. There the cases whose output has no room for the file are left out.

A case is a name, a file, the line that these documents give it, and what the output begins with after the call. All of these are written here by
hand; only the hash that stands for the output's bytes in a line is computed. No program under test was asked for an answer.

A line is `A date movement records batches fsales fgross fdiscount fnet ssales sgross sdiscount snet credits creditnet debits debitnet` (forecast, settled,
adjustments) or `R number record column`, and the hash of the whole output.
Behind the line of a file that is cut in two at every place stands how many cuts have the same line: as many as the file has bytes, and one.
"""
from records import A0, A9, ACCEPTED, ADJUSTED, ADVANCED, AHEAD, AJ, CV, DEBIT, FIVE, FORECAST, L0, L9, adjustment, file_of, numbered, put, sale, whole
from stored import cut_at_every_place, hashed, number, outside, output, read_cases, run, write_cases, write_stdout

# ---- How a file is built -------------------------------------------------------------------------------------------------------------------

CARD, AJ_CARD = 88, 163


def carded(card):
    assert len(card) == 19
    return sale(put(CV, CARD, card))


def aj_carded(card):
    assert len(card) == 19
    return adjustment(put(AJ, AJ_CARD, card))


MASKED_FIVE = carded(b"000411111******1111")

CASES = []


def case(name, file, line, front=b"", size=None, edition=2):
    """`front` is what the output begins with after the call; behind it the output is as it was before. Without a size it is as long as the file."""
    CASES.append((name, edition, len(file) if size is None else size, file, line, front))


# ---- Cards ---------------------------------------------------------------------------------------------------------------------------------

# Of each number of valid characters: the card, and the card masked.
for valid, card, masked in (
        (0, b"0000000000000000000", b"0000000000000000000"),
        (1, b"0000000000000000001", b"0000000000000000001"),
        (2, b"0000000000000000012", b"0000000000000000012"),
        (3, b"0000000000000000123", b"0000000000000000123"),
        (4, b"0000000000000001234", b"0000000000000001234"),
        (5, b"0000000000000012345", b"0000000000000012345"),
        (6, b"0000000000000123456", b"0000000000000123456"),
        (7, b"0000000000001234567", b"0000000000001234567"),
        (8, b"0000000000012345678", b"0000000000012345678"),
        (9, b"0000000000123456789", b"0000000000123456789"),
        (10, b"0000000001234567890", b"0000000001234567890"),
        (11, b"0000000012345678901", b"0000000012345678901"),
        (12, b"0000000123456789012", b"0000000123456789012"),
        (13, b"0000001234567890123", b"0000001234*****0123"),
        (14, b"0000012345678901234", b"000001234******1234"),
        (15, b"0000123456789012345", b"00001234*******2345"),
        (16, b"0001234567890123456", b"000123456******3456"),
        (17, b"0012345678901234567", b"00123456*******4567"),
        (18, b"0123456789012345678", b"0123456********5678"),
        (19, b"1234567890123456789", b"123456*********6789")):
    case(f"{valid} valid characters", carded(card), ACCEPTED, carded(masked))
    case(f"AJ, {valid} valid characters", aj_carded(card), ADJUSTED, aj_carded(masked))

for name, card, masked in (
        ("stars at hidden places", b"000123456****123456", b"000123456******3456"),
        ("stars at all hidden places", b"000123456******3456", b"000123456******3456"),
        ("a star at the first hidden place", b"000123456*890123456", b"000123456******3456"),
        ("a star at the last hidden place", b"00012345678901*3456", b"000123456******3456"),
        ("a star at the first open place", b"000*234567890123456", b"000*23456******3456"),
        ("a star at the sixth open place", b"00012345*7890123456", b"00012345*******3456"),
        ("a star at the first of the last four", b"000123456789012*456", b"000123456*******456"),
        ("a star at the last place", b"000123456789012345*", b"000123456******345*"),
        ("a star ends the leading zeros: 18 valid", b"0*00000000000000000", b"0*00000********0000"),
        ("a star in front: 19 valid", b"*000000000000000000", b"*00000*********0000"),
        ("a star at the end alone: 1 valid", b"000000000000000000*", b"000000000000000000*"),
        ("twelve stars", b"0000000************", b"0000000************"),
        ("thirteen, the first a star", b"000000*234567890123", b"000000*234*****0123"),
        ("twelve, the first a star", b"0000000*23456789012", b"0000000*23456789012"),
        ("fifteen, the first a star", b"0000*23456789012345", b"0000*234*******2345"),
        ("nineteen stars", b"*******************", b"*******************"),
        ("zeros inside are valid", b"0001000000000000000", b"000100000******0000"),
        ("thirteen, all zeros but the first", b"0000001000000000000", b"0000001000*****0000"),
        ("nineteen nines", b"9999999999999999999", b"999999*********9999")):
    case(name, carded(card), ACCEPTED, carded(masked))
    case("AJ, " + name, aj_carded(card), ADJUSTED, aj_carded(masked))
case("AJ, a blank card stays", aj_carded(b" " * 19), ADJUSTED, aj_carded(b" " * 19))

# ---- Nowhere else --------------------------------------------------------------------------------------------------------------------------

# The card's digits in other fields stay: A0's name, the store, NSU, account and authorisation.
TOLD = put(put(put(put(CV, 3, b"111111111111111"), 18, b"111111111111"), 165, b"11111111111"), 176, b"111111111111")
NAMED = put(A0, 29, b"4111111111111111")
case("the card's digits in other fields stay", whole(NAMED, L0, TOLD, L9, A9), ACCEPTED,
     whole(NAMED, L0, put(TOLD, CARD, b"000411111******1111"), L9, A9))
# A record of 75 bytes in which CV stands, but not in front.
case("CV inside A0's name", whole(put(A0, 29, b"CV"), L0, CV, L9, A9), ACCEPTED,
     whole(put(A0, 29, b"CV"), L0, put(CV, CARD, b"000411111******1111"), L9, A9))
case("no batch: nothing to mask", whole(A0, b"A9" b"000002" b"000002"), "A 20231115 000042 2 0 0 0 0 0 0 0 0 0 0 0 0 0", whole(A0, b"A9" b"000002" b"000002"))

# Several sales, in one batch and in two, each masked by its own card.
SECOND = numbered(put(CV, CARD, b"1234567890123456789"), 4)
THIRD = numbered(put(CV, CARD, b"0000000123456789012"), 5)
case("three sales in a batch", whole(A0, L0, CV, SECOND, THIRD, b"L9" b"000003" b"00000000030000" b"000006", b"A9" b"000007" b"000007"),
     "A 20231115 000042 7 1 0 0 0 0 3 30000 750 29250 0 0 0 0",
     whole(A0, L0, put(CV, CARD, b"000411111******1111"), put(SECOND, CARD, b"123456*********6789"), THIRD,
           b"L9" b"000003" b"00000000030000" b"000006", b"A9" b"000007" b"000007"))
LATER = numbered(put(CV, CARD, b"0000001234567890123"), 6)
case("a sale in each of two batches", whole(A0, L0, CV, L9, numbered(L0, 5), LATER, numbered(L9, 7), b"A9" b"000008" b"000008"),
     "A 20231115 000042 8 2 0 0 0 0 2 20000 500 19500 0 0 0 0",
     whole(A0, L0, put(CV, CARD, b"000411111******1111"), L9, numbered(L0, 5), put(LATER, CARD, b"0000001234*****0123"), numbered(L9, 7),
           b"A9" b"000008" b"000008"))
# A sale is masked whatever its launch type.
case("a forecast", sale(AHEAD), FORECAST, sale(put(AHEAD, CARD, b"000411111******1111")))
case("a forecast, an advanced sale and a normal one", file_of((3, 30000, AHEAD, put(ADVANCED, CARD, b"1234567890123456789"), CV)),
     "A 20231115 000042 7 1 1 10000 250 9750 2 20000 500 19500 0 0 0 0",
     file_of((3, 30000, put(AHEAD, CARD, b"000411111******1111"), put(ADVANCED, CARD, b"123456*********6789"), put(CV, CARD, b"000411111******1111"))))
case("L9 with the settled alone", file_of((2, 10000, AHEAD, CV)), "R 11 5 9")
case("capture 7", sale(put(CV, 54, b"7")), ACCEPTED, sale(put(put(CV, 54, b"7"), CARD, b"000411111******1111")))

# Adjustments: credits and debits, before and behind sales, each masked by its own card in its own part.
MASKED_CV = put(CV, CARD, b"000411111******1111")
CREDIT, MASKED_CREDIT = put(AJ, AJ_CARD, b"0000001234567890123"), put(AJ, AJ_CARD, b"0000001234*****0123")
TAKEN, MASKED_TAKEN = put(DEBIT, AJ_CARD, b"1234567890123456789"), put(DEBIT, AJ_CARD, b"123456*********6789")
BLANK = put(AJ, AJ_CARD, b" " * 19)
case("a sale, a credit and a debit", file_of((3, 10975, CV, CREDIT, TAKEN)), "A 20231115 000042 7 1 0 0 0 0 1 10000 250 9750 1 2925 1 1950",
     file_of((3, 10975, MASKED_CV, MASKED_CREDIT, MASKED_TAKEN)))
case("a debit, a credit and a sale", file_of((3, 10975, TAKEN, CREDIT, CV)), "A 20231115 000042 7 1 0 0 0 0 1 10000 250 9750 1 2925 1 1950",
     file_of((3, 10975, MASKED_TAKEN, MASKED_CREDIT, MASKED_CV)))
case("a blank card between others", file_of((4, 13900, CV, BLANK, CREDIT, TAKEN)), "A 20231115 000042 8 1 0 0 0 0 1 10000 250 9750 2 5850 1 1950",
     file_of((4, 13900, MASKED_CV, BLANK, MASKED_CREDIT, MASKED_TAKEN)))
case("an adjustment in each of two batches", file_of((2, 8050, CV, TAKEN), (1, 2925, CREDIT)),
     "A 20231115 000042 9 2 0 0 0 0 1 10000 250 9750 1 2925 1 1950", file_of((2, 8050, MASKED_CV, MASKED_TAKEN), (1, 2925, MASKED_CREDIT)))
case("AJ, capture 7", adjustment(put(AJ, 75, b"7")), ADJUSTED, adjustment(put(put(AJ, 75, b"7"), AJ_CARD, b"000411111******1111")))
# Digits stay in every other field of an AJ: store, NSUs, reason, account, brand and product code; and in its description, where a CV has its card.
TOLD_AJ = AJ
for position, text in ((3, b"1" * 15), (18, b"1" * 12), (40, b"1" * 12), (77, b"111" + b"4" * 30), (146, b"1" * 17), (182, b"1" * 6)):
    TOLD_AJ = put(TOLD_AJ, position, text)
case("AJ, digits in other fields stay", adjustment(TOLD_AJ), ADJUSTED, adjustment(put(TOLD_AJ, AJ_CARD, b"000411111******1111")))
case("AJ, and where its card is blank", adjustment(put(TOLD_AJ, AJ_CARD, b" " * 19)), ADJUSTED, adjustment(put(TOLD_AJ, AJ_CARD, b" " * 19)))
case("AJ inside A0's name and a store", whole(put(A0, 29, b"AJ"), L0, put(CV, 3, b"AJ"), L9, A9), ACCEPTED,
     whole(put(A0, 29, b"AJ"), L0, put(MASKED_CV, 3, b"AJ"), L9, A9))

# Accents stay, and count as bytes like any others: the card's places are where they were.
SOUTH = "ESTAÇÕES DO SUL, Nº 310".encode("latin-1")
ACCENTED, ACCENTED_AJ = put(CV, 3, SOUTH[:15]), put(put(AJ, 3, SOUTH[:15]), 80, SOUTH)
case("accents stay", whole(put(A0, 29, SOUTH), L0, ACCENTED, L9, A9), ACCEPTED,
     whole(put(A0, 29, SOUTH), L0, put(ACCENTED, CARD, b"000411111******1111"), L9, A9))
case("AJ, accents stay", adjustment(ACCENTED_AJ), ADJUSTED, adjustment(put(ACCENTED_AJ, AJ_CARD, b"000411111******1111")))
for byte in (b"\xa0", b"\xad", b"\xff"):
    fields = put(put(put(put(CV, 3, byte * 15), 165, byte * 11), 188, byte * 3), 191, byte * 3)
    case(f"byte {byte[0]} all over the AN fields", sale(fields), ACCEPTED, sale(put(fields, CARD, b"000411111******1111")))

# ---- The output's length -------------------------------------------------------------------------------------------------------------------

# The five records and their line ends are 344 bytes.
assert len(FIVE) == 344
case("as long as the file", FIVE, ACCEPTED, MASKED_FIVE, size=344)
case("one longer: the last byte stays", FIVE, ACCEPTED, MASKED_FIVE, size=345)
case("600: what is past the file stays", FIVE, ACCEPTED, MASKED_FIVE, size=600)
case("4096: what is past the file stays", FIVE, ACCEPTED, MASKED_FIVE, size=4096)
case("2: one shorter", FIVE, "R 2 0 0", size=343)
case("2: no output", FIVE, "R 2 0 0", size=0)
case("2: one byte", FIVE, "R 2 0 0", size=1)
case("2 before 12: a file that ends too early", whole(A0, L0, CV), "R 2 0 0", size=297)
case("2 before 10: a file whose net is 9751", sale(put(CV, 77, b"00000009751")), "R 2 0 0", size=343)
case("AJ, 2: one shorter", adjustment(AJ), "R 2 0 0", size=337)
case("AJ, one longer: the last byte stays", adjustment(AJ), ADJUSTED, aj_carded(b"000411111******1111"), size=339)
case("1 before 2: edition 0", FIVE, "R 1 0 0", size=343, edition=0)
case("1 before 2: edition 3", FIVE, "R 1 0 0", size=0, edition=3)
case("22 before 2: one shorter", FIVE, "R 22 0 0", size=343, edition=1)
case("22 before 2: no output", FIVE, "R 22 0 0", size=0, edition=1)
case("22 before 2: a file that ends too early", whole(A0, L0, CV), "R 22 0 0", size=297, edition=1)

# ---- A refused file leaves the output as it was -----------------------------------------------------------------------------------------------

for size in (344, 600):
    for edition in (0, 3, 255):
        case("1: edition %d, output %d" % (edition, size), FIVE, "R 1 0 0", size=size, edition=edition)
    case("22: edition 1, output %d" % size, FIVE, "R 22 0 0", size=size, edition=1)
    case("22: capture 7 under edition 1, output %d" % size, sale(put(CV, 54, b"7")), "R 22 0 0", size=size, edition=1)
    case("10: net 9751, output %d" % size, sale(put(CV, 77, b"00000009751")), "R 10 3 77", size=size)
    case("9: CV numbered 000004, output %d" % size, sale(put(CV, 194, b"000004")), "R 9 3 194", size=size)
    case("8: capture 0, output %d" % size, sale(put(CV, 54, b"0")), "R 8 3 54", size=size)
    case("7: a blank in the card, output %d" % size, carded(b"0004111 11111111111"), "R 7 3 88", size=size)
    case("11: A9's count, output %d" % size, whole(A0, L0, CV, L9, b"A9" b"000004" b"000005"), "R 11 5 3", size=size)
    case("4: an unknown kind, output %d" % size, sale(put(CV, 1, b"CP")), "R 4 3 1", size=size)
    case("3: no line end, output %d" % size, FIVE[:-2], "R 3 5 0", size=size)
    case("7: byte 159 in the store, output %d" % size, sale(put(CV, 3, b"\x9f")), "R 7 3 3", size=size)
    case("7: an accent in the card, output %d" % size, sale(put(CV, 100, b"\xe9")), "R 7 3 88", size=size)
    case("AJ, 7: an accent in the card, output %d" % size, adjustment(put(AJ, 170, b"\xe9")), "R 7 3 163", size=size)
    case("AJ, 5: behind A0, output %d" % size, whole(A0, numbered(AJ, 2)), "R 5 2 0", size=size)
    case("AJ, 6: as wide as CV, output %d" % size, sale(put(CV, 1, b"AJ")), "R 6 3 0", size=size)
    case("AJ, 7: a card of digits and blanks, output %d" % size, aj_carded(b"   4111111111111111"), "R 7 3 163", size=size)
    case("AJ, 8: capture 8, output %d" % size, adjustment(put(AJ, 75, b"8")), "R 8 3 75", size=size)
    case("AJ, 9: numbered 000004, output %d" % size, adjustment(numbered(AJ, 4)), "R 9 3 188", size=size)
    case("AJ, 10: net 2926, output %d" % size, adjustment(put(AJ, 142, b"6")), "R 10 3 132", size=size)
    case("AJ, 11: a sum below zero, output %d" % size, file_of((1, 1950, DEBIT)), "R 11 4 9", size=size)
case("12: behind CV", whole(A0, L0, CV), "R 12 4 0")
case("12: an empty file, no output", b"", "R 12 1 0", size=0)
case("12: an empty file, ten bytes of output", b"", "R 12 1 0", size=10)
case("13: one byte after the end", FIVE + b"x", "R 13 6 0")
case("13: a second file", FIVE + FIVE, "R 13 6 0")
case("13: the output too short for the bytes after the end", FIVE + b"x", "R 2 0 0", size=344)
case("22 before 10: net 9751", sale(put(CV, 77, b"00000009751")), "R 22 0 0", edition=1)
case("22 before 4: an unknown kind", sale(put(CV, 1, b"CP")), "R 22 0 0", edition=1)
case("22 before 3: no line end", FIVE[:-2], "R 22 0 0", edition=1)
case("22 before 12: an empty file, no output", b"", "R 22 0 0", size=0, edition=1)
case("22 before 12: an empty file, ten bytes of output", b"", "R 22 0 0", size=10, edition=1)
case("AJ, 22: edition 1", adjustment(AJ), "R 22 0 0", edition=1)

# ---- Writing them --------------------------------------------------------------------------------------------------------------------------


def outside_with_room():
    """The outside cases whose output has room for the file: 2 is no answer of a file in chunks."""
    there, at, fits = read_cases("mask_cases", "outside.cases"), 0, []
    while at < len(there):
        size, length = (int.from_bytes(there[i:i + 4], "big") for i in (at + 1, at + 5))
        fits.append(length <= size)
        at += 9 + length
    return [case for case, fit in zip(outside("mask_cases"), fits, strict=True) if fit]


def main():
    write_cases("mask_cases", "own.cases",
                (bytes([edition]) + number(size) + number(len(file)) + file for _, edition, size, file, _, _ in CASES))
    own = [(name, size, file, f"{line} {hashed(output(size, front))}") for name, _, size, file, line, front in CASES]
    with_room = [(name, file, line) for name, size, file, line in own if len(file) <= size]
    write_stdout("mask_cases", [
        ("own", [(name, line) for name, _, _, line in own]),
        ("outside, in chunks", outside_with_room()),
        ("own, in chunks", [(name, line) for name, _, line in with_room]),
        ("own, cut at every place", cut_at_every_place(with_room, 400))])


if __name__ == "__main__":
    run(main, __doc__)

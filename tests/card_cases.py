#!/usr/bin/env python3
"""Our own cases of card files, written by hand from document 01 and requests Q-7, Q-2, Q-4 and Q-11 of document 02.

    tests/card_cases.py           write the files below
    tests/card_cases.py --list    and print where in `stdout` each case stands, its name and its answer

It writes
    crates/card_cases/data/own.cases        whole files:          edition (1 byte), length (4), the file
    crates/card_cases/data/own_fed.cases    record by record:     edition (1), length (4), the calls: length (4) and a record, or FFFFFFFF to close
    crates/card_cases/data/own_fields.cases the field question:   tests/field_cases.py
and what stands from the line `own` on in crates/card_cases/stdout: the lines of whole files, the same lines again for the files in chunks, where the
outside cases' lines are repeated too, those of the files given record by record, those of what no file of cases can say (src/limits.rt), and those of
the field question.

A case is a name, how its file is built, and the line that these documents give it. The lines are written here by hand: nothing in this script
computes an answer, and no program under test was asked for one. Where a program prints another line, the documents decide which is right.

A line is `A date movement records batches fsales fgross fdiscount fnet ssales sgross sdiscount snet credits creditnet debits debitnet` (forecast, settled,
adjustments) or `R number record column`; a fed case has one for each call, `-` for none.
Behind the answer of a file that is cut in two at every place stands how many cuts have that answer: as many as the file has bytes, and one.
"""
import field_cases
from records import (A0, A9, ACCEPTED, ADJUSTED, ADVANCED, AHEAD, AJ, CRLF, CV, DEBIT, FIVE, FORECAST, L0, L9, adjustment, file_of, numbered, put, sale,
                     whole)
from stored import cut_at_every_place, number, outside, run, write_cases, write_stdout

# ---- How a file is built -------------------------------------------------------------------------------------------------------------------

CLOSE = None


def head(a0):
    return whole(a0, L0, CV, L9, A9)


def batch_head(l0):
    return whole(A0, l0, CV, L9, A9)


def batch_end(l9):
    return whole(A0, L0, CV, l9, A9)


def end(a9):
    return whole(A0, L0, CV, L9, a9)


CARD, FEED = [], []


def card(name, file, line, edition=2):
    CARD.append((name, edition, file, line))


def feed(name, calls, *answers, edition=2):
    assert len(calls) == len(answers), name
    FEED.append((name, edition, calls, ";".join(answers)))


# ---- Whole files: the examples of document 01 ----------------------------------------------------------------------------------------------

card("an empty file", b"", "R 12 1 0")
card("five records", FIVE, "A 20231115 000042 5 1 0 0 0 0 1 10000 250 9750 0 0 0 0")
card("CV numbered 000004", sale(put(CV, 194, b"000004")), "R 9 3 194")
card("capture 7 under edition 1", sale(put(CV, 54, b"7")), "R 22 0 0", edition=1)
card("capture 7 under edition 2", sale(put(CV, 54, b"7")), ACCEPTED)
card("net 9751", sale(put(CV, 77, b"00000009751")), "R 10 3 77")
card("20240229 is a date", head(put(A0, 9, b"20240229")), "A 20240229 000042 5 1 0 0 0 0 1 10000 250 9750 0 0 0 0")
card("20230229 is none", head(put(A0, 9, b"20230229")), "R 8 1 9")
card("19991231 is none", head(put(A0, 9, b"19991231")), "R 8 1 9")
card("20991231 is a date", head(put(A0, 9, b"20991231")), "A 20991231 000042 5 1 0 0 0 0 1 10000 250 9750 0 0 0 0")

# ---- Editions: 1 comes before everything, and 22 right after it -----------------------------------------------------------------------------

for edition in (0, 3, 7, 255):
    card(f"edition {edition}", FIVE, "R 1 0 0", edition)
card("edition 0, an empty file", b"", "R 1 0 0", edition=0)
card("edition 3, no line end", b"A0", "R 1 0 0", edition=3)
card("edition 0, an unknown kind", whole(b"XX"), "R 1 0 0", edition=0)
for name, file in (("five records", FIVE), ("an adjustment", adjustment(AJ)), ("an empty file", b""), ("no line end", b"A0"),
                   ("an unknown kind", whole(b"XX")), ("net 9751", sale(put(CV, 77, b"00000009751"))),
                   ("a file that ends too early", whole(A0, L0, CV)), ("a byte after the end", FIVE + b"x")):
    card(f"edition 1, {name}", file, "R 22 0 0", edition=1)

# ---- The traps of document 01's last section ------------------------------------------------------------------------------------------------

card("stars in a card", sale(put(CV, 88, b"000123456****123456")), ACCEPTED)
card("a card of nineteen stars", sale(put(CV, 88, b"*******************")), ACCEPTED)
card("a card of nineteen digits", sale(put(CV, 88, b"1234567890123456789")), ACCEPTED)
card("a padded card of twelve", sale(put(CV, 88, b"0000000123456789012")), ACCEPTED)
card("a card of nineteen zeros", sale(put(CV, 88, b"0000000000000000000")), ACCEPTED)
card("a card with a wrong check digit", sale(put(CV, 88, b"0004111111111111112")), ACCEPTED)
card("a card with a blank", sale(put(CV, 88, b"0004111 11111111111")), "R 7 3 88")
card("a card with a letter at its end", sale(put(CV, 106, b"x")), "R 7 3 88")
card("001.7d chooses no edition: capture 7 under edition 1", whole(A0, L0, put(CV, 54, b"7"), L9, A9), "R 22 0 0", edition=1)

THIRD = put(CV, 55, b"00000030000" b"00000000750" b"00000029250")  # a sale of 30000 ..
FIRST_OF_3 = put(THIRD, 107, b"01" b"03" b"000000000071" b"00000010002" b"00000000250" b"00000009752")  # .. in three instalments
SECOND_OF_3 = numbered(put(THIRD, 107, b"02" b"03" b"000000000072" b"00000009999" b"00000000250" b"00000009749"), 4)
THIRD_OF_3 = numbered(put(THIRD, 107, b"03" b"03" b"000000000073" b"00000009999" b"00000000250" b"00000009749"), 5)
L9_OF_3 = b"L9" b"000003" b"00000000030000" b"000006"
A9_OF_7 = b"A9" b"000007" b"000007"
card("the instalments' amounts are added, not the sale's", whole(A0, L0, FIRST_OF_3, SECOND_OF_3, THIRD_OF_3, L9_OF_3, A9_OF_7),
     "A 20231115 000042 7 1 0 0 0 0 3 30000 750 29250 0 0 0 0")
card("L9 with the sale's amount once per instalment",
     whole(A0, L0, FIRST_OF_3, SECOND_OF_3, THIRD_OF_3, put(L9_OF_3, 9, b"00000000090000"), A9_OF_7), "R 11 6 9")
ONE_OF_1 = put(CV, 107, b"01" b"01" b"000000000071" b"00000004000" b"00000000100" b"00000003900")
card("1 of 1 is an instalment", whole(A0, L0, ONE_OF_1, put(L9, 9, b"00000000004000"), A9), "A 20231115 000042 5 1 0 0 0 0 1 4000 100 3900 0 0 0 0")
card("1 of 1, and L9 with the sale's amount", whole(A0, L0, ONE_OF_1, L9, A9), "R 11 4 9")
card("an instalment of nothing", whole(A0, L0, put(CV, 107, b"99" b"99"), put(L9, 9, b"00000000000000"), A9), "A 20231115 000042 5 1 0 0 0 0 1 0 0 0 0 0 0 0")

# ---- Batches and sales -----------------------------------------------------------------------------------------------------------------------

card("no batch", whole(A0, b"A9" b"000002" b"000002"), "A 20231115 000042 2 0 0 0 0 0 0 0 0 0 0 0 0 0")
card("a batch of no sale", whole(A0, L0, b"L9" b"000000" b"00000000000000" b"000003", b"A9" b"000004" b"000004"), "A 20231115 000042 4 1 0 0 0 0 0 0 0 0 0 0 0 0")
L0_5, L9_6 = numbered(L0, 5), b"L9" b"000000" b"00000000000000" b"000006"
card("two batches, the second of no sale", whole(A0, L0, CV, L9, L0_5, L9_6, A9_OF_7), "A 20231115 000042 7 2 0 0 0 0 1 10000 250 9750 0 0 0 0")
card("L9 counts the sales of its own batch", whole(A0, L0, CV, L9, L0_5, put(L9_6, 3, b"000001"), A9_OF_7), "R 11 6 3")
card("L9 sums the sales of its own batch", whole(A0, L0, CV, L9, L0_5, put(L9_6, 9, b"00000000010000"), A9_OF_7), "R 11 6 9")
card("L9 sums gross, not net", batch_end(put(L9, 9, b"00000000009750")), "R 11 4 9")
card("A9 counts itself", end(put(A9, 3, b"000004")), "R 11 5 3")
TOP = put(CV, 55, b"99999999999" b"00000000000" b"99999999999")
card("the largest amount", whole(A0, L0, TOP, put(L9, 9, b"00099999999999"), A9), "A 20231115 000042 5 1 0 0 0 0 1 99999999999 0 99999999999 0 0 0 0")
# 1001 sales of 99999999999 sum to 100099999998999, fifteen digits.
card("a sum of fifteen digits equals no field: its last fourteen",
     whole(A0, L0, *[numbered(TOP, 3 + i) for i in range(1001)], b"L9" b"001001" b"00099999998999" b"001004", b"A9" b"001005" b"001005"),
     "R 11 1004 9")

# ---- Every refusal that a card file can get, and each pair of neighbours in 01's order --------------------------------------------------------

# 13, 12, 3
card("13: one byte after the end, before 3", FIVE + b"x", "R 13 6 0")
card("13: 1A at the end", FIVE + b"\x1a", "R 13 6 0")
card("13: an LF after the end, before 3", FIVE + b"\n", "R 13 6 0")
card("13: an empty line after the end, before 4", FIVE + CRLF, "R 13 6 0")
card("13: an unknown kind after the end, before 4", FIVE + whole(b"XX"), "R 13 6 0")
card("13: a second file", FIVE + FIVE, "R 13 6 0")
card("13: a second A9", FIVE + whole(A9), "R 13 6 0")
card("12: behind A0", whole(A0), "R 12 2 0")
card("12: behind L0", whole(A0, L0), "R 12 3 0")
card("12: behind CV", whole(A0, L0, CV), "R 12 4 0")
card("12: behind L9", whole(A0, L0, CV, L9), "R 12 5 0")
card("3: no LF in the rest", whole(A0, L0, CV, L9) + A9, "R 3 5 0")
card("3: a CR and no LF", whole(A0, L0, CV, L9) + A9 + b"\r", "R 3 5 0")
card("3: an LF with no CR", whole(A0, L0, CV, L9) + A9 + b"\n", "R 3 5 0")
card("3: 1A where A9 should stand", whole(A0, L0, CV, L9) + b"\x1a", "R 3 5 0")
card("3: a lone LF", b"\n", "R 3 1 0")
card("3: a lone CR", b"\r", "R 3 1 0")
card("3: LF CR", A0 + b"\n\r" + whole(L0, CV, L9, A9), "R 3 1 0")
card("3: an LF right behind A0's CR LF", whole(A0) + b"\n" + whole(L0, CV, L9, A9), "R 3 2 0")
card("3 before 4: an unknown kind with no LF", b"XX", "R 3 1 0")
card("3 before 4: an unknown kind with a lone LF", b"XX\n", "R 3 1 0")
card("3 before 5: CV first, with no line end", CV, "R 3 1 0")
card("3 before 6: a short A0 with no line end", b"A0", "R 3 1 0")

# 4, 5, 6
for kind, width in ((b"CP", 159), (b"PF", 228), (b"CC", 72)):
    card("4: %s is not read here" % kind.decode(), sale(put(CV, 1, kind)), "R 4 3 1")
    card("4: %s as wide as it is printed" % kind.decode(), sale(kind.ljust(width, b"0")), "R 4 3 1")
    card("4: %s as wide as AJ" % kind.decode(), adjustment(put(AJ, 1, kind)), "R 4 3 1")
card("4: CP behind A0, before 5", whole(A0, numbered(put(CV, 1, b"CP"), 2)), "R 4 2 1")
card("4: a lower-case kind", sale(put(CV, 1, b"cv")), "R 4 3 1")
card("4: A1", head(put(A0, 1, b"A1")), "R 4 1 1")
card("4: an empty record", whole(b""), "R 4 1 1")
card("4: an empty record in a batch", whole(A0, L0, b"", L9, A9), "R 4 3 1")
card("4: a CR LF at A0's end makes an empty record", whole(A0 + CRLF, L0, CV, L9, A9), "R 4 2 1")
card("4: one byte", whole(b"A"), "R 4 1 1")
card("4: a lone CR as a record", whole(b"\r"), "R 4 1 1")
card("4 before 5 and 6: an unknown kind of no width", whole(b"XX"), "R 4 1 1")
card("5: L0 first", whole(numbered(L0, 1)), "R 5 1 0")
card("5: CV first", whole(numbered(CV, 1)), "R 5 1 0")
card("5: L9 first", whole(numbered(L9, 1)), "R 5 1 0")
card("5: A9 first", whole(b"A9" b"000001" b"000001"), "R 5 1 0")
card("5: A0 behind A0", whole(A0, numbered(A0, 2)), "R 5 2 0")
card("5: CV outside a batch", whole(A0, numbered(CV, 2)), "R 5 2 0")
card("5: L9 outside a batch", whole(A0, numbered(L9, 2)), "R 5 2 0")
card("5: L0 in a batch", whole(A0, L0, numbered(L0, 3)), "R 5 3 0")
card("5: A9 in a batch", whole(A0, L0, b"A9" b"000003" b"000003"), "R 5 3 0")
card("5: A0 in a batch", whole(A0, L0, CV, numbered(A0, 4)), "R 5 4 0")
card("5: CV behind L9", whole(A0, L0, CV, L9, numbered(CV, 5)), "R 5 5 0")
card("5 before 6: a short CV first", whole(b"CV"), "R 5 1 0")
card("5 before 6: a long L0 in a batch", whole(A0, L0, numbered(L0, 3) + b"0"), "R 5 3 0")
card("6: A0 of two bytes", whole(b"A0"), "R 6 1 0")
card("6: A0 one short", head(A0[:74]), "R 6 1 0")
card("6: A0 one wide", head(A0 + b"0"), "R 6 1 0")
card("6: L0 one short", batch_head(L0[:17]), "R 6 2 0")
card("6: L0 one wide", batch_head(L0 + b"0"), "R 6 2 0")
card("6: CV one short", sale(CV[:198]), "R 6 3 0")
card("6: CV one wide", sale(CV + b"0"), "R 6 3 0")
card("6: L9 one short", batch_end(L9[:27]), "R 6 4 0")
card("6: L9 one wide", batch_end(L9 + b"0"), "R 6 4 0")
card("6: A9 one short", end(A9[:13]), "R 6 5 0")
card("6: A9 one wide", end(A9 + b"0"), "R 6 5 0")
card("6: CR CR LF is one byte wider", whole(A0 + b"\r", L0, CV, L9, A9), "R 6 1 0")
card("6: CR LF in A0's name cuts it short", head(put(A0, 40, CRLF)), "R 6 1 0")
card("3: an LF in A0's name", head(put(A0, 40, b"\n")), "R 3 1 0")
card("3: an LF in a CV's store", sale(put(CV, 10, b"\n")), "R 3 3 0")
card("6 before 7: a short CV with a letter in its NSU", sale(put(CV, 18, b"x")[:198]), "R 6 3 0")
card("6 before 8: a short A0 of another version", head(put(A0, 3, b"x")[:74]), "R 6 1 0")
card("6 before 7: a wide L0 with a letter in its date", batch_head(put(L0, 3, b"x") + b"0"), "R 6 2 0")
card("6 before 7: a wide CV with byte 31 in its store", sale(put(CV, 3, b"\x1f") + b"0"), "R 6 3 0")
card("6 before 7: a short L9 with a letter in its count", batch_end(put(L9, 3, b"x")[:27]), "R 6 4 0")
card("6 before 7: a short A9 with a letter in its count", end(put(A9, 3, b"x")[:13]), "R 6 5 0")
card("6 before 9: a wide A9 of another number", end(numbered(A9, 6) + b"0"), "R 6 5 0")

# 7 and 8 in A0, by position
card("8: version 001.7D", head(put(A0, 3, b"001.7D")), "R 8 1 3")
card("8, not 7: a byte 0 in the version", head(put(A0, 8, b"\x00")), "R 8 1 3")
card("7: a letter in A0's date", head(put(A0, 16, b"x")), "R 7 1 9")
card("7 before 8: a letter in a day that is none", head(put(A0, 9, b"2023139x")), "R 7 1 9")
for day in (b"20231301", b"20230001", b"20230431", b"20231100", b"20231132", b"21000101", b"00000000", b"99999999"):
    card("8: %s is no day of A0" % day.decode(), head(put(A0, 9, day)), "R 8 1 9")
card("the first day", head(put(A0, 9, b"20000101")), "A 20000101 000042 5 1 0 0 0 0 1 10000 250 9750 0 0 0 0")
card("29 February 2000", head(put(A0, 9, b"20000229")), "A 20000229 000042 5 1 0 0 0 0 1 10000 250 9750 0 0 0 0")
card("7: a letter in A0's time", head(put(A0, 22, b"x")), "R 7 1 17")
card("7 before 8: a letter in a time that is none", head(put(A0, 17, b"99999x")), "R 7 1 17")
for time in (b"240000", b"236000", b"235960"):
    card("8: %s is no time" % time.decode(), head(put(A0, 17, time)), "R 8 1 17")
card("the last second", head(put(A0, 17, b"235959")), ACCEPTED)
card("7: a blank in the movement", head(put(A0, 23, b" ")), "R 7 1 23")
card("movement 999999", head(put(A0, 23, b"999999")), "A 20231115 999999 5 1 0 0 0 0 1 10000 250 9750 0 0 0 0")
card("movement 000000", head(put(A0, 23, b"000000")), "A 20231115 000000 5 1 0 0 0 0 1 10000 250 9750 0 0 0 0")
card("7: byte 31 in the name", head(put(A0, 29, b"\x1f")), "R 7 1 29")
card("7: byte 127 in the name", head(put(A0, 58, b"\x7f")), "R 7 1 29")
card("7: a lone CR in the name", head(put(A0, 40, b"\r")), "R 7 1 29")
card("bytes 32 and 126 in the name", head(put(A0, 29, b" ~")), ACCEPTED)
card("7: a letter in the sender", head(put(A0, 62, b"x")), "R 7 1 59")
card("7: a letter in the receiver", head(put(A0, 63, b"x")), "R 7 1 63")
card("processing R", head(put(A0, 69, b"R")), ACCEPTED)
card("8: processing X", head(put(A0, 69, b"X")), "R 8 1 69")
card("8, not 7: byte 255 as the processing", head(put(A0, 69, b"\xff")), "R 8 1 69")
card("7: a letter in A0's NSEQ", head(put(A0, 75, b"x")), "R 7 1 70")
card("9: A0 numbered 000002", head(numbered(A0, 2)), "R 9 1 70")
card("version before date", head(put(put(A0, 9, b"x"), 3, b"x")), "R 8 1 3")
card("date's 8 before time's 7", head(put(put(A0, 9, b"20230229"), 17, b"x")), "R 8 1 9")
card("processing's 8 before 9", head(put(numbered(A0, 2), 69, b"X")), "R 8 1 69")

# 7 and 8 in L0
card("7: a letter in L0's date", batch_head(put(L0, 3, b"x")), "R 7 2 3")
card("7 before 8: a letter in a day of L0 that is none", batch_head(put(L0, 3, b"9999999x")), "R 7 2 3")
card("8: 20230229 in L0", batch_head(put(L0, 3, b"20230229")), "R 8 2 3")
for currency in (b"RE", b"DO", b"PE", b"  "):
    card("currency '%s'" % currency.decode(), batch_head(put(L0, 11, currency)), ACCEPTED)
card("8: currency US", batch_head(put(L0, 11, b"US")), "R 8 2 11")
card("8: currency RO, of two that are allowed", batch_head(put(L0, 11, b"RO")), "R 8 2 11")
card("8, not 7: byte 255 in the currency", batch_head(put(L0, 12, b"\xff")), "R 8 2 11")
card("7: a letter in L0's NSEQ", batch_head(put(L0, 13, b"x")), "R 7 2 13")
card("9: L0 numbered 000003", batch_head(numbered(L0, 3)), "R 9 2 13")

# 7 and 8 in CV, by position: a byte at this place of the record
card("7: byte 31 in the store", sale(put(CV, 3, b"\x1f")), "R 7 3 3")
card("7: byte 127 at the store's end", sale(put(CV, 17, b"\x7f")), "R 7 3 3")
card("7: NSU, first", sale(put(CV, 18, b"x")), "R 7 3 18")
card("7: NSU, last", sale(put(CV, 29, b" ")), "R 7 3 18")
card("7: date, first", sale(put(CV, 30, b"x")), "R 7 3 30")
card("7: date, last", sale(put(CV, 37, b"x")), "R 7 3 30")
card("8: date", sale(put(CV, 30, b"20230229")), "R 8 3 30")
card("7 before 8: date", sale(put(CV, 30, b"9999999x")), "R 7 3 30")
card("7: time, first", sale(put(CV, 38, b"x")), "R 7 3 38")
card("7: time, last", sale(put(CV, 43, b"x")), "R 7 3 38")
card("7 before 8: time", sale(put(CV, 38, b"99999x")), "R 7 3 38")
card("8: time", sale(put(CV, 38, b"240000")), "R 8 3 38")
card("8: launch type 3", sale(put(CV, 44, b"3")), "R 8 3 44")
card("8, not 7: launch type x", sale(put(CV, 44, b"x")), "R 8 3 44")
card("7: launch date, first", sale(put(CV, 45, b"x")), "R 7 3 45")
card("7: launch date, last", sale(put(CV, 52, b"x")), "R 7 3 45")
card("7 before 8: launch date", sale(put(CV, 45, b"9999999x")), "R 7 3 45")
card("8: launch date", sale(put(CV, 45, b"21000101")), "R 8 3 45")
for product in (b"C", b"D", b"V"):
    card("product %s" % product.decode(), sale(put(CV, 53, product)), ACCEPTED)
card("8: product X", sale(put(CV, 53, b"X")), "R 8 3 53")
card("8, not 7: byte 0 as the product", sale(put(CV, 53, b"\x00")), "R 8 3 53")
for capture in (b"1", b"6", b"8", b"9"):
    card("capture %s" % capture.decode(), sale(put(CV, 54, capture)), ACCEPTED)
card("8: capture 0", sale(put(CV, 54, b"0")), "R 8 3 54")
card("8, not 7: capture ':'", sale(put(CV, 54, b":")), "R 8 3 54")
card("8, not 7: capture x", sale(put(CV, 54, b"x")), "R 8 3 54")
card("7: gross, first", sale(put(CV, 55, b"x")), "R 7 3 55")
card("7: gross, last", sale(put(CV, 65, b"-")), "R 7 3 55")
card("7: discount, first", sale(put(CV, 66, b"-")), "R 7 3 66")
card("7: discount, last", sale(put(CV, 76, b"x")), "R 7 3 66")
card("7: net, first", sale(put(CV, 77, b"x")), "R 7 3 77")
card("7: net, last", sale(put(CV, 87, b"x")), "R 7 3 77")
card("7: card, first", sale(put(CV, 88, b" ")), "R 7 3 88")
card("7: instalment", sale(put(CV, 108, b"x")), "R 7 3 107")
card("7: instalments", sale(put(CV, 109, b" ")), "R 7 3 109")
card("7: instalment NSU, first", sale(put(CV, 111, b"x")), "R 7 3 111")
card("7: instalment NSU, last", sale(put(CV, 122, b"x")), "R 7 3 111")
card("7: instalment gross, first", sale(put(CV, 123, b"x")), "R 7 3 123")
card("7: instalment gross, last", sale(put(CV, 133, b"x")), "R 7 3 123")
card("7: instalment discount, first", sale(put(CV, 134, b"x")), "R 7 3 134")
card("7: instalment discount, last", sale(put(CV, 144, b"x")), "R 7 3 134")
card("7: instalment net, first", sale(put(CV, 145, b"x")), "R 7 3 145")
card("7: instalment net, last", sale(put(CV, 155, b"x")), "R 7 3 145")
card("7: bank, first", sale(put(CV, 156, b"x")), "R 7 3 156")
card("7: bank, last", sale(put(CV, 158, b"x")), "R 7 3 156")
card("7: branch, first", sale(put(CV, 159, b"x")), "R 7 3 159")
card("7: branch, last", sale(put(CV, 164, b"x")), "R 7 3 159")
card("7: account, first", sale(put(CV, 165, b"\x80")), "R 7 3 165")
card("7: account, last", sale(put(CV, 175, b"\t")), "R 7 3 165")
card("7: authorisation, first", sale(put(CV, 176, b"x")), "R 7 3 176")
card("7: authorisation, last", sale(put(CV, 187, b"x")), "R 7 3 176")
card("7: brand, first", sale(put(CV, 188, b"\x1f")), "R 7 3 188")
card("7: brand, last", sale(put(CV, 190, b"\x7f")), "R 7 3 188")
card("7: product code, first", sale(put(CV, 191, b"\x1f")), "R 7 3 191")
card("7: product code, last", sale(put(CV, 193, b"\x7f")), "R 7 3 191")
card("7: NSEQ, first", sale(put(CV, 194, b"x")), "R 7 3 194")
card("7: NSEQ, last", sale(put(CV, 199, b"x")), "R 7 3 194")
card("AN takes letters, signs, 32 and 126", sale(put(put(CV, 165, b" ~-x."), 188, b"aZ*")), ACCEPTED)

# An earlier field before a later one, and the fields before 9
card("NSU's 7 before date's 8", sale(put(put(CV, 18, b"x"), 30, b"20230229")), "R 7 3 18")
card("date's 8 before time's 7", sale(put(put(CV, 30, b"20230229"), 38, b"x")), "R 8 3 30")
card("launch type's 8 before launch date's 7", sale(put(CV, 44, b"xx")), "R 8 3 44")
card("product before capture", sale(put(CV, 53, b"xx")), "R 8 3 53")
card("capture's 8 before gross's 7", sale(put(CV, 54, b"xx")), "R 8 3 54")
card("card before instalment", sale(put(CV, 106, b"xx")), "R 7 3 88")
card("NSEQ's 7, the last field's, before 8 at 107", sale(put(put(CV, 107, b"0201"), 194, b"x")), "R 7 3 194")
card("product code's 7 before 9", sale(put(CV, 193, b"\x7f" b"000004")), "R 7 3 191")
card("capture's 8 before 9", sale(put(put(CV, 54, b"0"), 194, b"000004")), "R 8 3 54")

# Each field of each kind before the next one: what is put where, and the refusal that it gives alone.
WRONG_A0 = ((3, b"001.6d", 8), (9, b"20230229", 8), (17, b"240000", 8), (23, b"x", 7), (29, b"\x1f", 7), (59, b"x", 7), (63, b"x", 7), (69, b"X", 8),
            (70, b"x", 7))
WRONG_L0 = ((3, b"20230229", 8), (11, b"US", 8), (13, b"x", 7))
WRONG_CV = ((3, b"\x1f", 7), (18, b"x", 7), (30, b"20230229", 8), (38, b"240000", 8), (44, b"3", 8), (45, b"21000101", 8), (53, b"X", 8), (54, b"0", 8),
            (55, b"x", 7), (66, b"x", 7), (77, b"x", 7), (88, b"x", 7), (107, b"x", 7), (109, b"x", 7), (111, b"x", 7), (123, b"x", 7), (134, b"x", 7),
            (145, b"x", 7), (156, b"x", 7), (159, b"x", 7), (165, b"\x7f", 7), (176, b"x", 7), (188, b"\x7f", 7), (191, b"\x7f", 7), (194, b"x", 7))
WRONG_AJ = ((3, b"\x1f", 7), (18, b"x", 7), (30, b"20230229", 8), (38, b"x", 7), (40, b"x", 7), (52, b"00000000", 8), (60, b"240000", 8), (66, b"3", 8),
            (67, b"21000101", 8), (75, b"8", 8), (76, b"3", 8), (77, b"x", 7), (80, b"\x1f", 7), (110, b"x", 7), (121, b"x", 7), (132, b"x", 7),
            (143, b"x", 7), (146, b"x", 7), (152, b"\x7f", 7), (163, b" ", 7), (182, b"\x7f", 7), (185, b"\x7f", 7), (188, b"x", 7))
WRONG_L9 = ((3, b"x", 7), (9, b"x", 7), (23, b"x", 7))
WRONG_A9 = ((3, b"x", 7), (9, b"x", 7))
for kind, file, right, place, fields in (("A0", head, A0, 1, WRONG_A0), ("L0", batch_head, L0, 2, WRONG_L0), ("CV", sale, CV, 3, WRONG_CV),
                                         ("AJ", adjustment, AJ, 3, WRONG_AJ), ("L9", batch_end, L9, 4, WRONG_L9), ("A9", end, A9, 5, WRONG_A9)):
    for (column, text, refusal), (later, later_text, _) in zip(fields, fields[1:]):
        card(f"{kind}: {refusal} at {column} before {later}", file(put(put(right, column, text), later, later_text)), f"R {refusal} {place} {column}")
card("L0: 8 at 11 before 9", batch_head(put(numbered(L0, 3), 11, b"US")), "R 8 2 11")
card("L9: 7 at 9 before 9", batch_end(put(numbered(L9, 5), 9, b"x")), "R 7 4 9")
card("A9: 7 at 3 before 9", end(put(numbered(A9, 6), 3, b"x")), "R 7 5 3")

# The joined rules: 9, 8 at 107, 8 at 111 to 145, 10 at 77, 10 at 145
card("9 before 8 at 107", sale(put(put(CV, 107, b"0201"), 194, b"000004")), "R 9 3 194")
card("9: numbered 000000", sale(put(CV, 194, b"000000")), "R 9 3 194")
card("9: numbered as the record before", sale(put(CV, 194, b"000002")), "R 9 3 194")
card("8 at 107: 2 of 1", sale(put(CV, 107, b"0201")), "R 8 3 107")
card("8 at 107: 0 of 3", sale(put(CV, 107, b"0003")), "R 8 3 107")
card("8 at 107: 1 of 0", sale(put(CV, 107, b"0100")), "R 8 3 107")
WITH_ALL = b"000000000001" b"00000000001" b"00000000001" b"00000000001"  # 111, 123, 134 and 145; 1 is not 1 + 1
card("107 before 111: 0 of 3 and none of the four zero", sale(put(CV, 107, b"0003" + WITH_ALL)), "R 8 3 107")
card("107 before 10", sale(put(put(CV, 107, b"0201"), 77, b"00000009751")), "R 8 3 107")
card("111 first of the four", sale(put(CV, 111, WITH_ALL)), "R 8 3 111")
card("123 before 134 and 145", sale(put(CV, 123, WITH_ALL[12:])), "R 8 3 123")
card("134 before 145", sale(put(CV, 134, WITH_ALL[23:])), "R 8 3 134")
card("145 alone", sale(put(CV, 145, WITH_ALL[34:])), "R 8 3 145")
card("111 alone", sale(put(CV, 122, b"1")), "R 8 3 111")
card("123 alone", sale(put(CV, 133, b"1")), "R 8 3 123")
card("134 alone", sale(put(CV, 144, b"1")), "R 8 3 134")
card("8 at 111 before 10 at 77", sale(put(put(CV, 122, b"1"), 87, b"1")), "R 8 3 111")
card("8 at 145 before 10 at 77", sale(put(put(CV, 155, b"1"), 87, b"1")), "R 8 3 145")
card("10 at 77 before 10 at 145", sale(put(put(CV, 107, b"0102" + WITH_ALL), 87, b"1")), "R 10 3 77")
card("10 at 145", sale(put(CV, 107, b"0102" + WITH_ALL)), "R 10 3 145")
card("10 at 77, whatever the instalment's amounts", sale(put(ONE_OF_1, 87, b"1")), "R 10 3 77")
card("10: net above gross", sale(put(CV, 55, b"00000000000" b"00000000001" b"99999999999")), "R 10 3 77")
card("10, the last rule, before the next record's faults", whole(A0, L0, put(CV, 87, b"1"), b"L9"), "R 10 3 77")

# The trailers: 7 over all fields by position, then 9, then 11 by position
card("L9: 7 in its count", batch_end(put(L9, 8, b"x")), "R 7 4 3")
card("L9: 7 in its sum", batch_end(put(L9, 22, b"x")), "R 7 4 9")
card("L9: 7 in its NSEQ", batch_end(put(L9, 28, b"x")), "R 7 4 23")
card("L9: 7 by position", batch_end(put(put(L9, 9, b"x"), 3, b"x")), "R 7 4 3")
card("L9: NSEQ's 7 before 11", batch_end(put(put(L9, 3, b"000002"), 23, b"x")), "R 7 4 23")
card("L9: 9 before 11", batch_end(put(put(L9, 3, b"000002"), 23, b"000005")), "R 9 4 23")
card("L9: 11 by position", batch_end(put(L9, 3, b"000002" b"00000000010001")), "R 11 4 3")
card("L9: 11 in its count", batch_end(put(L9, 3, b"000000")), "R 11 4 3")
card("L9: 11 in its sum", batch_end(put(L9, 9, b"00000000010001")), "R 11 4 9")
card("A9: 7 in its count", end(put(A9, 3, b"x")), "R 7 5 3")
card("A9: 7 in its NSEQ", end(put(A9, 14, b"x")), "R 7 5 9")
card("A9: NSEQ's 7 before 11", end(put(put(A9, 3, b"000006"), 9, b"x")), "R 7 5 9")
card("A9: 9 before 11", end(b"A9" b"000006" b"000006"), "R 9 5 9")
card("A9: 11", end(put(A9, 3, b"000006")), "R 11 5 3")
card("A9: 11 before 13", end(put(A9, 3, b"000006")) + b"x", "R 11 5 3")

# ---- Adjustments: where they stand, and the order of refusals -----------------------------------------------------------------------------------

card("an adjustment", adjustment(AJ), ADJUSTED)
card("AJ, 13: after the end", FIVE + whole(AJ), "R 13 6 0")
card("AJ, 12: the file ends behind it", whole(A0, L0, AJ), "R 12 4 0")
card("AJ, 3: an LF in its description", adjustment(put(AJ, 90, b"\n")), "R 3 3 0")
card("AJ, 3 before 5: first, with no line end", AJ, "R 3 1 0")
card("AJ, 4: a lower-case kind", adjustment(put(AJ, 1, b"aj")), "R 4 3 1")
card("AJ, 4 before 5: AK behind A0", whole(A0, numbered(put(AJ, 1, b"AK"), 2)), "R 4 2 1")
card("AJ, 5: first", whole(numbered(AJ, 1)), "R 5 1 0")
card("AJ, 5: behind A0", whole(A0, numbered(AJ, 2)), "R 5 2 0")
card("AJ, 5: between batches", whole(A0, L0, CV, L9, numbered(AJ, 5), numbered(L0, 6)), "R 5 5 0")
card("AJ, 5: behind the last batch", whole(A0, L0, AJ, put(L9, 9, b"00000000002925"), numbered(AJ, 5), numbered(A9, 6)), "R 5 5 0")
card("AJ, 5 before 6: two bytes behind A0", whole(A0, b"AJ"), "R 5 2 0")
card("AJ, 5 before 6: wide and first", whole(numbered(AJ, 1) + b"0"), "R 5 1 0")
card("AJ, 5 before 7: a letter in its NSU, behind A0", whole(A0, put(numbered(AJ, 2), 40, b"x")), "R 5 2 0")
card("AJ, 6: two bytes", adjustment(b"AJ"), "R 6 3 0")
card("AJ, 6: one short", adjustment(AJ[:192]), "R 6 3 0")
card("AJ, 6: one wide", adjustment(AJ + b"0"), "R 6 3 0")
card("AJ, 6: as wide as CV", adjustment(AJ + b"000003"), "R 6 3 0")
card("AJ, 6: a CV but for its kind", sale(put(CV, 1, b"AJ")), "R 6 3 0")
card("6: a CV that is an AJ but for its kind", adjustment(put(AJ, 1, b"CV")), "R 6 3 0")
card("AJ, 6 before 7: one short with byte 31 in its store", adjustment(put(AJ, 3, b"\x1f")[:192]), "R 6 3 0")
card("AJ, 6 before 7: one wide with byte 31 in its store", adjustment(put(AJ, 3, b"\x1f") + b"0"), "R 6 3 0")
card("AJ, 7 at 185 before 9", adjustment(put(AJ, 187, b"\x7f" b"000004")), "R 7 3 185")
card("AJ, 8 at 76 before 9", adjustment(put(numbered(AJ, 4), 76, b"3")), "R 8 3 76")
card("AJ, 7 at 188 before 10", adjustment(put(put(AJ, 188, b"x"), 142, b"6")), "R 7 3 188")
card("AJ, 9: numbered 000004", adjustment(numbered(AJ, 4)), "R 9 3 188")
card("AJ, 9: numbered as the record before", adjustment(numbered(AJ, 2)), "R 9 3 188")
card("AJ, 9 before 10", adjustment(put(numbered(AJ, 4), 142, b"6")), "R 9 3 188")
card("AJ, 10: net one more", adjustment(put(AJ, 142, b"6")), "R 10 3 132")
card("AJ, 10: net one less", adjustment(put(AJ, 142, b"4")), "R 10 3 132")
card("AJ, 10: gross one more", adjustment(put(AJ, 120, b"1")), "R 10 3 132")
card("AJ, 10: discount one more", adjustment(put(AJ, 131, b"6")), "R 10 3 132")
card("AJ, 10: net above gross", adjustment(put(AJ, 110, b"00000000000" b"00000000001" b"99999999999")), "R 10 3 132")
card("AJ, 10: a debit's", file_of((2, 8050, CV, put(DEBIT, 142, b"1"))), "R 10 4 132")
card("AJ, 10, the last rule, before the next record's faults", whole(A0, L0, put(AJ, 142, b"6"), b"L9"), "R 10 3 132")

# ---- Adjustments: each field's edges --------------------------------------------------------------------------------------------------------------

# N: the bytes next to the digits at either end, and blanks, which are no zeros in an optional field either
for first, last in ((18, 29), (38, 39), (40, 51), (77, 79), (110, 120), (121, 131), (132, 142), (143, 145), (146, 151), (188, 193)):
    card(f"AJ, 7 at {first}, first", adjustment(put(AJ, first, b"/")), f"R 7 3 {first}")
    card(f"AJ, 7 at {first}, last", adjustment(put(AJ, last, b":")), f"R 7 3 {first}")
    card(f"AJ, 7 at {first}: blanks", adjustment(put(AJ, first, b" " * (last - first + 1))), f"R 7 3 {first}")
for first, last in ((18, 29), (38, 39), (40, 51), (77, 79), (143, 145), (146, 151)):
    for digit in (b"0", b"9"):
        card(f"AJ, {digit.decode()} all over {first}", adjustment(put(AJ, first, digit * (last - first + 1))), ADJUSTED)

# AN
for first, last in ((3, 17), (80, 109), (152, 162), (182, 184), (185, 187)):
    card(f"AJ, 7 at {first}: byte 31, first", adjustment(put(AJ, first, b"\x1f")), f"R 7 3 {first}")
    card(f"AJ, 7 at {first}: byte 127, last", adjustment(put(AJ, last, b"\x7f")), f"R 7 3 {first}")
    card(f"AJ, bytes 32 and 126 at {first}", adjustment(put(put(AJ, first, b" "), last, b"~")), ADJUSTED)
    card(f"AJ, blanks at {first}", adjustment(put(AJ, first, b" " * (last - first + 1))), ADJUSTED)

# The three days, of which the first is optional, and the time
for first, zeros in ((30, ADJUSTED), (52, "R 8 3 52"), (67, "R 8 3 67")):
    card(f"AJ, zeros at {first}", adjustment(put(AJ, first, b"00000000")), zeros)
    for text in (b"20000101", b"20240229", b"20991231"):
        card(f"AJ, {text.decode()} at {first}", adjustment(put(AJ, first, text)), ADJUSTED)
    for text in (b"00000001", b"10000000", b"19991231", b"20230229", b"20231301", b"21000101"):
        card(f"AJ, 8 at {first}: {text.decode()}", adjustment(put(AJ, first, text)), f"R 8 3 {first}")
    for text in (b"/0231114", b"2023111:", b"        ", b"0000000 ", b" 0000000", b"2023    "):
        card(f"AJ, 7 at {first}: '{text.decode()}'", adjustment(put(AJ, first, text)), f"R 7 3 {first}")
    card(f"AJ, 7 before 8 at {first}", adjustment(put(AJ, first, b"9999999x")), f"R 7 3 {first}")
for text in (b"000000", b"235959"):
    card("AJ, %s is a time" % text.decode(), adjustment(put(AJ, 60, text)), ADJUSTED)
for text in (b"240000", b"236000", b"235960"):
    card("AJ, 8 at 60: %s" % text.decode(), adjustment(put(AJ, 60, text)), "R 8 3 60")
for text in (b"/01500", b"10150:", b"      ", b"00000 ", b"99999x"):
    card("AJ, 7 at 60: '%s'" % text.decode(), adjustment(put(AJ, 60, text)), "R 7 3 60")

# The closed sets: launch type, capture, type of adjustment
for launch_type in (b"0", b"1", b"2"):
    card("AJ, launch type %s" % launch_type.decode(), adjustment(put(AJ, 66, launch_type)), ADJUSTED)
for capture in (b"1", b"2", b"3", b"4", b"5", b"6", b"7", b"9"):
    card("AJ, capture %s" % capture.decode(), adjustment(put(AJ, 75, capture)), ADJUSTED)
card("AJ, 8 at 75: capture 8 of a debit", file_of((2, 8050, CV, put(DEBIT, 75, b"8"))), "R 8 4 75")
for column, values in ((66, (b"/", b"3", b"x", b" ", b"\xff")), (75, (b"0", b"8", b":", b"x", b" ")), (76, (b"0", b"3", b"x", b" ", b"\x00"))):
    for value in values:
        card(f"AJ, 8 at {column}, not 7: {value}", adjustment(put(AJ, column, value)), f"R 8 3 {column}")

# The card, which is optional: digits and stars, or nineteen blanks
for text in (b" " * 19, b"*" * 19, b"0" * 19, b"1234567890123456789", b"0000000123456789012", b"000123456****123456", b"0004111111111111112"):
    card("AJ, a card '%s'" % text.decode(), adjustment(put(AJ, 163, text)), ADJUSTED)
for text in (b" 004111111111111111", b"000411111111111111 ", b"0004111 11111111111", b"0".ljust(19), b"0".rjust(19), b"*".ljust(19), b"*".rjust(19),
             b"   4111111111111111", b"///4111111111111111", b"000411111111111111:", b")" * 19, b"+" * 19, b"x".ljust(19),
             b"\t" * 19, b"\x00" * 19):
    card(f"AJ, 7 at 163: {text}", adjustment(put(AJ, 163, text)), "R 7 3 163")

# ---- AN holds 32 to 126 and 160 to 255 -------------------------------------------------------------------------------------------------------------

# Each kind: the file with another record of it, the record, its number, what its file is answered; the first and last positions of its AN fields, and
# the columns of its closed sets and of its other fields.
KINDS = (
    ("A0", head, A0, 1, ACCEPTED, ((29, 58),), (3, 69), (9, 17, 23, 59, 63, 70)),
    ("L0", batch_head, L0, 2, ACCEPTED, (), (11,), (3, 13)),
    ("CV", sale, CV, 3, ACCEPTED, ((3, 17), (165, 175), (188, 190), (191, 193)), (44, 53, 54),
     (18, 30, 38, 45, 55, 66, 77, 88, 107, 109, 111, 123, 134, 145, 156, 159, 176, 194)),
    ("AJ", adjustment, AJ, 3, ADJUSTED, ((3, 17), (80, 109), (152, 162), (182, 184), (185, 187)), (66, 75, 76),
     (18, 30, 38, 40, 52, 60, 67, 77, 110, 121, 132, 143, 146, 163, 188)),
    ("L9", batch_end, L9, 4, ACCEPTED, (), (), (3, 9, 23)),
    ("A9", end, A9, 5, ACCEPTED, (), (), (3, 9)),
)
TEXT, NO_TEXT = (b"\x7e", b"\xa0", b"\xad", b"\xff"), (b"\x7f", b"\x9f")  # 126, 160, 173, 255; 127, 159
for kind, file, right, place, accepted, texts, sets, others in KINDS:
    for first, last in texts:
        for position in (first, last):
            for byte in TEXT:
                card(f"{kind}, byte {byte[0]} at {position}", file(put(right, position, byte)), accepted)
            for byte in NO_TEXT:
                card(f"{kind}, 7 at {first}: byte {byte[0]} at {position}", file(put(right, position, byte)), f"R 7 {place} {first}")
    for byte in TEXT + NO_TEXT:
        card(f"{kind}, 4: byte {byte[0]} in the kind", file(put(right, 2, byte)), f"R 4 {place} 1")
        for column in sets:
            card(f"{kind}, 8 at {column}: byte {byte[0]} is in no closed set", file(put(right, column, byte)), f"R 8 {place} {column}")
        for column in others:
            card(f"{kind}, 7 at {column}: byte {byte[0]} is no digit", file(put(right, column, byte)), f"R 7 {place} {column}")

# Names as they are written in Latin-1, a byte for each letter. In UTF-8 a letter has two bytes, which are judged like any others.
NAMED = put(A0, 29, "ESTAÇÕES DE SÃO JOÃO".encode("latin-1"))
ACCENTED = put(CV, 3, "CONCEIÇÃO Nº 7".encode("latin-1"))
ACCENTED_AJ = put(put(AJ, 3, "CONCEIÇÃO Nº 7".encode("latin-1")), 80, "LANÇAMENTO DE BÔNUS DO MÊS".encode("latin-1"))
card("accents in the header's name", head(NAMED), ACCEPTED)
card("accents in a store", sale(ACCENTED), ACCEPTED)
card("accents in an adjustment", adjustment(ACCENTED_AJ), ADJUSTED)
HIGH = bytes(range(160, 256))
card("every byte from 160 on", file_of((4, 20975, put(CV, 3, HIGH[:15]), put(CV, 3, HIGH[15:30]), put(put(AJ, 3, HIGH[30:45]), 80, HIGH[45:75]),
                                        put(DEBIT, 80, HIGH[66:]))), "A 20231115 000042 8 1 0 0 0 0 2 20000 500 19500 1 2925 1 1950")
card("UTF-8, both bytes from 160 on", head(put(A0, 29, "é".encode("utf-8"))), ACCEPTED)
card("UTF-8, the second byte below 160", head(put(A0, 29, "É".encode("utf-8"))), "R 7 1 29")
card("an accent and byte 159", sale(put(ACCENTED, 17, b"\x9f")), "R 7 3 3")
card("byte 159 before the NSU's letter", sale(put(CV, 17, b"\x9f" b"x")), "R 7 3 3")
card("an accent, and then the NSU's letter", sale(put(CV, 17, b"\xe9" b"x")), "R 7 3 18")
card("accents, and the fault of a later record", whole(NAMED, L0, ACCENTED, L9, put(A9, 3, b"000006")), "R 11 5 3")

# ---- Adjustments: what the trailers cover, and what is answered -----------------------------------------------------------------------------------

MIXED = "A 20231115 000042 7 1 0 0 0 0 1 10000 250 9750 1 2925 1 1950"
card("a sale, a credit and a debit", file_of((3, 10975, CV, AJ, DEBIT)), MIXED)
card("in another order", file_of((3, 10975, AJ, DEBIT, CV)), MIXED)
card("below zero on the way is no fault", file_of((3, 10975, DEBIT, AJ, CV)), MIXED)
for launch_type in (b"0", b"2"):
    card("launch type %s of adjustments counts and sums" % launch_type.decode(),
         file_of((3, 10975, CV, put(AJ, 66, launch_type), put(DEBIT, 66, launch_type))), MIXED)
card("a sale and a debit", file_of((2, 8050, CV, DEBIT)), "A 20231115 000042 6 1 0 0 0 0 1 10000 250 9750 0 0 1 1950")
card("a credit without a sale behind it", adjustment(put(put(put(AJ, 18, b"0" * 12), 30, b"0" * 8), 163, b" " * 19)), ADJUSTED)
card("L9 counts what it has, not CV alone", file_of((1, 10975, CV, AJ, DEBIT)), "R 11 6 3")
card("L9 counts what it has, not AJ alone", file_of((2, 10975, CV, AJ, DEBIT)), "R 11 6 3")
card("L9's count before its sum", file_of((1, 10000, CV, AJ, DEBIT)), "R 11 6 3")
card("A9 counts every record, adjustments too", whole(A0, L0, AJ, put(L9, 9, b"00000000002925"), put(A9, 3, b"000004")), "R 11 5 3")
for name, total in (("the adjustments' gross", 11000), ("the credit's gross", 11050), ("the debit's gross", 10925), ("the debit added", 14875),
                    ("no debit", 12925), ("no credit", 8050), ("no adjustment", 10000), ("the credit subtracted", 5125), ("each for the other", 9025),
                    ("the sale's net", 10725), ("one more", 10976), ("one less", 10974)):
    card(f"L9's sum: {name}", file_of((3, total, CV, AJ, DEBIT)), "R 11 6 9")
card("L9's sum: AJ's gross alone", file_of((1, 3000, AJ)), "R 11 4 9")
card("an instalment and a debit", file_of((2, 2050, ONE_OF_1, DEBIT)), "A 20231115 000042 6 1 0 0 0 0 1 4000 100 3900 0 0 1 1950")
EVEN = put(AJ, 76, b"2")  # a debit of 2925, and one of 2926
OVER = put(EVEN, 110, b"00000002926" b"00000000000" b"00000002926")
card("a sum of zero", file_of((2, 0, AJ, EVEN)), "A 20231115 000042 6 1 0 0 0 0 0 0 0 0 1 2925 1 2925")
card("a sum of zero, the debit first", file_of((2, 0, EVEN, AJ)), "A 20231115 000042 6 1 0 0 0 0 0 0 0 0 1 2925 1 2925")
for total in (0, 1, 99999999999999, 5851, 2925, 2926):
    card(f"one below zero equals no trailer, not {total}", file_of((2, total, AJ, OVER)), "R 11 5 9")
for total in (0, 1950, 99999999998050):
    card(f"a debit alone equals no trailer, not {total}", file_of((1, total, DEBIT)), "R 11 4 9")
NOTHING = put(AJ, 110, b"00000000000" b"00000000000" b"00000000000")
card("a credit of nothing", file_of((1, 0, NOTHING)), "A 20231115 000042 5 1 0 0 0 0 0 0 0 0 1 0 0 0")
card("a debit of nothing", file_of((1, 0, put(NOTHING, 76, b"2"))), "A 20231115 000042 5 1 0 0 0 0 0 0 0 0 0 0 1 0")
card("a net of nothing", file_of((1, 0, put(AJ, 110, b"00000003000" b"00000003000" b"00000000000"))), "A 20231115 000042 5 1 0 0 0 0 0 0 0 0 1 0 0 0")
TOP_AJ = put(AJ, 110, b"99999999999" b"00000000000" b"99999999999")
card("the largest adjustment", file_of((1, 99999999999, TOP_AJ)), "A 20231115 000042 5 1 0 0 0 0 0 0 0 0 1 99999999999 0 0")
# 1001 credits of 99999999999 and two debits: 100099999998999, fifteen digits, less 199999999998.
card("fifteen digits on the way are no fault", file_of((1003, 99899999999001, *[TOP_AJ] * 1001, *[put(TOP_AJ, 76, b"2")] * 2)),
     "A 20231115 000042 1007 1 0 0 0 0 0 0 0 0 1001 100099999998999 2 199999999998")

# Several batches, each of which starts anew
card("a batch of each", file_of((1, 10000, CV), (1, 2925, AJ), (2, 8050, CV, DEBIT)), "A 20231115 000042 12 3 0 0 0 0 2 20000 500 19500 1 2925 1 1950")
card("what is taken in a batch is not taken in the next", file_of((2, 8050, CV, DEBIT), (1, 2925, AJ)),
     "A 20231115 000042 9 2 0 0 0 0 1 10000 250 9750 1 2925 1 1950")
card("L9 counts the adjustments of its own batch", file_of((2, 8050, CV, DEBIT), (2, 2925, AJ)), "R 11 8 3")
for total in (975, 10975, 8050):
    card(f"L9 sums its own batch, not to {total}", file_of((2, 8050, CV, DEBIT), (1, total, AJ)), "R 11 8 9")
for total in (0, 1950, 8050):
    card(f"no other batch makes up for a debit, not {total}", file_of((1, 10000, CV), (1, total, DEBIT)), "R 11 7 9")
card("a batch of nothing behind adjustments", file_of((3, 10975, CV, AJ, DEBIT), (0, 0)),
     "A 20231115 000042 9 2 0 0 0 0 1 10000 250 9750 1 2925 1 1950")

# ---- Forecasts and settled sales: launch type 0, and 1 and 2 ------------------------------------------------------------------------------------------

card("launch type 0 is forecast", sale(AHEAD), FORECAST)
card("launch type 1 is settled", sale(CV), ACCEPTED)
card("launch type 2 is settled", sale(ADVANCED), ACCEPTED)
# A sale of 4000 = 100 + 3900, and one of 500 = 0 + 500.
SMALLER, SMALL = put(CV, 55, b"00000004000" b"00000000100" b"00000003900"), put(CV, 55, b"00000000500" b"00000000000" b"00000000500")
ONE_OF_EACH = "A 20231115 000042 7 1 1 4000 100 3900 2 10500 250 10250 0 0 0 0"
EARLY, LATE = put(SMALLER, 44, b"0"), put(SMALL, 44, b"2")
for first, second, third in ((EARLY, CV, LATE), (EARLY, LATE, CV), (CV, EARLY, LATE), (CV, LATE, EARLY), (LATE, EARLY, CV), (LATE, CV, EARLY)):
    order = ", ".join(one[43:44].decode() for one in (first, second, third))
    card(f"one of each launch type: {order}", file_of((3, 14500, first, second, third)), ONE_OF_EACH)
card("a sale as forecast and when paid", file_of((2, 20000, AHEAD, CV)), "A 20231115 000042 6 1 1 10000 250 9750 1 10000 250 9750 0 0 0 0")
card("the same in two batches", file_of((1, 10000, AHEAD), (1, 10000, CV)), "A 20231115 000042 8 2 1 10000 250 9750 1 10000 250 9750 0 0 0 0")
card("a batch of forecasts alone", file_of((2, 14000, AHEAD, EARLY), (1, 10000, CV)), "A 20231115 000042 9 2 2 14000 350 13650 1 10000 250 9750 0 0 0 0")
card("a sale between forecasts", file_of((3, 24000, AHEAD, CV, EARLY), (1, 500, LATE)), "A 20231115 000042 10 2 2 14000 350 13650 2 10500 250 10250 0 0 0 0")
card("no settled sale", file_of((2, 14000, AHEAD, EARLY)), "A 20231115 000042 6 1 2 14000 350 13650 0 0 0 0 0 0 0 0")

# An instalment's amounts go to its set, not the sale's
card("a forecast of an instalment", file_of((1, 4000, put(ONE_OF_1, 44, b"0"))), "A 20231115 000042 5 1 1 4000 100 3900 0 0 0 0 0 0 0 0")
card("an advanced instalment", file_of((1, 4000, put(ONE_OF_1, 44, b"2"))), "A 20231115 000042 5 1 0 0 0 0 1 4000 100 3900 0 0 0 0")
card("three instalments: paid, advanced, forecast", file_of((3, 30000, FIRST_OF_3, put(SECOND_OF_3, 44, b"2"), put(THIRD_OF_3, 44, b"0"))),
     "A 20231115 000042 7 1 1 9999 250 9749 2 20001 500 19501 0 0 0 0")
card("three instalments: paid, and two forecast", file_of((3, 30000, FIRST_OF_3, put(SECOND_OF_3, 44, b"0"), put(THIRD_OF_3, 44, b"0"))),
     "A 20231115 000042 7 1 2 19998 500 19498 1 10002 250 9752 0 0 0 0")
card("a forecast instalment, and L9 with the sale's amount", file_of((1, 10000, put(ONE_OF_1, 44, b"0"))), "R 11 4 9")

# L9 and A9 go by all launch types together
for name, total in (("the settled alone", 10500), ("the forecasts alone", 4000), ("the advanced alone", 500), ("no advanced", 14000), ("nothing", 0)):
    card(f"L9's sum: {name}", file_of((3, total, EARLY, CV, LATE)), "R 11 6 9")
for name, count in (("the settled alone", 2), ("the forecasts alone", 1), ("nothing", 0)):
    card(f"L9's count: {name}", file_of((count, 14500, EARLY, CV, LATE)), "R 11 6 3")
card("A9 without the forecast", whole(A0, L0, AHEAD, L9, put(A9, 3, b"000004")), "R 11 5 3")
card("a batch of forecasts, and L9 of nothing", file_of((0, 0, AHEAD)), "R 11 4 3")

# A forecast keeps all other rules
card("a forecast whose amounts disagree", sale(put(AHEAD, 77, b"00000009751")), "R 10 3 77")
card("a forecast with a wrong number", sale(numbered(AHEAD, 4)), "R 9 3 194")
card("the largest forecast", file_of((1, 99999999999, put(TOP, 44, b"0"))), "A 20231115 000042 5 1 1 99999999999 0 99999999999 0 0 0 0 0 0 0 0")
# 500 forecasts and 500 settled sales of 99999999999.
card("a thousand of the largest, every second a forecast", file_of((1000, 99999999999000, *[put(TOP, 44, b"0"), TOP] * 500)),
     "A 20231115 000042 1004 1 500 49999999999500 0 49999999999500 500 49999999999500 0 49999999999500 0 0 0 0")

# Adjustments are in neither set, whatever their launch type
for launch_type in (b"0", b"1", b"2"):
    card("a forecast, and adjustments of launch type %s" % launch_type.decode(),
         file_of((3, 10975, AHEAD, put(AJ, 66, launch_type), put(DEBIT, 66, launch_type))), "A 20231115 000042 7 1 1 10000 250 9750 0 0 0 0 1 2925 1 1950")

# ---- Record by record --------------------------------------------------------------------------------------------------------------------------

R = [A0, L0, CV, L9, A9]

feed("no call", [])
feed("no call, edition 3", [], edition=3)
feed("no call, edition 1", [], edition=1)
feed("a close before any record", [CLOSE], "R 12 1 0")
feed("a close before any record, twice, and a record", [CLOSE, CLOSE, A0], "R 12 1 0", "R 12 1 0", "R 12 1 0")
feed("five records, not closed", R, "-", "-", "-", "-", "-")
feed("five records, closed", R + [CLOSE], "-", "-", "-", "-", "-", ACCEPTED)
feed("closed twice: the same answer", R + [CLOSE, CLOSE, CLOSE], "-", "-", "-", "-", "-", ACCEPTED, ACCEPTED, ACCEPTED)
feed("a record after an accepted close is 13, for good", R + [CLOSE, A0, CLOSE, A9, b""],
     "-", "-", "-", "-", "-", ACCEPTED, "R 13 6 0", "R 13 6 0", "R 13 6 0", "R 13 6 0")
feed("a record after two accepted closes", R + [CLOSE, CLOSE, L0, CLOSE], "-", "-", "-", "-", "-", ACCEPTED, ACCEPTED, "R 13 6 0", "R 13 6 0")
feed("a record after A9 is 13, for good", R + [A9, CLOSE, A0], "-", "-", "-", "-", "-", "R 13 6 0", "R 13 6 0", "R 13 6 0")
feed("13 before 4: an empty record after A9", R + [b"", CLOSE], "-", "-", "-", "-", "-", "R 13 6 0", "R 13 6 0")
feed("13: a record with an LF after A9", R + [b"XX\n"], "-", "-", "-", "-", "-", "R 13 6 0")
feed("no batch", [A0, b"A9" b"000002" b"000002", CLOSE], "-", "-", "A 20231115 000042 2 0 0 0 0 0 0 0 0 0 0 0 0 0")
feed("closed behind A0, and L0 after it", [A0, CLOSE, L0, CLOSE], "-", "R 12 2 0", "R 12 2 0", "R 12 2 0")
feed("closed behind L0", [A0, L0, CLOSE], "-", "-", "R 12 3 0")
feed("closed behind CV", [A0, L0, CV, CLOSE], "-", "-", "-", "R 12 4 0")
feed("closed behind L9", [A0, L0, CV, L9, CLOSE], "-", "-", "-", "-", "R 12 5 0")
for edition in (0, 3, 255):
    feed(f"edition {edition}", R + [CLOSE], *["R 1 0 0"] * 6, edition=edition)
feed("edition 0, closed at once", [CLOSE, CLOSE], "R 1 0 0", "R 1 0 0", edition=0)
feed("edition 1, and records after the close", R + [CLOSE, CLOSE, A0, b"", CLOSE], *["R 22 0 0"] * 10, edition=1)
feed("edition 1, closed at once, and a record", [CLOSE, CLOSE, A0], *["R 22 0 0"] * 3, edition=1)
feed("edition 1, an empty record, a record with an LF, and A9", [b"", b"XX\n", A9, CLOSE], *["R 22 0 0"] * 4, edition=1)
feed("a refusal stays: A0 numbered 000002, then the right five", [numbered(A0, 2)] + R + [CLOSE], *["R 9 1 70"] * 7)
feed("a refusal stays: another fault later", [A0, L0, put(CV, 54, b"0"), b"", b"XX", CLOSE], "-", "-", *["R 8 3 54"] * 4)
feed("no answer looks ahead: A9 is wrong", R[:4] + [put(A9, 3, b"000004"), CLOSE], "-", "-", "-", "-", "R 11 5 3", "R 11 5 3")
feed("CV numbered 000004", [A0, L0, put(CV, 194, b"000004"), CLOSE], "-", "-", "R 9 3 194", "R 9 3 194")
feed("capture 7 under edition 1", [A0, L0, put(CV, 54, b"7")], *["R 22 0 0"] * 3, edition=1)
feed("capture 7 under edition 2", [A0, L0, put(CV, 54, b"7")], "-", "-", "-")
feed("10", [A0, L0, put(CV, 87, b"1"), L9], "-", "-", "R 10 3 77", "R 10 3 77")
feed("an empty record", [b"", A0], "R 4 1 1", "R 4 1 1")
feed("one byte", [b"C"], "R 4 1 1")
for kind in (b"CP", b"PF", b"CC"):
    feed("%s is not read here" % kind.decode(), [A0, L0, put(CV, 1, kind), CLOSE], "-", "-", "R 4 3 1", "R 4 3 1")
feed("5 before 6: a short CV first", [b"CV"], "R 5 1 0")
feed("6: A0 one short", [A0[:74]], "R 6 1 0")
feed("an LF alone is an unknown kind, not 3", [b"\n"], "R 4 1 1")
feed("a CR LF alone is an unknown kind", [CRLF], "R 4 1 1")
feed("an LF inside A0's name is 7, not 3", [put(A0, 40, b"\n"), CLOSE], "R 7 1 29", "R 7 1 29")
feed("a CR LF inside A0's name is 7, not 6", [put(A0, 40, CRLF)], "R 7 1 29")
feed("an LF inside a CV's card", [A0, L0, put(CV, 100, b"\n")], "-", "-", "R 7 3 88")
feed("an LF as the processing: a closed set gives 8", [put(A0, 69, b"\n")], "R 8 1 69")
feed("an LF inside a CV at a wrong place", [A0, put(numbered(CV, 2), 10, b"\n")], "-", "R 5 2 0")
feed("a CR at the end is one byte more", [A0 + b"\r"], "R 6 1 0")
feed("a CR LF at the end is two bytes more", [A0 + CRLF], "R 6 1 0")
feed("an LF at the end is one byte more", [A0, L0 + b"\n"], "-", "R 6 2 0")
feed("two records with their line ends, as one", [whole(A0, L0)], "R 6 1 0")
feed("a CR as the last byte of A0's NSEQ", [put(A0, 75, b"\r")], "R 7 1 70")
feed("1A as a record", [A0, b"\x1a"], "-", "R 4 2 1")
feed("two batches", R[:4] + [L0_5, L9_6, A9_OF_7, CLOSE], *["-"] * 7, "A 20231115 000042 7 2 0 0 0 0 1 10000 250 9750 0 0 0 0")
feed("three instalments", [A0, L0, FIRST_OF_3, SECOND_OF_3, THIRD_OF_3, L9_OF_3, A9_OF_7, CLOSE], *["-"] * 7,
     "A 20231115 000042 7 1 0 0 0 0 3 30000 750 29250 0 0 0 0")


def fed(file):
    """The records of a file, and a close."""
    return file.split(CRLF)[:-1] + [CLOSE]


feed("a forecast", fed(sale(AHEAD)), *["-"] * 5, FORECAST)
feed("one of each launch type", fed(file_of((3, 14500, EARLY, CV, LATE))), *["-"] * 7, ONE_OF_EACH)
feed("one of each, closed twice", fed(file_of((3, 14500, LATE, EARLY, CV))) + [CLOSE], *["-"] * 7, ONE_OF_EACH, ONE_OF_EACH)
feed("L9's sum: the settled alone", fed(file_of((3, 10500, EARLY, CV, LATE))), *["-"] * 5, *["R 11 6 9"] * 3)
feed("a batch of forecasts, and one of the sale", fed(file_of((1, 10000, AHEAD), (1, 10000, CV))), *["-"] * 8,
     "A 20231115 000042 8 2 1 10000 250 9750 1 10000 250 9750 0 0 0 0")
feed("an adjustment", fed(adjustment(AJ)), *["-"] * 5, ADJUSTED)
feed("an adjustment with a blank card", fed(adjustment(put(AJ, 163, b" " * 19))), *["-"] * 5, ADJUSTED)
feed("a sale, a credit and a debit", fed(file_of((3, 10975, CV, AJ, DEBIT))), *["-"] * 7, MIXED)
feed("a debit first: below zero on the way", fed(file_of((3, 10975, DEBIT, AJ, CV))), *["-"] * 7, MIXED)
feed("a sum of zero", fed(file_of((2, 0, EVEN, AJ))), *["-"] * 6, "A 20231115 000042 6 1 0 0 0 0 0 0 0 0 1 2925 1 2925")
feed("a sum below zero is told at the L9", fed(file_of((2, 1, AJ, OVER))), *["-"] * 4, *["R 11 5 9"] * 3)
feed("a batch of each", fed(file_of((1, 10000, CV), (1, 2925, AJ), (2, 8050, CV, DEBIT))), *["-"] * 12,
     "A 20231115 000042 12 3 0 0 0 0 2 20000 500 19500 1 2925 1 1950")
feed("AJ's gross in the sum", fed(file_of((1, 3000, AJ))), *["-"] * 3, *["R 11 4 9"] * 3)
feed("AJ first", [numbered(AJ, 1), A0, CLOSE], *["R 5 1 0"] * 3)
feed("AJ behind A0, then the right records", [A0, numbered(AJ, 2), L0, AJ, CLOSE], "-", *["R 5 2 0"] * 4)
feed("AJ between batches", R[:4] + [numbered(AJ, 5), CLOSE], *["-"] * 4, *["R 5 5 0"] * 2)
feed("AJ after A9", R + [numbered(AJ, 6), CLOSE], *["-"] * 5, *["R 13 6 0"] * 2)
feed("AJ after an accepted close", fed(adjustment(AJ)) + [AJ, CLOSE], *["-"] * 5, ADJUSTED, "R 13 6 0", "R 13 6 0")
feed("closed behind an AJ", [A0, L0, AJ, CLOSE], "-", "-", "-", "R 12 4 0")
feed("AJ as wide as CV", [A0, L0, put(CV, 1, b"AJ"), CLOSE], "-", "-", "R 6 3 0", "R 6 3 0")
feed("AJ, capture 7", [A0, L0, put(AJ, 75, b"7")], "-", "-", "-")
feed("AJ, capture 8", [A0, L0, put(AJ, 75, b"8"), CLOSE], "-", "-", "R 8 3 75", "R 8 3 75")
feed("AJ, zeros in the date that is not optional", [A0, L0, put(AJ, 52, b"00000000"), CLOSE], "-", "-", "R 8 3 52", "R 8 3 52")
feed("AJ, an LF inside its description is 7, not 3", [A0, L0, put(AJ, 90, b"\n")], "-", "-", "R 7 3 80")
feed("AJ, a blank card with an LF", [A0, L0, put(AJ, 163, b" " * 18 + b"\n")], "-", "-", "R 7 3 163")
feed("AJ, a CR LF at its end is two bytes more", [A0, L0, AJ + CRLF], "-", "-", "R 6 3 0")
feed("AJ, 10", [A0, L0, put(AJ, 142, b"6"), L9, CLOSE], "-", "-", *["R 10 3 132"] * 3)
feed("accents in the header's name and in a store", fed(whole(NAMED, L0, ACCENTED, L9, A9)), *["-"] * 5, ACCEPTED)
feed("accents in an adjustment", fed(adjustment(ACCENTED_AJ)), *["-"] * 5, ADJUSTED)
feed("byte 159 in the header's name", [put(NAMED, 58, b"\x9f"), L0, CLOSE], *["R 7 1 29"] * 3)
feed("an accent in the card", [A0, L0, put(CV, 88, b"\xe9"), CLOSE], "-", "-", *["R 7 3 88"] * 2)

# ---- What no file of cases can say: editions of more than a byte, and states far into a file ------------------------------------------------

LIMITS = [
    ("edition 0", "R 1 0 0"),
    ("edition 1", "R 22 0 0"),
    ("edition 2", ACCEPTED),
    ("edition 3", "R 1 0 0"),
    ("edition 258", "R 1 0 0"),
    ("edition 2^32 + 2", "R 1 0 0"),
    ("edition 2^64 - 1", "R 1 0 0"),
    ("record 999999", "-"),
    ("record 1000000", "R 9 1000000 23"),
    ("and for ever", "R 9 1000000 23"),
    ("no number above 2^64 - 1", "R 9 18446744073709551615 13"),
]

# ---- Writing them ------------------------------------------------------------------------------------------------------------------------------


def call(record):
    return b"\xff\xff\xff\xff" if record is CLOSE else number(len(record)) + record


def main():
    write_cases("card_cases", "own.cases", (bytes([edition]) + number(len(file)) + file for _, edition, file, _ in CARD))
    own = [(name, line) for name, _, _, line in CARD]
    write_stdout("card_cases", [
        ("own", own),
        ("outside, in chunks", outside("card_cases")),
        ("own, in chunks", own),
        ("own, cut at every place", cut_at_every_place([(name, file, line) for name, _, file, line in CARD], 400)),
        ("outside, record by record", outside("card_cases", ", record by record")),
        ("own, record by record", [(name, line) for name, _, _, line in FEED]),
        ("limits", [(name, f"{name}: {line}") for name, line in LIMITS]),
        ("outside, fields", outside("card_cases", ", fields")),
        ("own, fields", field_cases.LINES)])
    write_cases("card_cases", "own_fields.cases", field_cases.STORED)
    fed = [(edition, b"".join(map(call, calls))) for _, edition, calls, _ in FEED]
    write_cases("card_cases", "own_fed.cases", (bytes([edition]) + number(len(calls)) + calls for edition, calls in fed))


if __name__ == "__main__":
    run(main, __doc__)

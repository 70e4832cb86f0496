#!/usr/bin/env python3
"""Our own cases of payroll files, written by hand from document 01; request Q-2 of document 02 leaves them as they are.

    tests/payroll_cases.py           write the files below
    tests/payroll_cases.py --list    and print where in `stdout` each case stands, its name and its answer

It writes crates/payroll_cases/data/own.cases (length (4 bytes), the file) and what stands from the line `own` on in crates/payroll_cases/stdout: the
lines of whole files, those of `made`, which are too long to be kept and which the program makes itself (src/made.rt), or makes and takes record by record
(src/long_batch.rt), and the lines of whole files again for the same files in chunks, where the outside cases' lines are repeated too.

A case is a name, how its file is built, and the line that document 01 gives it. The lines are written here by hand: nothing in this script
computes an answer, and no program under test was asked for one. Where a program prints another line, document 01 decides which is right.

A line is `A records batches payments amount` or `R number record column`.
Behind the answer of a file that is cut in two at every place stands how many cuts have that answer: as many as the file has bytes, and one.
"""
from records import CRLF, put
from records import whole as lines
from stored import cut_at_every_place, number, outside, run, write_cases, write_stdout

# ---- How a file is built -------------------------------------------------------------------------------------------------------------------


def record(front, *fields):
    """A record of 240 bytes: bank, batch and kind in front, and fields at their positions; blanks elsewhere."""
    made = front.ljust(240)
    for position, text in fields:
        made = put(made, position, text)
    return made


H = record(b"42200000", (143, b"1"), (144, b"15112023"))
HZ = put(H, 143, b"2")
B1 = record(b"42200011")
PA = record(b"42200013" b"00001" b"A", (94, b"30112023"), (120, b"000000000123456"))
PB = record(b"42200013" b"00002" b"B")
PZ = record(b"42200013" b"00003" b"Z")
T1 = record(b"42200015", (18, b"000003"), (24, b"000000000000123456"))
F = record(b"42299999", (18, b"000001"), (24, b"000005"))

END = b"\x1a"


def whole(*records):
    return lines(*records) + END


def detail(number, segment=b"A", batch=1, amount=123456):
    """A detail with its numbers."""
    made = record(b"422%04d3%05d%s" % (batch, number, segment))
    return put(put(made, 94, b"30112023"), 120, b"%015d" % amount) if segment == b"A" else made


def batch_header(batch):
    return record(b"422%04d1" % batch)


def batch_trailer(batch, records, amount):
    return record(b"422%04d5" % batch, (18, b"%06d" % records), (24, b"%018d" % amount))


def trailer(batches, records):
    return record(b"42299999", (18, b"%06d" % batches), (24, b"%06d" % records))


def header(h):
    return whole(h, B1, PA, T1, F)


def opened(b1):
    return whole(H, b1, PA, T1, F)


def paid(pa):
    return whole(H, B1, pa, T1, F)


def closed(t1):
    return whole(H, B1, PA, t1, F)


def ended(f):
    return whole(H, B1, PA, T1, f)


FIVE = whole(H, B1, PA, T1, F)
# Each record of it: its name, the file with another in its place, the record, and its number.
RECORDS = (("header", header, H, 1), ("batch header", opened, B1, 2), ("detail", paid, PA, 3), ("batch trailer", closed, T1, 4), ("trailer", ended, F, 5))
ACCEPTED = "A 5 1 1 123456"

CASES = []
# The files that the program makes, in src/main.rt's order.
MADE = [
    ("1,000 payments of 999999999999999: a sum of 18 digits", "A 1004 1 1000 999999999999999000"),
    ("1,001 of them, and the sum modulo 10^18", "R 11 1004 24"),
    ("18,447 of them, and the sum modulo 2^64", "R 11 18450 24"),
    ("an amount of 10^19 - 1 over eleven batches", "A 10025 11 10001 9999999999999999999"),
    ("an amount of 10^19", "R 11 10025 0"),
    ("an amount of 10^19, before 12", "R 11 10025 0"),
    ("an amount of 10^19, behind a wrong count of records", "R 11 10025 24"),
    ("an amount past 2^64", "R 11 19040 0"),
    ("9,998 batches", "A 19998 9998 0 0"),
    ("9,999 batches", "R 9 19998 4"),
]
# And those that it makes and takes record by record: "Detail number 9-13, from 1 in each batch, rising by one (9)". Behind the two headers the n-th detail
# is record n + 2, and each is a payment of one centavo.
MADE_BY_RECORD = [
    ("99,999 details in a batch, as many as five digits tell", "A 100003 1 99999 99999"),
    ("the 100,000th detail of a batch", "R 9 100002 9"),
]


def case(name, file, line):
    CASES.append((name, file, line))


# ---- What is accepted ----------------------------------------------------------------------------------------------------------------------

case("one payment", FIVE, "A 5 1 1 123456")
case("no batch", whole(H, trailer(0, 2)), "A 2 0 0 0")
case("no batch in a return", whole(HZ, trailer(0, 2)), "A 2 0 0 0")
case("a batch with no detail", whole(H, B1, batch_trailer(1, 2, 0), trailer(1, 4)), "A 4 1 0 0")
case("two batches with no detail", whole(H, B1, batch_trailer(1, 2, 0), batch_header(2), batch_trailer(2, 2, 0), trailer(2, 6)), "A 6 2 0 0")
case("A with B", whole(H, B1, PA, PB, batch_trailer(1, 4, 123456), trailer(1, 6)), "A 6 1 1 123456")
case("A without B", whole(H, B1, PA, detail(2), batch_trailer(1, 4, 246912), trailer(1, 6)), "A 6 1 2 246912")
case("A, B, Z in a return", whole(HZ, B1, PA, PB, PZ, batch_trailer(1, 5, 123456), trailer(1, 7)), "A 7 1 1 123456")
case("A, Z in a return", whole(HZ, B1, PA, detail(2, b"Z"), batch_trailer(1, 4, 123456), trailer(1, 6)), "A 6 1 1 123456")
case("A, B, Z, A, Z, A, B in a return",
     whole(HZ, B1, PA, PB, PZ, detail(4), detail(5, b"Z"), detail(6), detail(7, b"B"), batch_trailer(1, 9, 370368), trailer(1, 11)),
     "A 11 1 3 370368")
case("the details of a second batch begin at 1 again",
     whole(H, B1, PA, T1, batch_header(2), detail(1, batch=2, amount=1), batch_trailer(2, 3, 1), trailer(2, 8)), "A 8 2 2 123457")
case("a payment of nothing", whole(H, B1, detail(1, amount=0), batch_trailer(1, 3, 0), F), "A 5 1 1 0")
case("the largest payment", whole(H, B1, detail(1, amount=999999999999999), batch_trailer(1, 3, 999999999999999), F), "A 5 1 1 999999999999999")
case("B and Z hold no date and no amount that is read", whole(HZ, B1, PA, put(PB, 94, b"x" * 41), put(PZ, 94, b"x" * 41),
     batch_trailer(1, 5, 123456), trailer(1, 7)), "A 7 1 1 123456")
case("bytes 32 and 126 where nothing is read", header(put(put(H, 152, b" ~"), 9, b"~ ")), ACCEPTED)
case("letters where nothing is read: a trailer's 9-17 and 42-240", closed(put(put(T1, 9, b"x" * 9), 42, b"x" * 199)), ACCEPTED)
case("letters where nothing is read: the file trailer's 9-17 and 30-240", ended(put(put(F, 9, b"x" * 9), 30, b"x" * 211)), ACCEPTED)
for day in (b"01012000", b"31122099", b"29022024"):
    case("header date %s" % day.decode(), header(put(H, 144, day)), ACCEPTED)
    case("payment date %s" % day.decode(), paid(put(PA, 94, day)), ACCEPTED)

# ---- The end: 12, 13, 3 ----------------------------------------------------------------------------------------------------------------------

case("12: ends with its trailer's CR LF", FIVE[:-1], "R 12 6 0")
case("13: two bytes 1A", FIVE + END, "R 13 6 0")
case("13: another byte than 1A", FIVE[:-1] + b"x", "R 13 6 0")
case("13: an LF behind 1A", FIVE + b"\n", "R 13 6 0")
case("13: a CR LF behind 1A", FIVE + CRLF, "R 13 6 0")
case("13: a CR LF in place of 1A", FIVE[:-1] + CRLF, "R 13 6 0")
case("13: an LF in place of 1A, before 3", FIVE[:-1] + b"\n", "R 13 6 0")
case("13: a second file", FIVE + FIVE, "R 13 6 0")
case("13: a second file trailer, before 5", FIVE[:-1] + lines(F) + END, "R 13 6 0")
case("13: a short record behind the trailer, before 6", FIVE[:-1] + lines(b"x"), "R 13 6 0")
case("12: an empty file", b"", "R 12 1 0")
case("12: behind the header", lines(H), "R 12 2 0")
case("12: behind a batch header", lines(H, B1), "R 12 3 0")
case("12: behind A", lines(H, B1, PA), "R 12 4 0")
case("12: behind B", lines(H, B1, PA, PB), "R 12 5 0")
case("12: behind a batch trailer", lines(H, B1, PA, T1), "R 12 5 0")
case("3: 1A in place of a header", END, "R 3 1 0")
case("3: 1A before the file trailer", lines(H, B1, PA, T1) + END, "R 3 5 0")
case("3: no line end behind the file trailer", lines(H, B1, PA, T1) + F, "R 3 5 0")
case("3: no LF behind the file trailer's CR", lines(H, B1, PA, T1) + F + b"\r", "R 3 5 0")
case("3: an LF with no CR", H + b"\n" + lines(B1, PA, T1, F) + END, "R 3 1 0")
case("3: LF CR", H + b"\n\r" + lines(B1, PA, T1, F) + END, "R 3 1 0")
case("3: a lone LF", b"\n", "R 3 1 0")
case("3 before 6: an LF in the header", header(put(H, 60, b"\n")), "R 3 1 0")
case("3 before 4: an unknown kind with a lone LF", put(H, 8, b"7") + b"\n", "R 3 1 0")

# ---- 6, then 4, then 5, then 7 for a stray byte ------------------------------------------------------------------------------------------------

case("6: an empty record", lines(b""), "R 6 1 0")
case("6: one short", header(H[:239]), "R 6 1 0")
case("6: one wide", header(H + b" "), "R 6 1 0")
case("6: CR CR LF is one byte wider", header(H + b"\r"), "R 6 1 0")
case("6: CR LF inside a record cuts it short", header(put(H, 60, CRLF)), "R 6 1 0")
for name, file, right, place in RECORDS[1:]:
    case("6: a %s one short" % name, file(right[:239]), "R 6 %d 0" % place)
case("6 before 4: a short record of an unknown kind", header(put(H, 8, b"7")[:239]), "R 6 1 0")
case("6 before 4: seven bytes", lines(H[:7]), "R 6 1 0")
case("6 before 5: a wide batch header first", lines(B1 + b" "), "R 6 1 0")
case("6 before 7: a short header with a stray byte", header(put(H, 60, b"\x1f")[:239]), "R 6 1 0")
for kind in (b"2", b"4", b"6", b"7", b"8", b"A", b" ", b"\x00", b"\xff"):
    case("4: kind %r" % kind, header(put(H, 8, kind)), "R 4 1 8")
for segment in (b"C", b"a", b"Y", b" ", b"0", b"\x00"):
    case("4: segment %r" % segment, paid(put(PA, 14, segment)), "R 4 3 14")
case("4 before 5: an unknown kind in a batch", whole(H, B1, put(PA, 8, b"7")), "R 4 3 8")
case("4 before 5: an unknown segment outside a batch", whole(H, put(PA, 14, b"C")), "R 4 2 14")
case("4 before 7: an unknown segment and a stray byte before it", paid(put(put(PA, 14, b"C"), 2, b"\x1f")), "R 4 3 14")
case("position 14 tells no kind but of a detail", header(put(H, 14, b"C")), ACCEPTED)
case("5: a batch header first", whole(B1), "R 5 1 0")
case("5: A first", whole(PA), "R 5 1 0")
case("5: a batch trailer first", whole(T1), "R 5 1 0")
case("5: a file trailer first", whole(F), "R 5 1 0")
case("5: a second header", whole(H, H), "R 5 2 0")
case("5: A outside a batch", whole(H, PA), "R 5 2 0")
case("5: a batch trailer outside a batch", whole(H, T1), "R 5 2 0")
case("5: A behind a batch trailer", whole(H, B1, PA, T1, PA), "R 5 5 0")
case("5: a header behind a batch trailer", whole(H, B1, PA, T1, H), "R 5 5 0")
case("5: a batch header in a batch", whole(H, B1, batch_header(2)), "R 5 3 0")
case("5: a batch header behind A", whole(H, B1, PA, batch_header(2)), "R 5 4 0")
case("5: a file trailer in a batch", whole(H, B1, trailer(1, 3)), "R 5 3 0")
case("5: a file trailer behind A", whole(H, B1, PA, trailer(1, 4)), "R 5 4 0")
case("5: a header in a batch", whole(H, B1, PA, H), "R 5 4 0")
case("5: B behind the batch header", whole(H, B1, detail(1, b"B")), "R 5 3 0")
case("5: B behind B", whole(H, B1, PA, PB, detail(3, b"B")), "R 5 5 0")
case("5: B behind Z", whole(HZ, B1, PA, detail(2, b"Z"), detail(3, b"B")), "R 5 5 0")
case("5: B behind a batch trailer", whole(H, B1, PA, T1, PB), "R 5 5 0")
case("5: Z behind A, 143 is 1", whole(H, B1, PA, detail(2, b"Z")), "R 5 4 0")
case("5: Z behind B, 143 is 1", whole(H, B1, PA, PB, PZ), "R 5 5 0")
case("5: Z behind the batch header in a return", whole(HZ, B1, detail(1, b"Z")), "R 5 3 0")
case("5: Z behind Z in a return", whole(HZ, B1, PA, detail(2, b"Z"), detail(3, b"Z")), "R 5 5 0")
case("5: Z outside a batch in a return", whole(HZ, detail(1, b"Z")), "R 5 2 0")
case("5 before 7: B first in a batch, with a stray byte", whole(H, B1, put(detail(1, b"B"), 100, b"\x1f")), "R 5 3 0")
case("5 before 8: another bank's batch header first", whole(put(B1, 1, b"341")), "R 5 1 0")
case("7: byte 31", header(put(H, 240, b"\x1f")), "R 7 1 240")
case("7: byte 127", header(put(H, 9, b"\x7f")), "R 7 1 9")
case("7: byte 0", opened(put(B1, 100, b"\x00")), "R 7 2 100")
case("7: byte 255", closed(put(T1, 42, b"\xff")), "R 7 4 42")
# no accents: in the header's name, and at the end of each record
case("byte 126 in the header's name", header(put(H, 80, b"~")), ACCEPTED)
for byte in (b"\x7f", b"\x9f", b"\xa0", b"\xad", b"\xff"):
    case("7: byte %d in the header's name" % byte[0], header(put(H, 80, byte)), "R 7 1 80")
for name, file, right, place in RECORDS:
    case("7: byte 160, %s" % name, file(put(right, 240, b"\xa0")), "R 7 %d 240" % place)
case("7: a CR", ended(put(F, 30, b"\r")), "R 7 5 30")
case("7: the first of two stray bytes", header(put(put(H, 50, b"\t"), 40, b"\t")), "R 7 1 40")
case("7: a stray byte before the fields: another bank and byte 31 in 240", header(put(put(H, 1, b"341"), 240, b"\x1f")), "R 7 1 240")
case("7: a stray byte inside a field has the byte's column", header(put(H, 2, b"\x1f")), "R 7 1 2")
case("7: a stray byte inside a payment's amount", paid(put(PA, 130, b"\x00")), "R 7 3 130")
case("7: a stray byte behind a letter in the bank", header(put(put(H, 1, b"x"), 2, b"\x1f")), "R 7 1 2")

# ---- The fields, by position -------------------------------------------------------------------------------------------------------------------

# bank, before batch
for name, file, right, place in RECORDS:
    case("8: bank 341, %s" % name, file(put(right, 1, b"341")), "R 8 %d 1" % place)
    case("7 before 8: a letter in the bank, %s" % name, file(put(right, 1, b"34x")), "R 7 %d 1" % place)
    case("8: the bank before the batch, %s" % name, file(put(right, 1, b"341" b"0777")), "R 8 %d 1" % place)
    case("7: a letter in the batch, %s" % name, file(put(right, 7, b"x")), "R 7 %d 4" % place)
    case("7: the bank before a letter in the batch, %s" % name, file(put(right, 3, b"xx")), "R 7 %d 1" % place)
# the header: batch, 143, date
case("8: header, batch 0001", header(put(H, 4, b"0001")), "R 8 1 4")
case("8: header, batch 9999", header(put(H, 4, b"9999")), "R 8 1 4")
case("7: header, a letter in the batch before 143", header(put(put(H, 7, b"x"), 143, b"3")), "R 7 1 4")
case("8: header, batch before 143", header(put(put(H, 4, b"0001"), 143, b"3")), "R 8 1 4")
case("8: 143 is 0", header(put(H, 143, b"0")), "R 8 1 143")
case("8: 143 is 3", header(put(H, 143, b"3")), "R 8 1 143")
case("7: 143 is a letter", header(put(H, 143, b"x")), "R 7 1 143")
case("7: 143 is a blank", header(put(H, 143, b" ")), "R 7 1 143")
case("8: 143 before the date", header(put(H, 143, b"3" b"00000000")), "R 8 1 143")
case("7: 143 before the date", header(put(H, 143, b" " b"00000000")), "R 7 1 143")
case("7: a letter in the header's date", header(put(H, 151, b"x")), "R 7 1 144")
case("7 before 8: a letter in a day that is none", header(put(H, 144, b"9911202x")), "R 7 1 144")
for day in (b"00000000", b"20231115", b"29022023", b"31042023", b"32012023", b"00012023", b"01002023", b"01132023", b"31121999", b"01012100"):
    case("8: header date %s" % day.decode(), header(put(H, 144, day)), "R 8 1 144")
    case("8: payment date %s" % day.decode(), paid(put(PA, 94, day)), "R 8 3 94")
# the batch header: batch
case("9: batch header 0000", opened(put(B1, 4, b"0000")), "R 9 2 4")
case("9: batch header 0002", opened(put(B1, 4, b"0002")), "R 9 2 4")
case("9: batch header 9999", opened(put(B1, 4, b"9999")), "R 9 2 4")
case("9: the second batch header 0001", whole(H, B1, PA, T1, B1), "R 9 5 4")
case("9: the second batch header 0003", whole(H, B1, PA, T1, batch_header(3)), "R 9 5 4")
# a detail: batch, detail number, date, amount
case("9: A in batch 0002", paid(put(PA, 4, b"0002")), "R 9 3 4")
case("9: A with a wrong batch before its date 00000000", paid(put(put(PA, 4, b"0002"), 94, b"00000000")), "R 9 3 4")
case("9: a detail's batch before its number", paid(put(put(PA, 4, b"0002"), 9, b"00002")), "R 9 3 4")
case("9: a detail's batch before a letter in its number", paid(put(put(PA, 4, b"0002"), 9, b"0000x")), "R 9 3 4")
case("9: the first detail is 0", paid(put(PA, 9, b"00000")), "R 9 3 9")
case("9: the first detail is 2", paid(put(PA, 9, b"00002")), "R 9 3 9")
case("9: the second detail is 1 again", whole(H, B1, PA, PA), "R 9 4 9")
case("9: the second detail is 3", whole(H, B1, PA, detail(3)), "R 9 4 9")
case("9: B in batch 0002, before its number", whole(H, B1, PA, put(put(PB, 4, b"0002"), 9, b"00003")), "R 9 4 4")
case("9: Z in batch 0002, before its number", whole(HZ, B1, PA, PB, put(put(PZ, 4, b"0002"), 9, b"00004")), "R 9 5 4")
case("9: B is numbered as its A", whole(H, B1, PA, detail(1, b"B")), "R 9 4 9")
case("9: Z is numbered as its A", whole(HZ, B1, PA, detail(1, b"Z")), "R 9 4 9")
case("9: the second batch's first detail goes on", whole(H, B1, PA, T1, batch_header(2), detail(2, batch=2)), "R 9 6 9")
case("9: the second batch's detail has the first batch's number", whole(H, B1, PA, T1, batch_header(2), PA), "R 9 6 4")
case("7: a letter in a detail's number", paid(put(PA, 13, b"x")), "R 7 3 9")
case("7: a blank in B's number", whole(H, B1, PA, put(PB, 9, b" ")), "R 7 4 9")
case("9: the number before the date", paid(put(put(PA, 9, b"00002"), 94, b"00000000")), "R 9 3 9")
case("7: a letter in a payment's date", paid(put(PA, 94, b"x")), "R 7 3 94")
case("7: a letter in a detail's number before the date", paid(put(put(PA, 13, b"x"), 94, b"00000000")), "R 7 3 9")
case("7 before 8: a letter in a payment's day that is none", paid(put(PA, 94, b"9911202x")), "R 7 3 94")
case("7: a letter in the date before the amount", paid(put(put(PA, 94, b"x"), 120, b"x")), "R 7 3 94")
case("8: the date before the amount", paid(put(put(PA, 94, b"00000000"), 120, b"x")), "R 8 3 94")
case("7: a letter in the amount, first", paid(put(PA, 120, b"x")), "R 7 3 120")
case("7: a letter in the amount, last", paid(put(PA, 134, b"x")), "R 7 3 120")
case("7: a sign in the amount", paid(put(PA, 120, b"-")), "R 7 3 120")
case("119 and 135 are not of the amount", paid(put(put(PA, 119, b"x"), 135, b"x")), ACCEPTED)
case("93 and 102 are not of the date", paid(put(put(PA, 93, b"x"), 102, b"x")), ACCEPTED)
# a batch trailer: batch, count, sum
case("9: a batch trailer of batch 0002", closed(put(T1, 4, b"0002")), "R 9 4 4")
case("9: a batch trailer's batch before its count", closed(put(put(T1, 4, b"0002"), 18, b"000004")), "R 9 4 4")
case("7: a letter in a batch trailer's batch before its count", closed(put(put(T1, 7, b"x"), 18, b"000004")), "R 7 4 4")
case("11: a batch trailer's count before its sum", closed(put(put(T1, 18, b"000004"), 41, b"7")), "R 11 4 18")
case("11: a batch trailer without header and trailer", closed(put(T1, 18, b"000001")), "R 11 4 18")
case("11: a batch trailer with one record more", closed(put(T1, 18, b"000004")), "R 11 4 18")
case("11: a batch trailer with the file's records", closed(put(T1, 18, b"000005")), "R 11 4 18")
case("7: a letter in a batch trailer's count", closed(put(T1, 18, b"x")), "R 7 4 18")
case("11: the count before a letter in the sum", closed(put(put(T1, 18, b"000004"), 24, b"x")), "R 11 4 18")
case("7: a letter in the count before the sum", closed(put(put(T1, 18, b"x"), 24, b"9")), "R 7 4 18")
case("7: a letter in the sum", closed(put(T1, 41, b"x")), "R 7 4 24")
case("11: the sum and one more", closed(put(T1, 41, b"7")), "R 11 4 24")
case("11: the sum and one less", closed(put(T1, 41, b"5")), "R 11 4 24")
case("11: the sum is nothing", closed(put(T1, 24, b"000000000000000000")), "R 11 4 24")
case("11: the sum and 10^17 more", closed(put(T1, 24, b"1")), "R 11 4 24")
case("11: a second batch's trailer sums its own payments",
     whole(H, B1, PA, T1, batch_header(2), detail(1, batch=2), batch_trailer(2, 3, 246912)), "R 11 7 24")
case("11: a second batch's trailer counts its own records",
     whole(H, B1, PA, T1, batch_header(2), detail(1, batch=2), batch_trailer(2, 6, 123456)), "R 11 7 18")
case("11: B is counted", whole(H, B1, PA, PB, batch_trailer(1, 3, 123456)), "R 11 5 18")
# the file trailer: batch, batches, records
case("8: the file trailer's batch is 0001", ended(put(F, 4, b"0001")), "R 8 5 4")
case("8: the file trailer's batch is 9998", ended(put(F, 4, b"9998")), "R 8 5 4")
case("8: the file trailer's batch before its count", ended(put(put(F, 4, b"9998"), 18, b"000002")), "R 8 5 4")
case("7: a letter in the file trailer's batches", ended(put(F, 23, b"x")), "R 7 5 18")
case("11: the file trailer with no batch", ended(put(F, 18, b"000000")), "R 11 5 18")
case("11: the file trailer with two batches", ended(put(F, 18, b"000002")), "R 11 5 18")
case("7: a letter in the file trailer's batch before its count", ended(put(put(F, 7, b"x"), 18, b"000002")), "R 7 5 4")
case("7: a letter in the batches before the records", ended(put(put(F, 23, b"x"), 24, b"000006")), "R 7 5 18")
case("11: the batches before the records", ended(put(F, 18, b"000002" b"000006")), "R 11 5 18")
case("11: the batches before a letter in the records", ended(put(F, 18, b"000002" b"x")), "R 11 5 18")
case("7: a letter in the file trailer's records", ended(put(F, 29, b"x")), "R 7 5 24")
case("11: the file trailer without itself", ended(put(F, 24, b"000004")), "R 11 5 24")
case("11: the file trailer with one record more", ended(put(F, 24, b"000006")), "R 11 5 24")
case("11 before 12: the trailer is wrong, and there is no 1A", ended(put(F, 24, b"000006"))[:-1], "R 11 5 24")
case("11 before 13: the trailer is wrong, and there are two", ended(put(F, 24, b"000006")) + END, "R 11 5 24")
case("an earlier record before a later one", whole(H, B1, put(PA, 120, b"x"), T1[:239], F), "R 7 3 120")

# ---- Writing them ------------------------------------------------------------------------------------------------------------------------------


def main():
    write_cases("payroll_cases", "own.cases", (number(len(file)) + file for _, file, _ in CASES))
    own = [(name, line) for name, _, line in CASES]
    write_stdout("payroll_cases", [
        ("own", own),
        ("made", MADE),
        ("made, record by record", MADE_BY_RECORD),
        ("outside, in chunks", outside("payroll_cases")),
        ("own, in chunks", own),
        ("own, cut at every place", cut_at_every_place(CASES, 1000))])


if __name__ == "__main__":
    run(main, __doc__)

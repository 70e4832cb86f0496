#!/usr/bin/env python3
"""Our own cases of day sheets, written by hand from document 01 and requests Q-4, Q-5 and Q-11 of document 02.

    tests/sheet_cases.py           write the files below
    tests/sheet_cases.py --list    and print where in `stdout` each case stands, its name and its answer

It writes into crates/sheet_cases/data
    own_read.cases     sheets to read:        length (4 bytes), the bytes
    own_write1.cases   version 1 to write:    the output's length (4), then edition, date, movement, batches, sales, gross, discount, net (8 each)
    own_write2.cases   version 2 to write:    the same, the settled's, and then split, and sales, gross, discount, net of the forecast (8 each)
    own_convert.cases  sheets to convert:     the output's length (4), length (4), the bytes
    own_of_file.cases  sheets of card files:  edition (1), the output's length (4), length (4), the card file
and what stands behind the lines with these names in crates/sheet_cases/stdout. The outside cases stand before them, and stay.

A case is a name, its bytes or numbers, and the line that the papers give it. The lines are written here by hand, and so are the bytes that
an output holds after the call. No program under test was asked for an answer.

A line of a sheet to read is `A 1 edition date movement batches sales gross discount net`, or `A 2 edition date movement batches` and sales,
gross, discount, net of the settled, split, and those of the forecast, or `R number record column`; of a sheet to write or to convert, `A` or
`R number record column`, and the whole output in hex between brackets; of a file's sheet, the answer of the card file and that output.
"""
from records import A0, A9, ACCEPTED, ADJUSTED, ADVANCED, AHEAD, AJ, CV, DEBIT, FIVE, FORECAST, L0, L9, adjustment, file_of, put, sale, whole
from stored import number, output, run, write_cases, write_stdout

# ---- How a sheet is built ------------------------------------------------------------------------------------------------------------------

# Edition 2, 20231115, movement 000042, 1 batch, 1 sale, 10000 = 250 + 9750; in version 2 that sale is settled, and 2 are forecast, 5000 = 100 + 4900.
PARTS_1 = dict(mark="445348", version="0001", edition="02", date="3230323331313135", movement="303030303432", batches="00000001",
               sales="00000001", gross="0000000000002710", discount="00000000000000fa", net="0000000000002616")
PARTS_2 = dict(PARTS_1, version="0002", split="01", fsales="00000002", fgross="0000000000001388", fdiscount="0000000000000064",
               fnet="0000000000001324")

# Parts in hex: 999999 and 1000000; 10^17 - 1 and 10^17; none and one of four bytes and of eight; all ones.
MOST, MORE = "000f423f", "000f4240"
TOP, PAST = "016345785d89ffff", "016345785d8a0000"
NO, SINGLE = "00000000", "00000001"
NOTHING, UNIT = "0000000000000000", "0000000000000001"
ALL_ONES = "ffffffffffffffff"

# What a set without a sale has in its places.
NONE_SETTLED = dict(sales=NO, gross=NOTHING, discount=NOTHING, net=NOTHING)
NONE_FORECAST = dict(fsales=NO, fgross=NOTHING, fdiscount=NOTHING, fnet=NOTHING)


def with_parts(parts, changed):
    assert all(len(text) == len(parts[name]) for name, text in changed.items())
    return bytes.fromhex("".join({**parts, **changed}.values()))


def one(**changed):
    """The bytes of a sheet of version 1 in which these parts, given in hex, are other ones."""
    return with_parts(PARTS_1, changed)


def two(**changed):
    """The same of version 2."""
    return with_parts(PARTS_2, changed)


assert len(one()) == 52 and len(two()) == 81

# Rooms that matter to either version.
ROOMS = (0, 51, 52, 53, 80, 81, 82, 104)

# ---- Sheets to read ------------------------------------------------------------------------------------------------------------------------

READ = []


def read(name, content, line):
    READ.append((name, content, line))


def read_sales(name, content, numbers):
    """A sheet of version 2 that is read, whose numbers from the settled sales on are these."""
    read(name, content, f"A 2 2 20231115 000042 1 {numbers}")


read("version 1", one(), "A 1 2 20231115 000042 1 1 10000 250 9750")
read("version 2", two(), "A 2 2 20231115 000042 1 1 10000 250 9750 1 2 5000 100 4900")
read("version 1 of nothing", one(edition="01", movement=b"000000".hex(), batches=NO, **NONE_SETTLED), "A 1 1 20231115 000000 0 0 0 0 0")
read("version 2 of nothing", two(edition="01", movement=b"000000".hex(), batches=NO, **NONE_SETTLED, **NONE_FORECAST),
     "A 2 1 20231115 000000 0 0 0 0 0 1 0 0 0 0")

# 15: length, and 16 where the length is the other version's: every length about both
for length in range(50, 84):
    read(f"{length} bytes of version 1, and zeros", (one() + bytes(31))[:length],
         {52: "A 1 2 20231115 000042 1 1 10000 250 9750", 81: "R 16 0 0"}.get(length, "R 15 0 0"))
    read(f"{length} bytes of version 2, and zeros", (two() + bytes(2))[:length],
         {52: "R 16 0 0", 81: "A 2 2 20231115 000042 1 1 10000 250 9750 1 2 5000 100 4900"}.get(length, "R 15 0 0"))
read("15: no bytes", b"", "R 15 0 0")
read("15: the mark alone", b"DSH", "R 15 0 0")
read("15: the forecast's 29 bytes alone", two()[52:], "R 15 0 0")
read("15: 104 bytes, two sheets of version 1", one() + one(), "R 15 0 0")
read("15: 133 bytes, a sheet of each version", one() + two(), "R 15 0 0")
read("15: 162 bytes, two sheets of version 2", two() + two(), "R 15 0 0")
read("15 before 16: 80 bytes of version 1", one() + bytes(28), "R 15 0 0")
read("15 before 17: 51 bytes of edition 3", one(edition="03")[:51], "R 15 0 0")
read("15 before 17: 80 bytes of edition 3", two(edition="03")[:80], "R 15 0 0")
read("15 before 17: 82 bytes and split 2", two(split="02") + b"\x00", "R 15 0 0")

# 16: 81 bytes of version 1 and 52 of version 2, before any number is looked at
read("16: version 1 in 81 bytes", two(version="0001"), "R 16 0 0")
read("16: version 2 in 52 bytes", one(version="0002"), "R 16 0 0")
read("16 before 17: version 1 in 81 bytes, edition 3", two(version="0001", edition="03"), "R 16 0 0")
read("16 before 17: version 1 in 81 bytes, a letter in the date", two(version="0001", date=b"2023111x".hex()), "R 16 0 0")
read("16 before 17: version 1 in 81 bytes, split 2", two(version="0001", split="02"), "R 16 0 0")
read("16 before 17: version 1 in 81 bytes, split 0 and a forecast", two(version="0001", split="00"), "R 16 0 0")
read("16 before 17: version 2 in 52 bytes, edition 3", one(version="0002", edition="03"), "R 16 0 0")
read("16 before 17: version 2 in 52 bytes, net one more", one(version="0002", net="0000000000002617"), "R 16 0 0")

# What both versions begin with
for v, made, other, end in ((1, one, "0002", ""), (2, two, "0001", " 1 2 5000 100 4900")):
    # 15: mark
    for mark in (b"dsh", b"DSX", b"DXH", b"XSH", b"HSD", b"\x00\x00\x00", b"SH\x00"):
        read(f"15: {v}, mark {mark!r}", made(mark=mark.hex()), "R 15 0 0")
    read(f"15 before 16: {v}, another mark and version 3", made(mark=b"DSX".hex(), version="0003"), "R 15 0 0")
    read(f"15 before 16: {v}, another mark and the other version", made(mark=b"DSX".hex(), version=other), "R 15 0 0")
    read(f"15 before 17: {v}, another mark and edition 3", made(mark=b"DSX".hex(), edition="03"), "R 15 0 0")
    # 16: version; low byte first it would be 1, or 2
    for version in ("0000", "0003", "0100", "0200", "0101", "0102", "0201", "0202", "ffff"):
        read(f"16: {v}, version of bytes {version}", made(version=version), "R 16 0 0")
    read(f"16 before 17: {v}, version 3 and edition 3", made(version="0003", edition="03"), "R 16 0 0")
    read(f"16 before 17: {v}, version 0 and a letter in the date", made(version="0000", date=b"2023111x".hex()), "R 16 0 0")
    # 17: edition; 1 is retired, and its sheets are read as before
    read(f"{v}, edition 1", made(edition="01"), f"A {v} 1 20231115 000042 1 1 10000 250 9750{end}")
    read(f"{v}, edition 1, batches 999999", made(edition="01", batches=MOST), f"A {v} 1 20231115 000042 999999 1 10000 250 9750{end}")
    read(f"17: {v}, edition 1, batches 1000000", made(edition="01", batches=MORE), "R 17 0 0")
    for edition in ("00", "03", "31", "32", "ff"):
        read(f"17: {v}, edition of byte {edition}", made(edition=edition), "R 17 0 0")
    # 17: date and digits
    for day in ("20240229", "20000101", "20991231"):
        read(f"{v}, {day} is a date", made(date=day.encode().hex()), f"A {v} 2 {day} 000042 1 1 10000 250 9750{end}")
    for day in (b"20230229", b"19991231", b"21000101", b"20231301", b"20230001", b"20230431", b"20231100", b"00000000", b"99999999"):
        read(f"17: {v}, date {day.decode()}", made(date=day.hex()), "R 17 0 0")
    for day in (b"2023111x", b" 0231115", b"2023-1-5", b"2023111\x3a", b"2023111\x2f", b"2023111\x00", b"\xff0231115"):
        read(f"17: {v}, date {day!r}", made(date=day.hex()), "R 17 0 0")
    for movement in ("999999", "000000"):
        read(f"{v}, movement {movement}", made(movement=movement.encode().hex()), f"A {v} 2 20231115 {movement} 1 1 10000 250 9750{end}")
    for movement in (b" 00042", b"00004 ", b"00x042", b"-00042", b"00004\x3a", b"00004\x2f", b"\x00\x00\x00\x00\x00\x2a"):
        read(f"17: {v}, movement {movement!r}", made(movement=movement.hex()), "R 17 0 0")
    # 17: batches at most 999999
    read(f"{v}, batches 999999", made(batches=MOST), f"A {v} 2 20231115 000042 999999 1 10000 250 9750{end}")
    read(f"17: {v}, batches 1000000", made(batches=MORE), "R 17 0 0")
    read(f"17: {v}, batches 2^32 - 1", made(batches="ffffffff"), "R 17 0 0")
    # 17: gross = discount + net in the places that both have
    read(f"17: {v}, gross one less", made(gross="000000000000270f"), "R 17 0 0")
    read(f"17: {v}, gross one more", made(gross="0000000000002711"), "R 17 0 0")
    read(f"17: {v}, discount one more", made(discount="00000000000000fb"), "R 17 0 0")
    read(f"17: {v}, net one more", made(net="0000000000002617"), "R 17 0 0")
    read(f"17: {v}, a sum that agrees only modulo 2^64", made(gross=NOTHING, discount=UNIT, net=ALL_ONES), "R 17 0 0")
    read(f"17: {v}, all ones", made(gross=ALL_ONES, discount=ALL_ONES, net=ALL_ONES), "R 17 0 0")
    read(f"{v}, no batch and no sale, and totals all the same", made(batches=NO, sales=NO), f"A {v} 2 20231115 000042 0 0 10000 250 9750{end}")
    read(f"{v}, sales, and no totals", made(gross=NOTHING, discount=NOTHING, net=NOTHING), f"A {v} 2 20231115 000042 1 1 0 0 0{end}")
    read(f"17: {v}, low bytes first would be other numbers", made(gross="1027000000000000"), "R 17 0 0")

# 17: the limits of version 1: sales at most 999999, totals below 10^17
read("1, sales 999999", one(sales=MOST), "A 1 2 20231115 000042 1 999999 10000 250 9750")
read("17: 1, sales 1000000", one(sales=MORE), "R 17 0 0")
read("17: 1, sales 2^32 - 1", one(sales="ffffffff"), "R 17 0 0")
read("1, gross and net 10^17 - 1", one(gross=TOP, discount=NOTHING, net=TOP),
     "A 1 2 20231115 000042 1 1 99999999999999999 0 99999999999999999")
read("1, gross and discount 10^17 - 1", one(gross=TOP, discount=TOP, net=NOTHING),
     "A 1 2 20231115 000042 1 1 99999999999999999 99999999999999999 0")
read("17: 1, gross and net 10^17", one(gross=PAST, discount=NOTHING, net=PAST), "R 17 0 0")
read("17: 1, gross and discount 10^17", one(gross=PAST, discount=PAST, net=NOTHING), "R 17 0 0")
read("17: 1, gross 10^17 alone is past", one(gross=PAST, discount=UNIT, net=TOP), "R 17 0 0")

# 17: the split
read_sales("split 0 without a forecast", two(split="00", **NONE_FORECAST), "1 10000 250 9750 0 0 0 0 0")
read_sales("split 1 without a forecast", two(**NONE_FORECAST), "1 10000 250 9750 1 0 0 0 0")
read_sales("split 0 and no sale at all", two(split="00", **NONE_SETTLED, **NONE_FORECAST), "0 0 0 0 0 0 0 0 0")
read("split 0 under edition 1", two(edition="01", split="00", **NONE_FORECAST), "A 2 1 20231115 000042 1 1 10000 250 9750 0 0 0 0 0")
read("17: split 0 and a forecast under edition 1", two(edition="01", split="00"), "R 17 0 0")
for split in ("02", "03", "30", "31", "80", "81", "ff"):
    read(f"17: split of byte {split}", two(split=split), "R 17 0 0")
    read(f"17: split of byte {split}, without a forecast", two(split=split, **NONE_FORECAST), "R 17 0 0")
read("17: split 0 and a forecast", two(split="00"), "R 17 0 0")
# each number alone; a total alone leaves the amounts disagreeing, the count alone does not
for place, unit in (("fsales", SINGLE), ("fgross", UNIT), ("fdiscount", UNIT), ("fnet", UNIT)):
    read(f"17: split 0 and 1 in {place} alone", two(split="00", **{**NONE_FORECAST, place: unit}), "R 17 0 0")
read("17: split 0 and a forecast count of 65536, whose low bytes are zero", two(split="00", **{**NONE_FORECAST, "fsales": "00010000"}), "R 17 0 0")
read("17: split 0 and forecast gross and discount 1", two(split="00", **{**NONE_FORECAST, "fgross": UNIT, "fdiscount": UNIT}), "R 17 0 0")
read("17: split 0 and forecast gross and net 1", two(split="00", **{**NONE_FORECAST, "fgross": UNIT, "fnet": UNIT}), "R 17 0 0")
read("17: split 0 and forecast gross and net 2^48, whose low bytes are zero",
     two(split="00", **{**NONE_FORECAST, "fgross": "0001000000000000", "fnet": "0001000000000000"}), "R 17 0 0")
read_sales("split 1 and a forecast count alone", two(**{**NONE_FORECAST, "fsales": SINGLE}), "1 10000 250 9750 1 1 0 0 0")
read_sales("split 1 and forecast totals without a count", two(fsales=NO), "1 10000 250 9750 1 0 5000 100 4900")
read_sales("split 1 and forecast gross and discount 1", two(**{**NONE_FORECAST, "fgross": UNIT, "fdiscount": UNIT}), "1 10000 250 9750 1 0 1 1 0")
read_sales("split 1 and forecast gross and net 1", two(**{**NONE_FORECAST, "fgross": UNIT, "fnet": UNIT}), "1 10000 250 9750 1 0 1 0 1")
for place in ("fgross", "fdiscount", "fnet"):
    read(f"17: split 1 and 1 in {place} alone", two(**{**NONE_FORECAST, place: UNIT}), "R 17 0 0")
read_sales("a forecast and nothing settled", two(**NONE_SETTLED), "0 0 0 0 1 2 5000 100 4900")

# 17: each set has gross = discount + net, also where both summed do
read("17: forecast gross one less", two(fgross="0000000000001387"), "R 17 0 0")
read("17: forecast gross one more", two(fgross="0000000000001389"), "R 17 0 0")
read("17: forecast discount one more", two(fdiscount="0000000000000065"), "R 17 0 0")
read("17: forecast net one more", two(fnet="0000000000001325"), "R 17 0 0")
read("17: a forecast sum that agrees only modulo 2^64", two(fgross=NOTHING, fdiscount=UNIT, fnet=ALL_ONES), "R 17 0 0")
read("17: the forecast's totals all ones", two(fgross=ALL_ONES, fdiscount=ALL_ONES, fnet=ALL_ONES), "R 17 0 0")
read("17: gross one more, forecast gross one less: both summed agree", two(gross="0000000000002711", fgross="0000000000001387"), "R 17 0 0")
read("17: gross one less, forecast gross one more: both summed agree", two(gross="000000000000270f", fgross="0000000000001389"), "R 17 0 0")
read("17: net one more, forecast net one less: both summed agree", two(net="0000000000002617", fnet="0000000000001323"), "R 17 0 0")
read("17: discount one less, forecast discount one more: both summed agree", two(discount="00000000000000f9", fdiscount="0000000000000065"),
     "R 17 0 0")
read("17: net one more, forecast discount one less: both summed agree", two(net="0000000000002617", fdiscount="0000000000000063"), "R 17 0 0")

# 17: the limits of each set, the other empty
read_sales("settled 999999", two(**{**NONE_FORECAST, "sales": MOST}), "999999 10000 250 9750 1 0 0 0 0")
read("17: settled 1000000", two(**{**NONE_FORECAST, "sales": MORE}), "R 17 0 0")
read("17: settled 2^32 - 1", two(**{**NONE_FORECAST, "sales": "ffffffff"}), "R 17 0 0")
read_sales("forecast 999999", two(**{**NONE_SETTLED, "fsales": MOST}), "0 0 0 0 1 999999 5000 100 4900")
read("17: forecast 1000000", two(**{**NONE_SETTLED, "fsales": MORE}), "R 17 0 0")
read("17: forecast 2^32 - 1", two(**{**NONE_SETTLED, "fsales": "ffffffff"}), "R 17 0 0")
read_sales("settled gross and net 10^17 - 1", two(gross=TOP, discount=NOTHING, net=TOP, **NONE_FORECAST),
           "1 99999999999999999 0 99999999999999999 1 0 0 0 0")
read_sales("settled gross and discount 10^17 - 1", two(gross=TOP, discount=TOP, net=NOTHING, **NONE_FORECAST),
           "1 99999999999999999 99999999999999999 0 1 0 0 0 0")
read("17: settled gross and net 10^17", two(gross=PAST, discount=NOTHING, net=PAST, **NONE_FORECAST), "R 17 0 0")
read("17: settled gross and discount 10^17", two(gross=PAST, discount=PAST, net=NOTHING, **NONE_FORECAST), "R 17 0 0")
read("17: settled gross 10^17 alone is past", two(gross=PAST, discount=UNIT, net=TOP, **NONE_FORECAST), "R 17 0 0")
read_sales("forecast gross and net 10^17 - 1", two(**NONE_SETTLED, fgross=TOP, fdiscount=NOTHING, fnet=TOP),
           "0 0 0 0 1 2 99999999999999999 0 99999999999999999")
read_sales("forecast gross and discount 10^17 - 1", two(**NONE_SETTLED, fgross=TOP, fdiscount=TOP, fnet=NOTHING),
           "0 0 0 0 1 2 99999999999999999 99999999999999999 0")
read("17: forecast gross and net 10^17", two(**NONE_SETTLED, fgross=PAST, fdiscount=NOTHING, fnet=PAST), "R 17 0 0")
read("17: forecast gross and discount 10^17", two(**NONE_SETTLED, fgross=PAST, fdiscount=PAST, fnet=NOTHING), "R 17 0 0")
read("17: forecast gross 10^17 alone is past", two(**NONE_SETTLED, fgross=PAST, fdiscount=UNIT, fnet=TOP), "R 17 0 0")

# 17: the limits of both summed; 999998 is 0F423E, 500000 is 07A120, 10^17 - 2 ends in FFFE
LESS, HALF, OTHER_HALF = "000f423e", "0007a120", "0007a11f"
BELOW_TOP = "016345785d89fffe"
read_sales("sales 999998 + 1", two(sales=LESS, fsales=SINGLE), "999998 10000 250 9750 1 1 5000 100 4900")
read("17: sales 999999 + 1", two(sales=MOST, fsales=SINGLE), "R 17 0 0")
read_sales("sales 1 + 999998", two(fsales=LESS), "1 10000 250 9750 1 999998 5000 100 4900")
read("17: sales 1 + 999999", two(fsales=MOST), "R 17 0 0")
read_sales("sales 500000 + 499999", two(sales=HALF, fsales=OTHER_HALF), "500000 10000 250 9750 1 499999 5000 100 4900")
read("17: sales 500000 + 500000", two(sales=HALF, fsales=HALF), "R 17 0 0")
read("17: sales 999999 + 999999", two(sales=MOST, fsales=MOST), "R 17 0 0")
read_sales("net 10^17 - 2 and 1", two(gross=BELOW_TOP, discount=NOTHING, net=BELOW_TOP, fgross=UNIT, fdiscount=NOTHING, fnet=UNIT),
           "1 99999999999999998 0 99999999999999998 1 2 1 0 1")
read("17: net 10^17 - 1 and 1", two(gross=TOP, discount=NOTHING, net=TOP, fgross=UNIT, fdiscount=NOTHING, fnet=UNIT), "R 17 0 0")
read("17: net 1 and 10^17 - 1", two(gross=UNIT, discount=NOTHING, net=UNIT, fgross=TOP, fdiscount=NOTHING, fnet=TOP), "R 17 0 0")
read_sales("discount 10^17 - 2 and 1", two(gross=BELOW_TOP, discount=BELOW_TOP, net=NOTHING, fgross=UNIT, fdiscount=UNIT, fnet=NOTHING),
           "1 99999999999999998 99999999999999998 0 1 2 1 1 0")
read("17: discount 10^17 - 1 and 1", two(gross=TOP, discount=TOP, net=NOTHING, fgross=UNIT, fdiscount=UNIT, fnet=NOTHING), "R 17 0 0")
read("17: discount 1 and 10^17 - 1", two(gross=UNIT, discount=UNIT, net=NOTHING, fgross=TOP, fdiscount=TOP, fnet=NOTHING), "R 17 0 0")
read_sales("gross 10^17 - 2 and 1, of net and discount", two(gross=BELOW_TOP, discount=NOTHING, net=BELOW_TOP, fgross=UNIT, fdiscount=UNIT, fnet=NOTHING),
           "1 99999999999999998 0 99999999999999998 1 2 1 1 0")
read("17: gross 10^17 - 1 and 1, of net and discount: gross alone is past",
     two(gross=TOP, discount=NOTHING, net=TOP, fgross=UNIT, fdiscount=UNIT, fnet=NOTHING), "R 17 0 0")
read("17: gross 1 and 10^17 - 1, of discount and net: gross alone is past",
     two(gross=UNIT, discount=UNIT, net=NOTHING, fgross=TOP, fdiscount=NOTHING, fnet=TOP), "R 17 0 0")
read("17: both at 10^17 - 1", two(gross=TOP, discount=NOTHING, net=TOP, fgross=TOP, fdiscount=NOTHING, fnet=TOP), "R 17 0 0")
read("17: 2^64 - 1 and 1, which are 0 in eight bytes",
     two(gross=ALL_ONES, discount=NOTHING, net=ALL_ONES, fgross=UNIT, fdiscount=NOTHING, fnet=UNIT), "R 17 0 0")

# high byte first in the new places: 66051; 283686952306183 = 1108152157446 + 282578800148737
read_sales("high byte first", two(fsales="00010203", fgross="0001020304050607", fdiscount="0000010203040506", fnet="0001010101010101"),
           "1 10000 250 9750 1 66051 283686952306183 1108152157446 282578800148737")
read("17: low byte first the count would be 1", two(fsales="01000000"), "R 17 0 0")
read("17: low byte first the totals would agree", two(fgross="8813000000000000", fdiscount="6400000000000000", fnet="2413000000000000"), "R 17 0 0")

# ---- Sheets to write -----------------------------------------------------------------------------------------------------------------------

# The numbers of the sheets above.
NUMBERS_1 = dict(edition=2, date=20231115, movement=42, batches=1, sales=1, gross=10000, discount=250, net=9750)
NUMBERS_2 = dict(NUMBERS_1, split=1, fsales=2, fgross=5000, fdiscount=100, fnet=4900)
NONE_SETTLED_NUMBERS = dict(sales=0, gross=0, discount=0, net=0)
NONE_FORECAST_NUMBERS = dict(fsales=0, fgross=0, fdiscount=0, fnet=0)
WRITE_1, WRITE_2 = [], []


def write_1(name, size, changed, line, front=b""):
    """`front` is what the output begins with after the call; behind it the output is as it was before."""
    assert changed.keys() <= NUMBERS_1.keys()
    WRITE_1.append((name, size, {**NUMBERS_1, **changed}.values(), line, front))


def write_2(name, size, changed, line, front=b""):
    assert changed.keys() <= NUMBERS_2.keys()
    WRITE_2.append((name, size, {**NUMBERS_2, **changed}.values(), line, front))


# 2: the output is too short; a longer one keeps its rest
for room in ROOMS:
    if room < 52:
        write_1(f"2: {room} bytes of output", room, {}, "R 2 0 0")
    else:
        write_1(f"{room} bytes of output", room, {}, "A", one())
    if room < 81:
        write_2(f"2: {room} bytes of output", room, {}, "R 2 0 0")
    else:
        write_2(f"{room} bytes of output", room, {}, "A", two())
write_1("2: 1 byte of output", 1, {}, "R 2 0 0")
write_2("2: 1 byte of output", 1, {}, "R 2 0 0")

# What both versions begin with
for write, made, width in ((write_1, one, 52), (write_2, two, 81)):
    for day in (20000101, 20240229, 20991231):
        write(f"date {day}", width, dict(date=day), "A", made(date=str(day).encode().hex()))
    write("movement 0", width, dict(movement=0), "A", made(movement=b"000000".hex()))
    write("movement 999999", width, dict(movement=999999), "A", made(movement=b"999999".hex()))
    write("batches 0", width, dict(batches=0), "A", made(batches=NO))
    write("batches 999999", width, dict(batches=999999), "A", made(batches=MOST))
    # 22: edition 1 is retired; before 17, and before 2
    for room in ROOMS:
        write(f"22: edition 1, {room} bytes of output", room, dict(edition=1), "R 22 0 0")
    for room in (0, width - 1, width):
        write(f"22 before 17: edition 1 and net one more, {room} bytes of output", room, dict(edition=1, net=9751), "R 22 0 0")
    write("22 before 17: edition 1 and date 20230229", width, dict(edition=1, date=20230229), "R 22 0 0")
    # 17, before 2
    for room in ROOMS:
        write(f"17: edition 3, {room} bytes of output", room, dict(edition=3), "R 17 0 0")
        write(f"17: date 20230229, {room} bytes of output", room, dict(date=20230229), "R 17 0 0")
        write(f"17: net one more, {room} bytes of output", room, dict(net=9751), "R 17 0 0")
    write("17: edition 0", width, dict(edition=0), "R 17 0 0")
    write("17: edition 0, no output", 0, dict(edition=0), "R 17 0 0")
    write("17: edition 257 is not 1", width, dict(edition=257), "R 17 0 0")
    write("17: edition 258 is not 2", width, dict(edition=258), "R 17 0 0")
    write("17: edition 2^32 + 2 is not 2", width, dict(edition=4294967298), "R 17 0 0")
    for day in (0, 19991231, 21000101, 20231301, 20230431, 20231100, 120231115, 1020231115, 18446744073709551615):
        write(f"17: date {day}", width, dict(date=day), "R 17 0 0")
    write("17: movement 1000000", width, dict(movement=1000000), "R 17 0 0")
    write("17: movement 1000042, which has 000042 in six digits", width, dict(movement=1000042), "R 17 0 0")
    write("17: batches 1000000", width, dict(batches=1000000), "R 17 0 0")
    write("17: batches 2^32 + 1, which is 1 in four bytes", width, dict(batches=4294967297), "R 17 0 0")
    write("17: sales 1000000", width, dict(sales=1000000), "R 17 0 0")
    write("17: sales 2^32 + 1, which is 1 in four bytes", width, dict(sales=4294967297), "R 17 0 0")
    write("17: sales 2^64 - 1", width, dict(sales=18446744073709551615), "R 17 0 0")
    write("17: gross and net 10^17", width, dict(gross=100000000000000000, discount=0, net=100000000000000000), "R 17 0 0")
    write("17: gross and discount 10^17", width, dict(gross=100000000000000000, discount=100000000000000000, net=0), "R 17 0 0")
    write("17: gross 10^17 alone is past", width, dict(gross=100000000000000000, discount=1, net=99999999999999999), "R 17 0 0")
    write("17: gross one less", width, dict(gross=9999), "R 17 0 0")
    write("17: gross one more", width, dict(gross=10001), "R 17 0 0")
    write("17: discount one more", width, dict(discount=251), "R 17 0 0")
    write("17: a sum that agrees only modulo 2^64", width, dict(gross=0, discount=1, net=18446744073709551615), "R 17 0 0")

# The limits of version 1
write_1("a sheet of nothing", 60, dict(date=20000101, movement=0, batches=0, **NONE_SETTLED_NUMBERS), "A",
        one(date=b"20000101".hex(), movement=b"000000".hex(), batches=NO, **NONE_SETTLED))
write_1("sales 999999", 52, dict(sales=999999), "A", one(sales=MOST))
write_1("gross and net 10^17 - 1", 52, dict(gross=99999999999999999, discount=0, net=99999999999999999), "A",
        one(gross=TOP, discount=NOTHING, net=TOP))
write_1("gross and discount 10^17 - 1", 52, dict(gross=99999999999999999, discount=99999999999999999, net=0), "A",
        one(gross=TOP, discount=TOP, net=NOTHING))

# The split
write_2("a sheet of nothing, split 1", 90, dict(date=20000101, movement=0, batches=0, **NONE_SETTLED_NUMBERS, **NONE_FORECAST_NUMBERS), "A",
        two(date=b"20000101".hex(), movement=b"000000".hex(), batches=NO, **NONE_SETTLED, **NONE_FORECAST))
write_2("split 1 without a forecast", 81, NONE_FORECAST_NUMBERS, "A", two(**NONE_FORECAST))
write_2("split 0 without a forecast", 81, dict(split=0, **NONE_FORECAST_NUMBERS), "A", two(split="00", **NONE_FORECAST))
write_2("22: split 0 without a forecast, edition 1, which only conversion writes", 81, dict(edition=1, split=0, **NONE_FORECAST_NUMBERS), "R 22 0 0")
write_2("22 before 17: edition 1 and split 2", 81, dict(edition=1, split=2), "R 22 0 0")
write_2("22 before 17: edition 1, split 0 and a forecast", 81, dict(edition=1, split=0), "R 22 0 0")
write_2("a forecast and nothing settled", 81, NONE_SETTLED_NUMBERS, "A", two(**NONE_SETTLED))
write_2("a forecast count alone", 81, {**NONE_FORECAST_NUMBERS, "fsales": 1}, "A", two(**{**NONE_FORECAST, "fsales": SINGLE}))
for split in (2, 255, 256, 257, 4294967296, 4294967297, 18446744073709551615):
    write_2(f"17: split {split}", 81, dict(split=split), "R 17 0 0")
    write_2(f"17: split {split}, without a forecast", 81, dict(split=split, **NONE_FORECAST_NUMBERS), "R 17 0 0")
for room in ROOMS:
    write_2(f"17: split 2, {room} bytes of output", room, dict(split=2), "R 17 0 0")
    write_2(f"17: split 0 and a forecast, {room} bytes of output", room, dict(split=0), "R 17 0 0")
for place in ("fsales", "fgross", "fdiscount", "fnet"):
    write_2(f"17: split 0 and 1 in {place} alone", 81, {"split": 0, **NONE_FORECAST_NUMBERS, place: 1}, "R 17 0 0")
write_2("17: split 0 and a forecast count of 2^32, which is 0 in four bytes", 81, {"split": 0, **NONE_FORECAST_NUMBERS, "fsales": 4294967296}, "R 17 0 0")
write_2("17: split 0 and forecast gross and net 1", 81, {"split": 0, **NONE_FORECAST_NUMBERS, "fgross": 1, "fnet": 1}, "R 17 0 0")

# Each set has gross = discount + net
write_2("17: forecast gross one less", 81, dict(fgross=4999), "R 17 0 0")
write_2("17: forecast gross one more", 81, dict(fgross=5001), "R 17 0 0")
write_2("17: forecast discount one more", 81, dict(fdiscount=101), "R 17 0 0")
write_2("17: forecast net one more", 81, dict(fnet=4901), "R 17 0 0")
write_2("17: a forecast sum that agrees only modulo 2^64", 81, dict(fgross=0, fdiscount=1, fnet=18446744073709551615), "R 17 0 0")
write_2("17: gross one more, forecast gross one less: both summed agree", 81, dict(gross=10001, fgross=4999), "R 17 0 0")
write_2("17: net one less, forecast net one more: both summed agree", 81, dict(net=9749, fnet=4901), "R 17 0 0")

# The limits of each set and of both summed
write_2("settled 999999, none forecast", 81, {**NONE_FORECAST_NUMBERS, "sales": 999999}, "A", two(**{**NONE_FORECAST, "sales": MOST}))
write_2("forecast 999999, none settled", 81, {**NONE_SETTLED_NUMBERS, "fsales": 999999}, "A", two(**{**NONE_SETTLED, "fsales": MOST}))
write_2("17: forecast 1000000, none settled", 81, {**NONE_SETTLED_NUMBERS, "fsales": 1000000}, "R 17 0 0")
write_2("17: forecast 2^32 + 1, which is 1 in four bytes", 81, dict(fsales=4294967297), "R 17 0 0")
write_2("sales 999998 + 1", 81, dict(sales=999998, fsales=1), "A", two(sales=LESS, fsales=SINGLE))
write_2("17: sales 999999 + 1", 81, dict(sales=999999, fsales=1), "R 17 0 0")
write_2("17: sales 1 + 999999", 81, dict(fsales=999999), "R 17 0 0")
write_2("17: sales 500000 + 500000", 81, dict(sales=500000, fsales=500000), "R 17 0 0")
write_2("17: sales 1 + (2^64 - 1), which is 0 in eight bytes", 81, dict(fsales=18446744073709551615), "R 17 0 0")
write_2("settled net 10^17 - 1", 81, dict(gross=99999999999999999, discount=0, net=99999999999999999, **NONE_FORECAST_NUMBERS), "A",
        two(gross=TOP, discount=NOTHING, net=TOP, **NONE_FORECAST))
write_2("forecast net 10^17 - 1", 81, dict(**NONE_SETTLED_NUMBERS, fgross=99999999999999999, fdiscount=0, fnet=99999999999999999), "A",
        two(**NONE_SETTLED, fgross=TOP, fdiscount=NOTHING, fnet=TOP))
write_2("forecast discount 10^17 - 1", 81, dict(**NONE_SETTLED_NUMBERS, fgross=99999999999999999, fdiscount=99999999999999999, fnet=0), "A",
        two(**NONE_SETTLED, fgross=TOP, fdiscount=TOP, fnet=NOTHING))
write_2("17: forecast net 10^17", 81, dict(**NONE_SETTLED_NUMBERS, fgross=100000000000000000, fdiscount=0, fnet=100000000000000000), "R 17 0 0")
write_2("17: forecast gross 10^17 alone is past", 81, dict(**NONE_SETTLED_NUMBERS, fgross=100000000000000000, fdiscount=1, fnet=99999999999999999),
        "R 17 0 0")
write_2("net 10^17 - 2 and 1", 81, dict(gross=99999999999999998, discount=0, net=99999999999999998, fgross=1, fdiscount=0, fnet=1), "A",
        two(gross=BELOW_TOP, discount=NOTHING, net=BELOW_TOP, fgross=UNIT, fdiscount=NOTHING, fnet=UNIT))
write_2("17: net 10^17 - 1 and 1", 81, dict(gross=99999999999999999, discount=0, net=99999999999999999, fgross=1, fdiscount=0, fnet=1), "R 17 0 0")
write_2("17: discount 1 and 10^17 - 1", 81, dict(gross=1, discount=1, net=0, fgross=99999999999999999, fdiscount=99999999999999999, fnet=0), "R 17 0 0")
write_2("17: gross 10^17 - 1 and 1, of net and discount: gross alone is past", 81,
        dict(gross=99999999999999999, discount=0, net=99999999999999999, fgross=1, fdiscount=1, fnet=0), "R 17 0 0")
write_2("17: net 2^64 - 1 and 1, which are 0 in eight bytes", 81,
        dict(gross=18446744073709551615, discount=0, net=18446744073709551615, fgross=1, fdiscount=0, fnet=1), "R 17 0 0")

# High byte first in every place of the forecast
write_2("high byte first", 81, dict(fsales=66051, fgross=283686952306183, fdiscount=1108152157446, fnet=282578800148737), "A",
        two(fsales="00010203", fgross="0001020304050607", fdiscount="0000010203040506", fnet="0001010101010101"))

# ---- Sheets to convert -----------------------------------------------------------------------------------------------------------------------

CONVERT = []


def convert(name, size, content, line, front=b""):
    CONVERT.append((name, size, content, line, front))


# Version 1 becomes version 2 with split 0, everything settled; version 2 becomes version 1 with both added: 3 sales, 15000 = 350 + 14650. Sheets with
# edition 1, which is retired, are converted as before.
NOT_KNOWN = two(split="00", **NONE_FORECAST)
BOTH = dict(sales="00000003", gross="0000000000003a98", discount="000000000000015e", net="000000000000393a")
for room in ROOMS:
    if room < 81:
        convert(f"2: 1 to 2, {room} bytes of output", room, one(), "R 2 0 0")
    else:
        convert(f"1 to 2, {room} bytes of output", room, one(), "A", NOT_KNOWN)
    if room < 52:
        convert(f"2: 2 to 1, {room} bytes of output", room, two(), "R 2 0 0")
        convert(f"2: 2 with split 0 to 1, {room} bytes of output", room, NOT_KNOWN, "R 2 0 0")
    else:
        convert(f"2 to 1, {room} bytes of output", room, two(), "A", one(**BOTH))
        convert(f"2 with split 0 to 1, {room} bytes of output", room, NOT_KNOWN, "A", one())

# There and back: the input of each is the output of the one before it
convert("1 to 2", 81, one(**BOTH), "A", two(split="00", **BOTH, **NONE_FORECAST))
convert("and back", 52, two(split="00", **BOTH, **NONE_FORECAST), "A", one(**BOTH))
convert("2 with split 1 and no forecast to 1", 52, two(**NONE_FORECAST), "A", one())
convert("and back it has split 0", 81, one(), "A", NOT_KNOWN)
convert("2 with split 0 to 1, edition 1", 52, two(edition="01", split="00", **NONE_FORECAST), "A", one(edition="01"))
convert("and back, edition 1", 81, one(edition="01"), "A", two(edition="01", split="00", **NONE_FORECAST))
convert("2 with split 1 to 1, edition 1", 52, two(edition="01"), "A", one(edition="01", **BOTH))
convert("and back it has split 0, edition 1", 81, one(edition="01", **BOTH), "A", two(edition="01", split="00", **BOTH, **NONE_FORECAST))
convert("and to 1 again, edition 1", 52, two(edition="01", split="00", **BOTH, **NONE_FORECAST), "A", one(edition="01", **BOTH))

# 2, and not 22, where the output is too short for edition 1
convert("2: 1 to 2, edition 1", 80, one(edition="01"), "R 2 0 0")
convert("2: 2 to 1, edition 1", 51, two(edition="01"), "R 2 0 0")
convert("2: 2 with split 0 to 1, edition 1", 51, two(edition="01", split="00", **NONE_FORECAST), "R 2 0 0")

# What is carried over
convert("a forecast and nothing settled", 52, two(**NONE_SETTLED), "A",
        one(sales="00000002", gross="0000000000001388", discount="0000000000000064", net="0000000000001324"))
convert("nothing, 1 to 2", 82, one(edition="01", date=b"20000101".hex(), movement=b"000000".hex(), batches=NO, **NONE_SETTLED), "A",
        two(edition="01", date=b"20000101".hex(), movement=b"000000".hex(), batches=NO, split="00", **NONE_SETTLED, **NONE_FORECAST))
convert("nothing, 2 to 1", 53, two(edition="01", date=b"20000101".hex(), movement=b"000000".hex(), batches=NO, **NONE_SETTLED, **NONE_FORECAST), "A",
        one(edition="01", date=b"20000101".hex(), movement=b"000000".hex(), batches=NO, **NONE_SETTLED))
convert("date, movement and batches, 1 to 2", 81, one(date=b"20991231".hex(), movement=b"999999".hex(), batches=MOST), "A",
        two(date=b"20991231".hex(), movement=b"999999".hex(), batches=MOST, split="00", **NONE_FORECAST))
convert("date, movement and batches, 2 to 1", 52, two(date=b"20240229".hex(), movement=b"123456".hex(), batches="00010203", **NONE_FORECAST), "A",
        one(date=b"20240229".hex(), movement=b"123456".hex(), batches="00010203"))
convert("a count alone is added", 52, two(**{**NONE_FORECAST, "fsales": SINGLE}), "A", one(sales="00000002"))
# 255 + 1 = 256 in each place
convert("sums that carry into the next byte", 52,
        two(sales="000000ff", gross="00000000000001fe", discount="00000000000000ff", net="00000000000000ff", fsales=SINGLE,
            fgross="0000000000000002", fdiscount=UNIT, fnet=UNIT), "A",
        one(sales="00000100", gross="0000000000000200", discount="0000000000000100", net="0000000000000100"))

# The limits: 999999 and 10^17 - 1; 5 * 10^16 and one less are 10^17 - 1
HALF_TOP, OTHER_HALF_TOP = "00b1a2bc2ec50000", "00b1a2bc2ec4ffff"
convert("1 at the limits", 81, one(movement=b"999999".hex(), batches=MOST, sales=MOST, gross=TOP, discount=NOTHING, net=TOP), "A",
        two(movement=b"999999".hex(), batches=MOST, sales=MOST, gross=TOP, discount=NOTHING, net=TOP, split="00", **NONE_FORECAST))
convert("2 at the limits, all settled", 52, two(sales=MOST, gross=TOP, discount=TOP, net=NOTHING, **NONE_FORECAST), "A",
        one(sales=MOST, gross=TOP, discount=TOP, net=NOTHING))
convert("2 at the limits, all forecast", 52, two(**NONE_SETTLED, fsales=MOST, fgross=TOP, fdiscount=NOTHING, fnet=TOP), "A",
        one(sales=MOST, gross=TOP, discount=NOTHING, net=TOP))
convert("both sets at the limits together, net", 52,
        two(sales=HALF, gross=HALF_TOP, discount=NOTHING, net=HALF_TOP, fsales=OTHER_HALF, fgross=OTHER_HALF_TOP, fdiscount=NOTHING,
            fnet=OTHER_HALF_TOP), "A", one(sales=MOST, gross=TOP, discount=NOTHING, net=TOP))
convert("both sets at the limits together, net, edition 1", 52,
        two(edition="01", sales=HALF, gross=HALF_TOP, discount=NOTHING, net=HALF_TOP, fsales=OTHER_HALF, fgross=OTHER_HALF_TOP, fdiscount=NOTHING,
            fnet=OTHER_HALF_TOP), "A", one(edition="01", sales=MOST, gross=TOP, discount=NOTHING, net=TOP))
convert("both sets at the limits together, discount", 52,
        two(sales=LESS, gross=BELOW_TOP, discount=BELOW_TOP, net=NOTHING, fsales=SINGLE, fgross=UNIT, fdiscount=UNIT, fnet=NOTHING), "A",
        one(sales=MOST, gross=TOP, discount=TOP, net=NOTHING))
convert("both sets at the limits together, gross", 52,
        two(gross=HALF_TOP, discount=NOTHING, net=HALF_TOP, fgross=OTHER_HALF_TOP, fdiscount=OTHER_HALF_TOP, fnet=NOTHING), "A",
        one(sales="00000003", gross=TOP, discount=OTHER_HALF_TOP, net=HALF_TOP))

# 15, 16, 17, before 2
for room in ROOMS:
    convert(f"15: no sheet, {room} bytes of output", room, b"", "R 15 0 0")
    convert(f"15: 51 bytes, {room} bytes of output", room, one()[:51], "R 15 0 0")
    convert(f"15: 82 bytes, {room} bytes of output", room, two() + b"\x00", "R 15 0 0")
    convert(f"15: another mark, {room} bytes of output", room, two(mark=b"DSX".hex()), "R 15 0 0")
    convert(f"16: version 1 in 81 bytes, {room} bytes of output", room, two(version="0001"), "R 16 0 0")
    convert(f"16: version 2 in 52 bytes, {room} bytes of output", room, one(version="0002"), "R 16 0 0")
    convert(f"17: version 1, edition 3, {room} bytes of output", room, one(edition="03"), "R 17 0 0")
    convert(f"17: version 2, edition 3, {room} bytes of output", room, two(edition="03"), "R 17 0 0")
    convert(f"17: split 2, {room} bytes of output", room, two(split="02"), "R 17 0 0")
    convert(f"17: split 0 and a forecast, {room} bytes of output", room, two(split="00"), "R 17 0 0")
    convert(f"17: sales 999999 + 1, {room} bytes of output", room, two(sales=MOST, fsales=SINGLE), "R 17 0 0")
convert("15: 53 bytes", 81, one() + b"\x00", "R 15 0 0")
convert("15: 80 bytes", 52, two()[:80], "R 15 0 0")
convert("16: version 3 in 52 bytes", 81, one(version="0003"), "R 16 0 0")
convert("16: version 3 in 81 bytes", 52, two(version="0003"), "R 16 0 0")
convert("16 before 17: version 1 in 81 bytes, split 2", 81, two(version="0001", split="02"), "R 16 0 0")
convert("17: a letter in the movement, version 1", 81, one(movement=b"00x042".hex()), "R 17 0 0")
convert("17: date 20230229, version 2", 52, two(date=b"20230229".hex()), "R 17 0 0")
convert("17: net 10^17 - 1 and 1", 52, two(gross=TOP, discount=NOTHING, net=TOP, fgross=UNIT, fdiscount=NOTHING, fnet=UNIT), "R 17 0 0")
convert("17: gross one more, forecast gross one less: both summed agree", 52, two(gross="0000000000002711", fgross="0000000000001387"), "R 17 0 0")
convert("17: split 0 and a forecast count alone", 52, two(split="00", **{**NONE_FORECAST, "fsales": SINGLE}), "R 17 0 0")
convert("17: net one more, edition 1", 81, one(edition="01", net="0000000000002617"), "R 17 0 0")
convert("17: split 0 and a forecast, edition 1", 52, two(edition="01", split="00"), "R 17 0 0")

# ---- The sheets of a card file -------------------------------------------------------------------------------------------------------------

# Of the five records: split 1, and no forecast.
SETTLED = two(**NONE_FORECAST)
# The sale as a forecast: its four numbers in the other places.
AHEAD_ONLY = two(**NONE_SETTLED, fsales=SINGLE, fgross="0000000000002710", fdiscount="00000000000000fa", fnet="0000000000002616")
# A forecast of 5000 = 100 + 4900, and one whose first instalment of two is 3000 = 75 + 2925.
AHEAD_5000 = put(AHEAD, 55, b"00000005000" b"00000000100" b"00000004900")
AHEAD_IN_TWO = put(put(AHEAD, 107, b"01" b"02"), 123, b"00000003000" b"00000000075" b"00000002925")

# name, edition, the output's length, the file, the answer, what the output begins with after the call
OF_FILE = [
    ("an output of 81; no forecast, and split 1 all the same", 2, 81, FIVE, ACCEPTED, SETTLED),
    ("a longer output keeps its rest", 2, 82, FIVE, ACCEPTED, SETTLED),
    ("an output of 104", 2, 104, FIVE, ACCEPTED, SETTLED),
    ("a forecast alone", 2, 81, sale(AHEAD), FORECAST, AHEAD_ONLY),
    ("a forecast of 5000 and a sale that is paid", 2, 81, file_of((2, 15000, AHEAD_5000, CV)),
     "A 20231115 000042 6 1 1 5000 100 4900 1 10000 250 9750 0 0 0 0",
     two(fsales=SINGLE, fgross="0000000000001388", fdiscount="0000000000000064", fnet="0000000000001324")),
    ("two forecasts and a sale that is advanced, in two batches", 2, 81, file_of((2, 15000, ADVANCED, AHEAD_5000), (1, 5000, AHEAD_5000)),
     "A 20231115 000042 9 2 2 10000 200 9800 1 10000 250 9750 0 0 0 0",
     # 10000 (2710) = 200 (C8) + 9800 (2648)
     two(batches="00000002", fsales="00000002", fgross="0000000000002710", fdiscount="00000000000000c8", fnet="0000000000002648")),
    # 20000 (4E20) = 500 (1F4) + 19500 (4C2C)
    ("advanced and paid are both settled", 2, 81, file_of((2, 20000, ADVANCED, CV)), "A 20231115 000042 6 1 0 0 0 0 2 20000 500 19500 0 0 0 0",
     two(sales="00000002", gross="0000000000004e20", discount="00000000000001f4", net="0000000000004c2c", **NONE_FORECAST)),
    # 3000 (BB8) = 75 (4B) + 2925 (B6D)
    ("an instalment that is forecast", 2, 81, file_of((2, 13000, CV, AHEAD_IN_TWO)), "A 20231115 000042 6 1 1 3000 75 2925 1 10000 250 9750 0 0 0 0",
     two(fsales=SINGLE, fgross="0000000000000bb8", fdiscount="000000000000004b", fnet="0000000000000b6d")),
    ("no batch", 2, 81, file_of(), "A 20231115 000042 2 0 0 0 0 0 0 0 0 0 0 0 0 0", two(batches=NO, **NONE_SETTLED, **NONE_FORECAST)),
    ("a batch without a sale", 2, 81, file_of((0, 0)), "A 20231115 000042 4 1 0 0 0 0 0 0 0 0 0 0 0 0", two(**NONE_SETTLED, **NONE_FORECAST)),
    ("L9 with the settled alone", 2, 81, file_of((2, 10000, AHEAD, CV)), "R 11 5 9", b""),
    ("adjustments are not on the sheet", 2, 81, file_of((3, 10975, CV, AJ, DEBIT)), "A 20231115 000042 7 1 0 0 0 0 1 10000 250 9750 1 2925 1 1950",
     SETTLED),
    ("adjustments beside a forecast", 2, 81, file_of((3, 10975, AHEAD, AJ, DEBIT)), "A 20231115 000042 7 1 1 10000 250 9750 0 0 0 0 1 2925 1 1950",
     AHEAD_ONLY),
    ("a batch of an adjustment alone", 2, 82, adjustment(AJ), ADJUSTED, two(**NONE_SETTLED, **NONE_FORECAST)),
    ("accents are not on the sheet", 2, 81, whole(put(A0, 29, b"\xc9"), L0, put(CV, 3, b"\xff" * 15), L9, A9), ACCEPTED, SETTLED),
    ("byte 159 in the store", 2, 81, sale(put(CV, 3, b"\x9f")), "R 7 3 3", b""),
    ("an output of 80", 2, 80, FIVE, "R 2 0 0", b""),
    ("an output of 52, which version 1 would fit into", 2, 52, FIVE, "R 2 0 0", b""),
    ("no output", 2, 0, FIVE, "R 2 0 0", b""),
    ("1 before 2", 3, 80, FIVE, "R 1 0 0", b""),
    ("edition 0", 0, 81, FIVE, "R 1 0 0", b""),
    ("edition 1", 1, 81, FIVE, "R 22 0 0", b""),
    ("edition 1, capture 7", 1, 82, sale(put(CV, 54, b"7")), "R 22 0 0", b""),
    ("22 before 2", 1, 80, FIVE, "R 22 0 0", b""),
    ("22 before 2, no output and an empty file", 1, 0, b"", "R 22 0 0", b""),
    ("22 before the file's own refusal", 1, 81, FIVE[:-16], "R 22 0 0", b""),
    ("2 before the file's own refusal", 2, 80, b"", "R 2 0 0", b""),
    ("an empty file", 2, 81, b"", "R 12 1 0", b""),
    ("a file without its A9", 2, 82, FIVE[:-16], "R 12 5 0", b""),
    ("a byte behind A9", 2, 104, FIVE + b"\x1a", "R 13 6 0", b""),
]

# ---- Writing them ----------------------------------------------------------------------------------------------------------------------------


def eights(numbers):
    return b"".join(number(n, 8) for n in numbers)


def with_output(cases):
    """The names and lines of cases that have an output. A case is a name, the output's length, what is given, a line, and what the output begins with."""
    return [(name, f"{line} [{output(size, front).hex()}]") for name, size, _, line, front in cases]


def main():
    write_cases("sheet_cases", "own_read.cases", (number(len(content)) + content for _, content, _ in READ))
    for name, cases in (("own_write1.cases", WRITE_1), ("own_write2.cases", WRITE_2)):
        write_cases("sheet_cases", name, (number(size) + eights(numbers) for _, size, numbers, _, _ in cases))
    write_cases("sheet_cases", "own_convert.cases", (number(size) + number(len(content)) + content for _, size, content, _, _ in CONVERT))
    write_cases("sheet_cases", "own_of_file.cases",
                (bytes([edition]) + number(size) + number(len(content)) + content for _, edition, size, content, _, _ in OF_FILE))
    write_stdout("sheet_cases", [
        ("own_read.cases", [(name, line) for name, _, line in READ]),
        ("own_write1.cases", with_output(WRITE_1)),
        ("own_write2.cases", with_output(WRITE_2)),
        ("own_convert.cases", with_output(CONVERT)),
        ("own_of_file.cases", with_output((name, *case) for name, _, *case in OF_FILE))])


if __name__ == "__main__":
    run(main, __doc__)

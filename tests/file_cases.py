#!/usr/bin/env python3
"""The cases of the programs' work, written by hand from document 01, requests Q-4, Q-5, Q-7, Q-11 and Q-14 of document 02, and what was decided of the CSV.

    tests/file_cases.py

It writes crates/file_cases/data/, with the cases as steps in own.cases, and crates/file_cases/stdout. A step is its length (4 bytes), a letter that says
what is to be done (1), and four texts, each behind its length (4): what is printed first, EDITION, FILE and OUT. The lines are written here by hand:
nothing in this script computes an answer, and no program under test was asked for one; only the hash that stands for the bytes of a long output is computed,
from the output that is made here.

A case is a line of what was asked, the text that the program says, and then what stands at OUT. A last line `something else is left` would tell of any
other file.
"""
from made import ADJUSTMENT, DEBIT, SALE, card_file, payroll_file
from samples import FILES, sheet
from stored import CRATES, hashed, number, write_cases

# ---- The files -----------------------------------------------------------------------------------------------------------------------------

# 140,843 bytes: three chunks of 65,536, with a sale cut at each seam.
LONG = list(card_file([[SALE] * 700]))
# 136,844 bytes: three chunks, with an adjustment cut at each seam: 700 of them behind one sale, which is record 3.
LONG_ADJUSTED = list(card_file([[SALE] + [ADJUSTMENT] * 700]))
# Texts that a row has to guard: with quotes, such as a spreadsheet would compute, and such as only look so. Amounts from 0 to the largest.
GUARDED = list(card_file([[
    {**SALE, "gross": 99999999999},
    {**ADJUSTMENT, "description": b'SAY "NO"', "gross": 0, "discount": 0},
    {**ADJUSTMENT, "description": b'"' * 30, "gross": 5, "discount": 0},
    {**ADJUSTMENT, "description": b"=1+1", "gross": 10, "discount": 5},
    {**ADJUSTMENT, "description": b"+55 11", "gross": 99, "discount": 0},
    {**ADJUSTMENT, "description": b"-1", "gross": 100, "discount": 0},
    {**ADJUSTMENT, "description": b"'=1", "gross": 10010, "discount": 10000},
    {**ADJUSTMENT, "description": b" =1", "gross": 123456, "discount": 1},
    {**ADJUSTMENT, "store": b"@POSTO, 24H", "description": b"A,B;C\\D", "type": DEBIT, "gross": 99999999999, "discount": 0},
]]))
# An L0 of 70,000 bytes.
WIDE = LONG[0] + b"L0".ljust(70000) + b"\r\n"

DAY_SHEET, OLD_SHEET = FILES["day.sheet"], FILES["old.sheet"]
# A sheet of version 2 whose split is not known.
SPLIT_0_SHEET = sheet(2, (4, 4), (65990, 8), (1650, 8), (64340, 8), (0, 1), (0, 4), (0, 8), (0, 8), (0, 8))
# Where the last byte of the version stands, the edition, and the split.
VERSION, EDITION, SPLIT = 4, 5, 52


def with_byte(content, at, byte):
    return content[:at] + bytes([byte]) + content[at + 1:]


DATA = {
    **FILES,
    "long.card": b"".join(LONG),
    "cut.card": b"".join(LONG[:-1]),
    "long-adjusted.card": b"".join(LONG_ADJUSTED),
    "cut-adjusted.card": b"".join(LONG_ADJUSTED[:-1]),
    "guarded.card": b"".join(GUARDED),
    "wide.card": WIDE,
    "long.payroll": b"".join(payroll_file([[(b"ANA SOUZA", 123456)] * 600])),
    "51.sheet": OLD_SHEET[:-1],
    "53.sheet": OLD_SHEET + b"\0",
    "80.sheet": DAY_SHEET[:-1],
    "82.sheet": DAY_SHEET + b"\0",
    # version 2 in 52 bytes, and 1 in 81
    "2-in-52.sheet": with_byte(OLD_SHEET, VERSION, 2),
    "1-in-81.sheet": with_byte(DAY_SHEET, VERSION, 1),
    "split-0.sheet": SPLIT_0_SHEET,
    "split-2.sheet": with_byte(DAY_SHEET, SPLIT, 2),
    # a forecast, though the split is not known
    "split-0-forecast.sheet": with_byte(DAY_SHEET, SPLIT, 0),
    "no-forecast.sheet": sheet(2, (4, 4), (65990, 8), (1650, 8), (64340, 8), (1, 1), (0, 4), (0, 8), (0, 8), (0, 8)),
    # both counts make 999,999, and both totals 10^17 - 1; in the other sheet the counts make a million
    "largest.sheet": sheet(2, (500000, 4), (50000000000000000, 8), (20000000000000000, 8), (30000000000000000, 8), (1, 1),
                           (499999, 4), (49999999999999999, 8), (19999999999999999, 8), (30000000000000000, 8)),
    "too-large.sheet": sheet(2, (500000, 4), (50000000000000000, 8), (20000000000000000, 8), (30000000000000000, 8), (1, 1),
                             (500000, 4), (49999999999999999, 8), (19999999999999999, 8), (30000000000000000, 8)),
    # sheets from before edition 1 was retired: version 1, and version 2 with either split
    "edition-1.sheet": with_byte(OLD_SHEET, EDITION, 1),
    "edition-1-split-0.sheet": with_byte(SPLIT_0_SHEET, EDITION, 1),
    "edition-1-split-1.sheet": with_byte(DAY_SHEET, EDITION, 1),
    "empty": b"",
    "no-line-end.card": FILES["day.card"][:-2],
    "no-line-end.payroll": FILES["wages.payroll"][:-2],
}


def masked(file, *cards):
    """The file with each card, all 19 places, in the place of the other."""
    for card, copy in cards:
        assert len(card) == len(copy) == 19 and card in file
        file = file.replace(card, copy)
    return file


MASKED_DAY = masked(
    DATA["day.card"],
    (b"0004111111111111111", b"000411111******1111"),
    (b"0005555555555554444", b"000555555******4444"),
    (b"0004012888888881881", b"000401288******1881"),
    (b"0000378282246310005", b"00003782*******0005"),
)
# The blank card of the last adjustment stays.
MASKED_ADJUSTED = masked(
    DATA["adjusted.card"],
    (b"0004111111111111111", b"000411111******1111"),
    (b"0004012888888881881", b"000401288******1881"),
    (b"0000378282246310005", b"00003782*******0005"),
)
MASKED_LONG = masked(DATA["long.card"], (b"0004111111111111111", b"000411111******1111"))


def hash_of(content):
    return b"%d bytes, hash %d\n" % (len(content), hashed(content))


# ---- What is printed -----------------------------------------------------------------------------------------------------------------------

NO_FORECAST = b"FORECAST SALES 0\nFORECAST GROSS 0\nFORECAST DISCOUNT 0\nFORECAST NET 0\n"
DAY_SETS = (b"FORECAST SALES 1\nFORECAST GROSS 15000\nFORECAST DISCOUNT 375\nFORECAST NET 14625\n"
            b"SETTLED SALES 3\nSETTLED GROSS 50990\nSETTLED DISCOUNT 1275\nSETTLED NET 49715\n")
DAY = b"ACCEPTED\nRECORDS 12\nBATCHES 3\n" + DAY_SETS
ADJUSTED = (b"ACCEPTED\nRECORDS 11\nBATCHES 2\n" + NO_FORECAST
            + b"SETTLED SALES 2\nSETTLED GROSS 25000\nSETTLED DISCOUNT 625\nSETTLED NET 24375\n")
LONG_DAY = (b"ACCEPTED\nRECORDS 704\nBATCHES 1\n" + NO_FORECAST
            + b"SETTLED SALES 700\nSETTLED GROSS 7000000\nSETTLED DISCOUNT 175000\nSETTLED NET 6825000\n")
DAY_ADJUSTED = b"ACCEPTED\nCREDITS 0\nCREDIT NET 0\nDEBITS 0\nDEBIT NET 0\n"
ADJUSTED_ADJUSTED = b"ACCEPTED\nCREDITS 2\nCREDIT NET 4425\nDEBITS 1\nDEBIT NET 4875\n"
LONG_ADJUSTED_ADJUSTED = b"ACCEPTED\nCREDITS 700\nCREDIT NET 2047500\nDEBITS 0\nDEBIT NET 0\n"
# 0, 5, 5, 99, 100, 10 and 123455
GUARDED_ADJUSTED = b"ACCEPTED\nCREDITS 7\nCREDIT NET 123674\nDEBITS 1\nDEBIT NET 99999999999\n"
WAGES = b"ACCEPTED\nRECORDS 9\nBATCHES 2\nPAYMENTS 3\nAMOUNT 1301625\n"
LONG_WAGES = b"ACCEPTED\nRECORDS 604\nBATCHES 1\nPAYMENTS 600\nAMOUNT 74073600\n"


def refused(number, record, column):
    return b"REFUSED %d RECORD %d COLUMN %d\n" % (number, record, column)


REFUSED = refused(9, 3, 194)
BAD_EDITION = refused(1, 0, 0)
RETIRED = refused(22, 0, 0)
NO_LINE_END = refused(3, 12, 0)
NO_NUMBER = b"EDITION is no number: give 2 (November 2023).\n"
NO_FILE = b"FILE cannot be opened, so check its name and that you may read it: No such file or directory\n"
LONG_NAME = b"FILE cannot be opened, so check its name and that you may read it: File name too long\n"
NO_READ = b"the file cannot be read to its end, so give a file that can, and no folder: Is a directory\n"
NOT_OPEN = b"the file cannot be read to its end, so give a file that can, and no folder: Bad file descriptor\n"
NO_WRITE = b"OUT cannot be written, so give a file's name in a folder where you may write and there is room: No such file or directory\n"
OUT_NO_FILE = b"OUT is there and no regular file: give a file's name, or one that is not there.\n"

HEADER = b"record,store,original_date,adjustment_date,type,reason,description,gross,discount,net\n"
ADJUSTED_ROWS = (
    HEADER
    + b'4,"POSTO AURORA   ",20231114,20231115,CREDIT,007,"VALOR INFORMADO A MENOR       ",30.00,0.75,29.25\n'
    + b'8,"POSTO S\xc3O JO\xc3O ",20231114,20231115,DEBIT,012,"VENDA DEVOLVIDA               ",50.00,1.25,48.75\n'
    + b'9,"POSTO S\xc3O JO\xc3O ",,20231115,CREDIT,030,"B\xd4NUS DO M\xcaS                  ",15.00,0.00,15.00\n')
GUARDED_ROWS = (
    HEADER
    + b'4,"POSTO AURORA   ",20231114,20231115,CREDIT,007,"SAY ""NO""                      ",0.00,0.00,0.00\n'
    + b'5,"POSTO AURORA   ",20231114,20231115,CREDIT,007,"' + b'""' * 30 + b'",0.05,0.00,0.05\n'
    + b'6,"POSTO AURORA   ",20231114,20231115,CREDIT,007,"\'=1+1                          ",0.10,0.05,0.05\n'
    + b'7,"POSTO AURORA   ",20231114,20231115,CREDIT,007,"\'+55 11                        ",0.99,0.00,0.99\n'
    + b'8,"POSTO AURORA   ",20231114,20231115,CREDIT,007,"\'-1                            ",1.00,0.00,1.00\n'
    + b'9,"POSTO AURORA   ",20231114,20231115,CREDIT,007,"\'\'=1                           ",100.10,100.00,0.10\n'
    + b'10,"POSTO AURORA   ",20231114,20231115,CREDIT,007," =1                           ",1234.56,0.01,1234.55\n'
    + b'11,"\'@POSTO, 24H    ",20231114,20231115,DEBIT,007,"A,B;C\\D                       ",999999999.99,0.00,999999999.99\n')
LONG_ROWS = HEADER + b"".join(
    b'%d,"POSTO AURORA   ",20231114,20231115,CREDIT,007,"VALOR INFORMADO A MENOR       ",30.00,0.75,29.25\n' % record for record in range(4, 704))

NO_OUT = b"no OUT\n"
SAME, NOT_SAME = b"the same bytes\n", b"not the same bytes\n"
BEFORE = b"from before\n"
# DSH, version 2, edition 2, 20231115, 000042, and 3; settled 3, 50990 (C72E), 1275 (4FB), 49715 (C233); 1, since the split is known; and forecast 1,
# 15000 (3A98), 375 (177), 14625 (3921), high byte first.
DAY_IN_HEX = (b"445348" b"0002" b"02" b"3230323331313135" b"303030303432" b"00000003"
              b"00000003" b"000000000000c72e" b"00000000000004fb" b"000000000000c233"
              b"01" b"00000001" b"0000000000003a98" b"0000000000000177" b"0000000000003921\n")
# The same of the day with adjustments, which are not on its sheet: 000043, and 2; 2, 25000 (61A8), 625 (271), 24375 (5F37); 1, and no forecast.
ADJUSTED_IN_HEX = (b"445348" b"0002" b"02" b"3230323331313135" b"303030303433" b"00000002"
                   b"00000002" b"00000000000061a8" b"0000000000000271" b"0000000000005f37"
                   b"01" b"00000000" b"0000000000000000" b"0000000000000000" b"0000000000000000\n")
# And of the long day: 1; 700 (2BC), 7000000 (6ACFC0), 175000 (2AB98), 6825000 (682428).
LONG_IN_HEX = (b"445348" b"0002" b"02" b"3230323331313135" b"303030303432" b"00000001"
               b"000002bc" b"00000000006acfc0" b"000000000002ab98" b"0000000000682428"
               b"01" b"00000000" b"0000000000000000" b"0000000000000000" b"0000000000000000\n")
# Version 1 of the day, with both sets added: 4, 65990 (101C6), 1650 (672), 64340 (FB54).
OLD_IN_HEX = (b"445348" b"0001" b"02" b"3230323331313135" b"303030303432" b"00000003"
              b"00000004" b"00000000000101c6" b"0000000000000672" b"000000000000fb54\n")
# And that one in version 2: all of it settled, 0, since the split is not known, and no forecast.
SPLIT_0_IN_HEX = (b"445348" b"0002" b"02" b"3230323331313135" b"303030303432" b"00000003"
                  b"00000004" b"00000000000101c6" b"0000000000000672" b"000000000000fb54"
                  b"00" b"00000000" b"0000000000000000" b"0000000000000000" b"0000000000000000\n")
# Both with edition 1.
OLD_1_IN_HEX = (b"445348" b"0001" b"01" b"3230323331313135" b"303030303432" b"00000003"
                b"00000004" b"00000000000101c6" b"0000000000000672" b"000000000000fb54\n")
SPLIT_0_1_IN_HEX = (b"445348" b"0002" b"01" b"3230323331313135" b"303030303432" b"00000003"
                    b"00000004" b"00000000000101c6" b"0000000000000672" b"000000000000fb54"
                    b"00" b"00000000" b"0000000000000000" b"0000000000000000" b"0000000000000000\n")
# The largest sheet in version 1: 999999 (F423F), 10^17 - 1 (16345785D89FFFF), 39999999999999999 (8E1BC9BF03FFFF), 6 * 10^16 (D529AE9E860000).
LARGEST_IN_HEX = (b"445348" b"0001" b"02" b"3230323331313135" b"303030303432" b"00000003"
                  b"000f423f" b"016345785d89ffff" b"008e1bc9bf03ffff" b"00d529ae9e860000\n")

HEADING = b"EDITION 2\nDATE 20231115\nMOVEMENT 000042\nBATCHES 3\n"
HEADING_1 = b"EDITION 1\nDATE 20231115\nMOVEMENT 000042\nBATCHES 3\n"
BOTH_ADDED = b"SALES 4\nGROSS 65990\nDISCOUNT 1650\nNET 64340\n"
OLD_NUMBERS, OLD_1_NUMBERS = HEADING + BOTH_ADDED, HEADING_1 + BOTH_ADDED
DAY_NUMBERS = b"VERSION 2\n" + HEADING + b"SPLIT 1\n" + DAY_SETS
DAY_1_NUMBERS = b"VERSION 2\n" + HEADING_1 + b"SPLIT 1\n" + DAY_SETS
ALL_SETTLED = NO_FORECAST + b"SETTLED SALES 4\nSETTLED GROSS 65990\nSETTLED DISCOUNT 1650\nSETTLED NET 64340\n"
SPLIT_0_NUMBERS = b"VERSION 2\n" + HEADING + b"SPLIT 0\n" + ALL_SETTLED
SPLIT_0_1_NUMBERS = b"VERSION 2\n" + HEADING_1 + b"SPLIT 0\n" + ALL_SETTLED
NO_FORECAST_NUMBERS = b"VERSION 2\n" + HEADING + b"SPLIT 1\n" + ALL_SETTLED
LARGEST_NUMBERS = (b"VERSION 2\n" + HEADING + b"SPLIT 1\n"
                   b"FORECAST SALES 499999\nFORECAST GROSS 49999999999999999\nFORECAST DISCOUNT 19999999999999999\nFORECAST NET 30000000000000000\n"
                   b"SETTLED SALES 500000\nSETTLED GROSS 50000000000000000\nSETTLED DISCOUNT 20000000000000000\nSETTLED NET 30000000000000000\n")
LARGEST_ADDED = HEADING + b"SALES 999999\nGROSS 99999999999999999\nDISCOUNT 39999999999999999\nNET 60000000000000000\n"
NO_SHEET, NO_VERSION, NO_NUMBERS = refused(15, 0, 0), refused(16, 0, 0), refused(17, 0, 0)

# ---- The steps -----------------------------------------------------------------------------------------------------------------------------

# What is asked, or done to the folder `work` of a case and to OUT in it (src/step.rt).
CARD, PAYROLL, MASK, SHEET, READ, CONVERT, TOLD, ROWS = b"C", b"P", b"M", b"S", b"R", b"V", b"A", b"J"
FOLDER, PUT, LINES, HEX, HASH, COMPARE, LEAVE = b"F", b"W", b"L", b"X", b"H", b"Q", b"E"

WORK = b"work"
OUT = b"work/out"
BACK = b"work/back"
AGAIN = b"work/again"
SHEET_OF_FILE, SHEET_OF_COPY = b"work/sheet", b"work/sheet-of-copy"

STEPS = []
STDOUT = []


def step(letter, edition=b"", title=b"", file=b"", out=b""):
    made = letter + b"".join(number(len(text)) + text for text in (title, edition, file, out))
    STEPS.append(number(len(made)) + made)


def ask(letter, title, edition, file, text, out=b""):
    """A question, and the text that the program says."""
    step(letter, edition, title + b"\n", file, out)
    STDOUT.append(title + b"\n" + text)


def enter(before=b""):
    """Makes the folder of a case, with this OUT in it."""
    step(FOLDER, out=WORK)
    if before:
        step(PUT, file=before, out=OUT)


def show(shown, content, out=OUT):
    """Shows what stands at OUT, and removes it."""
    step(shown, out=out)
    STDOUT.append(content)


def leave(shown, content):
    """The same, and removes the folder."""
    show(shown, content)
    step(LEAVE, out=WORK)


def ask_alone(letter, title, edition, file, text, shown, content, before=b"", out=OUT):
    """A question in a folder of its own."""
    enter(before)
    ask(letter, title, edition, file, text, out)
    leave(shown, content)


def ask_with_a_folder(letter, title, file=b"day.card"):
    """Where OUT is a folder."""
    enter()
    step(FOLDER, out=OUT)
    ask(letter, title, b"2", file, OUT_NO_FILE, OUT)
    leave(LINES, b"OUT is a folder\n")


def ask_there_and_back(title, file, text, content, text_back, content_back):
    """A sheet in the other version, and that one converted again."""
    enter()
    ask(CONVERT, title, b"", file, text, OUT)
    ask(CONVERT, b"and back", b"", OUT, text_back, BACK)
    show(HEX, content_back, BACK)
    leave(HEX, content)


def compare(title, one, other, text):
    step(COMPARE, title=title + b"\n", file=one, out=other)
    STDOUT.append(title + b"\n" + text)


def ask_twice(title, file, text, shown, content, sheet):
    """A file masked, and its copy masked: both copies are the same bytes, and so are the sheets of the file and of its copy."""
    enter()
    ask(MASK, title, b"2", file, text, OUT)
    ask(CARD, b"and its copy checked", b"2", OUT, text)
    ask(MASK, b"and masked again", b"2", OUT, text, AGAIN)
    compare(b"both copies", OUT, AGAIN, SAME)
    compare(b"the file and its copy", file, OUT, NOT_SAME)
    ask(SHEET, b"the sheet of the file", b"2", file, text, SHEET_OF_FILE)
    ask(SHEET, b"the sheet of its copy", b"2", OUT, text, SHEET_OF_COPY)
    compare(b"both sheets", SHEET_OF_FILE, SHEET_OF_COPY, SAME)
    show(HEX, sheet, SHEET_OF_FILE)
    show(HEX, sheet, SHEET_OF_COPY)
    show(shown, content, AGAIN)
    leave(shown, content)


# ---- The cases -----------------------------------------------------------------------------------------------------------------------------

ask(CARD, b"card, a day", b"2", b"day.card", DAY)
ask(CARD, b"card, a day under edition 1", b"1", b"day.card", RETIRED)
ask(CARD, b"card, empty under edition 1", b"1", b"empty", RETIRED)
ask(CARD, b"card, a day under edition 3", b"3", b"day.card", BAD_EDITION)
ask(CARD, b"card, a day with adjustments", b"2", b"adjusted.card", ADJUSTED)
ask(CARD, b"card, refused", b"2", b"refused.card", REFUSED)
ask(CARD, b"card, three chunks", b"2", b"long.card", LONG_DAY)
ask(CARD, b"card, a line of two chunks", b"2", b"wide.card", refused(6, 2, 0))
ask(CARD, b"card, empty", b"2", b"empty", refused(12, 1, 0))
ask(CARD, b"card, a folder", b"2", b".", NO_READ)
ask(CARD, b"card, a descriptor that is not open", b"2", b"none", NOT_OPEN)
ask(CARD, b"card, no line end", b"2", b"no-line-end.card", NO_LINE_END)
# the edition is what the bytes of the argument state
ask(CARD, b"card, an edition with zeros in front", b"0002", b"day.card", DAY)
ask(CARD, b"card, an edition of 64 bits and 1", b"18446744073709551617", b"day.card", BAD_EDITION)
ask(CARD, b"card, an edition of 64 bits and 2", b"18446744073709551618", b"day.card", BAD_EDITION)
for word in b"", b"two", b"+2", b"2 ", b"2.0":
    ask(CARD, b"card, the edition '" + word + b"'", word, b"day.card", NO_NUMBER)

ask(PAYROLL, b"payroll, wages", b"", b"wages.payroll", WAGES)
ask(PAYROLL, b"payroll, three chunks", b"", b"long.payroll", LONG_WAGES)
ask(PAYROLL, b"payroll, a card file", b"", b"day.card", refused(6, 1, 0))
ask(PAYROLL, b"payroll, empty", b"", b"empty", refused(12, 1, 0))
ask(PAYROLL, b"payroll, a folder", b"", b".", NO_READ)
ask(PAYROLL, b"payroll, no line end", b"", b"no-line-end.payroll", refused(3, 9, 0))

ask_alone(MASK, b"mask, a day", b"2", b"day.card", DAY, LINES, MASKED_DAY)
ask_alone(MASK, b"mask, a day over an OUT", b"2", b"day.card", DAY, LINES, MASKED_DAY, before=BEFORE)
# OUT is FILE itself, which was masked before
enter()
ask(MASK, b"mask, a day, first", b"2", b"day.card", DAY, OUT)
ask(MASK, b"mask, OUT is FILE", b"2", OUT, DAY, OUT)
leave(LINES, MASKED_DAY)
ask_alone(MASK, b"mask, a day with adjustments", b"2", b"adjusted.card", ADJUSTED, LINES, MASKED_ADJUSTED)
ask_alone(MASK, b"mask, three chunks", b"2", b"long.card", LONG_DAY, HASH, hash_of(MASKED_LONG))
# twice: of sales, of adjustments, and of a file that comes in three chunks
ask_twice(b"mask twice, a day", b"day.card", DAY, LINES, MASKED_DAY, DAY_IN_HEX)
ask_twice(b"mask twice, a day with adjustments", b"adjusted.card", ADJUSTED, LINES, MASKED_ADJUSTED, ADJUSTED_IN_HEX)
ask_twice(b"mask twice, three chunks", b"long.card", LONG_DAY, HASH, hash_of(MASKED_LONG), LONG_IN_HEX)
ask_alone(MASK, b"mask, refused", b"2", b"refused.card", REFUSED, LINES, NO_OUT)
ask_alone(MASK, b"mask, refused over an OUT", b"2", b"refused.card", REFUSED, LINES, BEFORE, before=BEFORE)
# its 703 records keep the rules, and A9 does not come
ask_alone(MASK, b"mask, refused in its last chunk", b"2", b"cut.card", refused(12, 704, 0), LINES, NO_OUT)
ask_alone(MASK, b"mask, a line of two chunks", b"2", b"wide.card", refused(6, 2, 0), LINES, NO_OUT)
ask_alone(MASK, b"mask, edition 3 over an OUT", b"3", b"day.card", BAD_EDITION, LINES, BEFORE, before=BEFORE)
ask_alone(MASK, b"mask, empty", b"2", b"empty", refused(12, 1, 0), LINES, NO_OUT)
ask_alone(MASK, b"mask, no line end", b"2", b"no-line-end.card", NO_LINE_END, LINES, NO_OUT)
ask_alone(MASK, b"mask, no edition over an OUT", b"two", b"day.card", NO_NUMBER, LINES, BEFORE, before=BEFORE)
ask_alone(MASK, b"mask, a name of 5,000 bytes", b"2", b"x" * 5000, LONG_NAME, LINES, BEFORE, before=BEFORE)
ask_alone(MASK, b"mask, a day under edition 1", b"1", b"day.card", RETIRED, LINES, NO_OUT)
ask_alone(MASK, b"mask, edition 1 over an OUT", b"1", b"day.card", RETIRED, LINES, BEFORE, before=BEFORE)
ask_alone(MASK, b"mask, no such file", b"2", b"none", NO_FILE, LINES, BEFORE, before=BEFORE)
ask_alone(MASK, b"mask, FILE is a folder", b"2", WORK, NO_READ, LINES, BEFORE, before=BEFORE)
ask_alone(MASK, b"mask, no folder for OUT", b"2", b"day.card", NO_WRITE, LINES, NO_OUT, out=b"work/none/out")
ask_with_a_folder(MASK, b"mask, OUT is a folder")

ask_alone(SHEET, b"sheet, a day", b"2", b"day.card", DAY, HEX, DAY_IN_HEX)
ask_alone(SHEET, b"sheet, a day over an OUT", b"2", b"day.card", DAY, HEX, DAY_IN_HEX, before=BEFORE)
ask_alone(SHEET, b"sheet, a day with adjustments", b"2", b"adjusted.card", ADJUSTED, HEX, ADJUSTED_IN_HEX)
enter()
ask(SHEET, b"sheet, a day, to be read", b"2", b"day.card", DAY, OUT)
ask(READ, b"sheet read, what was written", b"", OUT, DAY_NUMBERS)
leave(HEX, DAY_IN_HEX)
ask_alone(SHEET, b"sheet, refused", b"2", b"refused.card", REFUSED, HEX, NO_OUT)
ask_alone(SHEET, b"sheet, refused over an OUT", b"2", b"refused.card", REFUSED, LINES, BEFORE, before=BEFORE)
ask_alone(SHEET, b"sheet, edition 3 over an OUT", b"3", b"day.card", BAD_EDITION, LINES, BEFORE, before=BEFORE)
ask_alone(SHEET, b"sheet, no line end", b"2", b"no-line-end.card", NO_LINE_END, HEX, NO_OUT)
ask_alone(SHEET, b"sheet, empty", b"2", b"empty", refused(12, 1, 0), HEX, NO_OUT)
ask_alone(SHEET, b"sheet, no edition over an OUT", b"two", b"day.card", NO_NUMBER, LINES, BEFORE, before=BEFORE)
ask_alone(SHEET, b"sheet, a day under edition 1", b"1", b"day.card", RETIRED, HEX, NO_OUT)
ask_alone(SHEET, b"sheet, edition 1 over an OUT", b"1", b"day.card", RETIRED, LINES, BEFORE, before=BEFORE)
ask_alone(SHEET, b"sheet, no such file", b"2", b"none", NO_FILE, LINES, BEFORE, before=BEFORE)
ask_alone(SHEET, b"sheet, FILE is a folder", b"2", WORK, NO_READ, LINES, BEFORE, before=BEFORE)
ask_alone(SHEET, b"sheet, no folder for OUT", b"2", b"day.card", NO_WRITE, HEX, NO_OUT, out=b"work/none/out")
ask_with_a_folder(SHEET, b"sheet, OUT is a folder")

ask(READ, b"sheet read, a day", b"", b"day.sheet", DAY_NUMBERS)
ask(READ, b"sheet read, version 1", b"", b"old.sheet", OLD_NUMBERS)
ask(READ, b"sheet read, split 0", b"", b"split-0.sheet", SPLIT_0_NUMBERS)
ask(READ, b"sheet read, split 1 and no forecast", b"", b"no-forecast.sheet", NO_FORECAST_NUMBERS)
ask(READ, b"sheet read, the largest numbers", b"", b"largest.sheet", LARGEST_NUMBERS)
ask(READ, b"sheet read, version 1 with edition 1", b"", b"edition-1.sheet", OLD_1_NUMBERS)
ask(READ, b"sheet read, split 0 with edition 1", b"", b"edition-1-split-0.sheet", SPLIT_0_1_NUMBERS)
ask(READ, b"sheet read, split 1 with edition 1", b"", b"edition-1-split-1.sheet", DAY_1_NUMBERS)
for size in b"51", b"53", b"80", b"82":
    ask(READ, b"sheet read, " + size + b" bytes", b"", size + b".sheet", NO_SHEET)
ask(READ, b"sheet read, version 2 in 52 bytes", b"", b"2-in-52.sheet", NO_VERSION)
ask(READ, b"sheet read, version 1 in 81 bytes", b"", b"1-in-81.sheet", NO_VERSION)
ask(READ, b"sheet read, split 2", b"", b"split-2.sheet", NO_NUMBERS)
ask(READ, b"sheet read, split 0 and a forecast", b"", b"split-0-forecast.sheet", NO_NUMBERS)
ask(READ, b"sheet read, a million sales in both sets", b"", b"too-large.sheet", NO_NUMBERS)
ask(READ, b"sheet read, empty", b"", b"empty", NO_SHEET)
ask(READ, b"sheet read, a card file", b"", b"day.card", NO_SHEET)
ask(READ, b"sheet read, a folder", b"", b".", NO_READ)
ask(READ, b"sheet read, no such file", b"", b"none", NO_FILE)

ask_alone(CONVERT, b"convert, version 1", b"", b"old.sheet", SPLIT_0_NUMBERS, HEX, SPLIT_0_IN_HEX)
ask_alone(CONVERT, b"convert, version 2", b"", b"day.sheet", OLD_NUMBERS, HEX, OLD_IN_HEX)
ask_alone(CONVERT, b"convert, split 0", b"", b"split-0.sheet", OLD_NUMBERS, HEX, OLD_IN_HEX)
ask_alone(CONVERT, b"convert, split 1 and no forecast", b"", b"no-forecast.sheet", OLD_NUMBERS, HEX, OLD_IN_HEX)
ask_alone(CONVERT, b"convert, the largest numbers", b"", b"largest.sheet", LARGEST_ADDED, HEX, LARGEST_IN_HEX)
# from 1 to 2 and back, and from 2 with split 0 to 1 and back
ask_there_and_back(b"convert, version 1 there", b"old.sheet", SPLIT_0_NUMBERS, SPLIT_0_IN_HEX, OLD_NUMBERS, OLD_IN_HEX)
ask_there_and_back(b"convert, split 0 there", b"split-0.sheet", OLD_NUMBERS, OLD_IN_HEX, SPLIT_0_NUMBERS, SPLIT_0_IN_HEX)
# the same with edition 1, and from 2 with split 1
ask_there_and_back(b"convert, version 1 with edition 1 there", b"edition-1.sheet", SPLIT_0_1_NUMBERS, SPLIT_0_1_IN_HEX, OLD_1_NUMBERS, OLD_1_IN_HEX)
ask_there_and_back(b"convert, split 0 with edition 1 there", b"edition-1-split-0.sheet", OLD_1_NUMBERS, OLD_1_IN_HEX, SPLIT_0_1_NUMBERS, SPLIT_0_1_IN_HEX)
ask_alone(CONVERT, b"convert, split 1 with edition 1", b"", b"edition-1-split-1.sheet", OLD_1_NUMBERS, HEX, OLD_1_IN_HEX)
# OUT is FILE itself
enter(before=DATA["old.sheet"])
ask(CONVERT, b"convert, OUT is FILE", b"", OUT, SPLIT_0_NUMBERS, OUT)
leave(HEX, SPLIT_0_IN_HEX)
ask_alone(CONVERT, b"convert, version 1 over an OUT", b"", b"old.sheet", SPLIT_0_NUMBERS, HEX, SPLIT_0_IN_HEX, before=BEFORE)
ask_alone(CONVERT, b"convert, version 2 over a longer OUT", b"", b"day.sheet", OLD_NUMBERS, HEX, OLD_IN_HEX, before=DATA["day.sheet"])
for size in b"51", b"53", b"80", b"82":
    ask_alone(CONVERT, b"convert, " + size + b" bytes", b"", size + b".sheet", NO_SHEET, LINES, NO_OUT)
ask_alone(CONVERT, b"convert, a card file over an OUT", b"", b"day.card", NO_SHEET, LINES, BEFORE, before=BEFORE)
ask_alone(CONVERT, b"convert, version 2 in 52 bytes over an OUT", b"", b"2-in-52.sheet", NO_VERSION, LINES, BEFORE, before=BEFORE)
ask_alone(CONVERT, b"convert, version 1 in 81 bytes", b"", b"1-in-81.sheet", NO_VERSION, LINES, NO_OUT)
ask_alone(CONVERT, b"convert, split 2", b"", b"split-2.sheet", NO_NUMBERS, LINES, NO_OUT)
ask_alone(CONVERT, b"convert, split 0 and a forecast over an OUT", b"", b"split-0-forecast.sheet", NO_NUMBERS, LINES, BEFORE, before=BEFORE)
ask_alone(CONVERT, b"convert, a million sales in both sets", b"", b"too-large.sheet", NO_NUMBERS, LINES, NO_OUT)
ask_alone(CONVERT, b"convert, empty", b"", b"empty", NO_SHEET, LINES, NO_OUT)
enter(before=DATA["82.sheet"])
ask(CONVERT, b"convert, refused, and OUT is FILE", b"", OUT, NO_SHEET, OUT)
leave(HEX, DAY_IN_HEX[:-1] + b"00\n")
ask_alone(CONVERT, b"convert, no such file", b"", b"none", NO_FILE, LINES, BEFORE, before=BEFORE)
ask_alone(CONVERT, b"convert, FILE is a folder", b"", WORK, NO_READ, LINES, BEFORE, before=BEFORE)
ask_alone(CONVERT, b"convert, no folder for OUT", b"", b"old.sheet", NO_WRITE, LINES, NO_OUT, out=b"work/none/out")
ask_with_a_folder(CONVERT, b"convert, OUT is a folder", b"old.sheet")

ask(TOLD, b"adjustments, a day", b"2", b"day.card", DAY_ADJUSTED)
ask(TOLD, b"adjustments, a day with adjustments", b"2", b"adjusted.card", ADJUSTED_ADJUSTED)
ask(TOLD, b"adjustments, three chunks", b"2", b"long-adjusted.card", LONG_ADJUSTED_ADJUSTED)
ask(TOLD, b"adjustments, refused", b"2", b"refused.card", REFUSED)
ask(TOLD, b"adjustments, a day under edition 1", b"1", b"adjusted.card", RETIRED)
ask(TOLD, b"adjustments, no edition", b"two", b"adjusted.card", NO_NUMBER)
ask(TOLD, b"adjustments, a folder", b"2", b".", NO_READ)

ask_alone(ROWS, b"adjustments written, a day", b"2", b"day.card", DAY_ADJUSTED, LINES, HEADER)
ask_alone(ROWS, b"adjustments written, a day with adjustments", b"2", b"adjusted.card", ADJUSTED_ADJUSTED, LINES, ADJUSTED_ROWS)
ask_alone(ROWS, b"adjustments written, over an OUT", b"2", b"adjusted.card", ADJUSTED_ADJUSTED, LINES, ADJUSTED_ROWS, before=BEFORE)
ask_alone(ROWS, b"adjustments written, texts to guard", b"2", b"guarded.card", GUARDED_ADJUSTED, LINES, GUARDED_ROWS)
ask_alone(ROWS, b"adjustments written, three chunks", b"2", b"long-adjusted.card", LONG_ADJUSTED_ADJUSTED, HASH, hash_of(LONG_ROWS))
# of the masked copy the same rows
enter()
ask(MASK, b"adjustments written, masked first", b"2", b"adjusted.card", ADJUSTED, AGAIN)
ask(ROWS, b"adjustments written, of the masked copy", b"2", AGAIN, ADJUSTED_ADJUSTED, OUT)
show(LINES, MASKED_ADJUSTED, AGAIN)
leave(LINES, ADJUSTED_ROWS)
ask_alone(ROWS, b"adjustments written, refused", b"2", b"refused.card", REFUSED, LINES, NO_OUT)
ask_alone(ROWS, b"adjustments written, refused over an OUT", b"2", b"refused.card", REFUSED, LINES, BEFORE, before=BEFORE)
ask_alone(ROWS, b"adjustments written, refused in its last chunk", b"2", b"cut-adjusted.card", refused(12, 705, 0), LINES, NO_OUT)
ask_alone(ROWS, b"adjustments written, a line of two chunks", b"2", b"wide.card", refused(6, 2, 0), LINES, NO_OUT)
ask_alone(ROWS, b"adjustments written, edition 3 over an OUT", b"3", b"adjusted.card", BAD_EDITION, LINES, BEFORE, before=BEFORE)
ask_alone(ROWS, b"adjustments written, edition 1", b"1", b"adjusted.card", RETIRED, LINES, NO_OUT)
ask_alone(ROWS, b"adjustments written, no edition over an OUT", b"two", b"adjusted.card", NO_NUMBER, LINES, BEFORE, before=BEFORE)
ask_alone(ROWS, b"adjustments written, empty", b"2", b"empty", refused(12, 1, 0), LINES, NO_OUT)
ask_alone(ROWS, b"adjustments written, no such file", b"2", b"none", NO_FILE, LINES, BEFORE, before=BEFORE)
ask_alone(ROWS, b"adjustments written, FILE is a folder", b"2", WORK, NO_READ, LINES, BEFORE, before=BEFORE)
ask_alone(ROWS, b"adjustments written, no folder for OUT", b"2", b"adjusted.card", NO_WRITE, LINES, NO_OUT, out=b"work/none/out")
ask_with_a_folder(ROWS, b"adjustments written, OUT is a folder")


def main():
    for name, content in DATA.items():
        write_cases("file_cases", name, [content])
    write_cases("file_cases", "own.cases", STEPS)
    (CRATES / "file_cases" / "stdout").write_bytes(b"".join(STDOUT))


main()

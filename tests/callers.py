#!/usr/bin/env python3
"""Runs stored cases through the Python module, and prints the lines that the test programs print of them (tests/callers compares the two).

    tests/callers.py QUESTION WAY FILE     as callers of tests/callers.c
    tests/callers.py threads FILE          two threads at once get the answers that one gets
    tests/callers.py use                   what the module takes, and what it calls wrong use; the last line is `N passed, M failed`
    tests/callers.py month FILE..          the line of each card file under edition 2, as `card 2 FILE..` begins it
"""
import array
import mmap
import pathlib
import sys
import tempfile
import threading
import tracemalloc

sys.dont_write_bytecode = True
ROOT = pathlib.Path(__file__).resolve().parent.parent
sys.path.insert(0, str(ROOT / "examples" / "python"))
import lossivurn  # noqa: E402
from lossivurn import Refusal, Sheet, Totals  # noqa: E402

CLOSE = 0xFFFFFFFF
# The line of a case with an output that is too short: the module makes the output itself, and cannot be asked.
NOT_ASKED = "not asked"


class Cursor:
    """A place in the cases."""

    def __init__(self, cases):
        self.cases, self.at = cases, 0

    def part(self, length):
        self.at += length
        if self.at > len(self.cases):
            sys.exit("a case is cut short")
        return self.cases[self.at - length:self.at]

    def number(self, size):
        return int.from_bytes(self.part(size), "big")

    def more(self):
        return self.at < len(self.cases)


# ---- Lines -----------------------------------------------------------------------------------------------------------------------------------


def hashed(data):
    h = 0
    for byte in data:
        h = (h * 31 + byte) % 2**32
    return h


def refused(refusal):
    return f"R {refusal.number} {refusal.record} {refusal.column}"


def card_line(answer):
    if answer.refusal:
        return refused(answer.refusal)
    if not answer.accepted:
        return "-"
    numbers = (answer.records, answer.batches, *answer.forecast, *answer.settled, *answer.credits, *answer.debits)
    return f"A {answer.date:08} {answer.movement:06} " + " ".join(map(str, numbers))


def payroll_line(answer):
    if answer.refusal:
        return refused(answer.refusal)
    return " ".join(map(str, ("A", *answer[2:]))) if answer.accepted else "-"


def sheet_line(sheet):
    if isinstance(sheet, Refusal):
        return refused(sheet)
    behind = (sheet.split, *sheet.forecast) if sheet.version == 2 else ()
    return f"A {sheet.version} {sheet.edition} {sheet.date:08} {sheet.movement:06} " + " ".join(map(str, (sheet.batches, *sheet.settled, *behind)))


def pattern(room):
    """An output as every case finds it."""
    return bytes((i * 7 + 3) % 256 for i in range(room))


def told(line, written, room, way):
    """A line with the output behind it, in which what was written stands in front."""
    out = (written or b"") + pattern(room)[len(written or b""):]
    return f"{line} {hashed(out)}" if way == "hash" else f"{line} [{out.hex()}]"


# ---- Files in three ways ---------------------------------------------------------------------------------------------------------------------


def records_of(file):
    """Its records and its rest; None where a line end is no CR LF."""
    *pieces, rest = file.split(b"\n")
    return ([piece[:-1] for piece in pieces], rest) if all(piece.endswith(b"\r") for piece in pieces) else None


def in_chunks(stream, file, step):
    for at in range(0, len(file), step):
        stream.take(memoryview(file)[at:at + step])
        stream.take(b"")
    stream.end()
    return stream.answer()


def card_answer(way, edition, file):
    if way == "whole":
        return lossivurn.check(edition, file)
    if way != "records":
        return in_chunks(lossivurn.Stream(edition), file, int(way))
    cut = records_of(file)
    if cut is None or cut[1]:
        return lossivurn.check(edition, file)
    given = lossivurn.Records(edition)
    for each in cut[0]:
        given.feed(each)
    given.close()
    return given.answer()


def payroll_answer(way, file):
    if way == "whole":
        return lossivurn.check_payroll(file)
    if way != "records":
        return in_chunks(lossivurn.PayrollStream(), file, int(way))
    cut = records_of(file)
    if cut is None:
        return lossivurn.check_payroll(file)
    given = lossivurn.PayrollRecords()
    for each in cut[0]:
        given.feed(each)
    given.close(cut[1])
    return given.answer()


# ---- The line of a case, by its question -----------------------------------------------------------------------------------------------------


def card(cases, way):
    edition = cases.number(1)
    return card_line(card_answer(way, edition, cases.part(cases.number(4))))


def fed(cases, _):
    given, lines = lossivurn.Records(cases.number(1)), []
    calls = Cursor(cases.part(cases.number(4)))
    while calls.more():
        length = calls.number(4)
        if length == CLOSE:
            given.close()
        else:
            given.feed(calls.part(length))
        lines.append(card_line(given.answer()))
    return ";".join(lines)


def written_by(question):
    """Of a file that is masked, or whose sheet is written."""
    def line(cases, way):
        edition, room = cases.number(1), cases.number(4)
        file = cases.part(cases.number(4))
        answer, out = question(edition, file)
        need = len(file) if question is lossivurn.mask else 81
        if room < need and not (answer.refusal and answer.refusal.number in (1, 22)):
            return NOT_ASKED
        return told(card_line(answer), out, room, way)
    return line


def payroll(cases, way):
    return payroll_line(payroll_answer(way, cases.part(cases.number(4))))


def field(cases, _):
    number = cases.number(4)
    found = lossivurn.field(cases.part(cases.number(4)), number)
    return refused(found) if isinstance(found, Refusal) else f"P {len(found)} {hashed(found)}"


def sheet_written(answer, room, way):
    """Of a sheet that is written or converted; the other refusals come before 2."""
    if isinstance(answer, Refusal):
        return told(refused(answer), None, room, way)
    return NOT_ASKED if room < len(answer) else told("A", answer, room, way)


def write(version):
    def line(cases, way):
        room = cases.number(4)
        *heading, sales, gross, discount, net = (cases.number(8) for _ in range(8))
        behind = (cases.number(8), Totals(*(cases.number(8) for _ in range(4)))) if version == 2 else ()
        return sheet_written(Sheet(version, *heading, Totals(sales, gross, discount, net), *behind).write(), room, way)
    return line


def convert(cases, way):
    room = cases.number(4)
    return sheet_written(lossivurn.convert(cases.part(cases.number(4))), room, way)


QUESTIONS = {
    "card": card, "fed": fed, "mask": written_by(lossivurn.mask), "payroll": payroll, "field": field,
    "read": lambda cases, _: sheet_line(Sheet.read(cases.part(cases.number(4)))), "write1": write(1), "write2": write(2), "convert": convert,
    "of_file": written_by(lossivurn.sheet_of),
}

# ---- Threads, and how the module is used -----------------------------------------------------------------------------------------------------


def all_answers(data):
    cases, answers = Cursor(data), []
    while cases.more():
        edition = cases.number(1)
        file = cases.part(cases.number(4))
        answers += [card_answer(way, edition, file) for way in ("whole", "97", "records")]
    return answers


def threads(name):
    data = pathlib.Path(name).read_bytes()
    alone, found = all_answers(data), {}
    for _ in range(3):
        running = [threading.Thread(target=lambda i=i: found.update({i: all_answers(data)})) for i in range(2)]
        for each in running:
            each.start()
        for each in running:
            each.join()
        if found != {0: alone, 1: alone}:
            sys.exit("two threads get other answers")
    print("two threads get the answers that one gets")


def nothing_copied(data):
    """Whether a check of so many bytes takes no memory of that size."""
    tracemalloc.start()
    lossivurn.check(2, data)
    stream = lossivurn.Stream(2)
    stream.take(data)
    _, most = tracemalloc.get_traced_memory()
    tracemalloc.stop()
    return most < len(data) // 100


def use():
    day = (ROOT / "samples" / "day.card").read_bytes()
    answer = lossivurn.check(2, day)
    sale = day.split(b"\r\n")[2]
    counts = [0, 0]

    def holds(name, it_does):
        counts[not it_does] += 1
        print(("ok: " if it_does else "FAILED: ") + name)

    def raises(name, what, *calls):
        for call in calls:
            try:
                call()
            except what:
                continue
            return holds(name, False)
        holds(name, True)

    holds("the sample is accepted", answer.accepted and answer.refusal is None and answer.settled == Totals(3, 50990, 1275, 49715))
    with open(ROOT / "samples" / "day.card", "rb") as file, mmap.mmap(file.fileno(), 0, access=mmap.ACCESS_READ) as mapped:
        holds("a map that is read only", lossivurn.check(2, mapped) == answer)
    with tempfile.TemporaryFile() as file:
        file.truncate(1 << 24)
        with mmap.mmap(file.fileno(), 0, access=mmap.ACCESS_READ) as mapped:
            holds("bytes, a bytearray and a map are lent and not copied", all(map(nothing_copied, (bytes(1 << 24), bytearray(1 << 24), mapped))))
    holds("a bytearray", lossivurn.check(2, bytearray(day)) == answer)
    holds("a memoryview, and a part of one", lossivurn.check(2, memoryview(b"x" + day)[1:]) == answer)
    holds("an array of bytes", lossivurn.check(2, array.array("B", day)) == answer)
    holds("no byte at all", lossivurn.check(2, b"").refusal == Refusal(12, 1, 0))
    holds("editions that ctypes would cut down to 2", all(lossivurn.check(n, day).refusal == Refusal(1, 0, 0) for n in (2**64 + 2, 2 - 2**64, -1, 2**64 - 1, 3, 0)))
    holds("the same of a stream and of records", all(kind(2**64 + 2).answer().refusal == Refusal(1, 0, 0) for kind in (lossivurn.Stream, lossivurn.Records)))
    holds("edition 1", lossivurn.check(1, day).refusal == Refusal(22, 0, 0))
    raises("an edition that is no number", TypeError, lambda: lossivurn.check("2", day), lambda: lossivurn.check(2.0, day), lambda: lossivurn.check(None, day), lambda: lossivurn.Stream("2"))
    raises("data that are no bytes", TypeError, lambda: lossivurn.check(2, "text"), lambda: lossivurn.check(2, None), lambda: lossivurn.check(2, [1]), lambda: lossivurn.Stream(2).take("text"))
    raises("bytes with gaps", BufferError, lambda: lossivurn.check(2, memoryview(day)[::2]), lambda: lossivurn.field(memoryview(sale * 2)[::2], 2))
    masked, copy = lossivurn.mask(2, day)
    holds("the masked copy", masked == answer and len(copy) == len(day) and b"000411111******1111" in copy and b"4111111111111111" not in copy)
    holds("masked again, the same bytes", lossivurn.mask(2, copy) == (answer, copy))
    holds("a refused file has no copy and no sheet", lossivurn.mask(1, day)[1] is None and lossivurn.sheet_of(1, day)[1] is None)
    _, written = lossivurn.sheet_of(2, day)
    sheet = Sheet.read(written)
    holds("the day sheet", written == (ROOT / "samples" / "day.sheet").read_bytes() and sheet.settled == answer.settled and sheet.forecast == answer.forecast)
    holds("a sheet there and back", sheet.write() == written)
    holds("a sheet converted, and back without its split", Sheet.read(lossivurn.convert(written)).version == 1 and Sheet.read(lossivurn.convert(lossivurn.convert(written))).split == 0)
    holds("a sheet's numbers that ctypes would cut down", all(sheet._replace(**{name: getattr(sheet, name) + 2**64}).write() == Refusal(17, 0, 0) for name in ("edition", "date", "movement", "batches", "split")))
    holds("a sheet's negative number", sheet._replace(batches=-1).write() == Refusal(17, 0, 0))
    raises("a sheet of a version that there is not", ValueError, lambda: sheet._replace(version=3).write(), lambda: sheet._replace(version=1).write())
    holds("a field", lossivurn.field(sale, 2) == b"POSTO AURORA   " and lossivurn.field(sale, 13) == Refusal(14, 0, 0) and lossivurn.field(sale, 2**64 + 2) == Refusal(14, 0, 0))
    holds("no sheet", Sheet.read(b"DSH") == Refusal(15, 0, 0) and lossivurn.convert(b"") == Refusal(15, 0, 0))
    stream = lossivurn.Stream(2)
    stream.take(day)
    holds("a stream that has not ended is not accepted", stream.answer() == answer._replace(accepted=False, date=0, movement=0, records=0, batches=0, forecast=Totals(0, 0, 0, 0), settled=Totals(0, 0, 0, 0), credits=answer.credits, debits=answer.debits))
    stream.end()
    holds("and then it is", stream.answer() == answer)
    print(f"{counts[0]} passed, {counts[1]} failed")
    sys.exit(counts[1] > 0)


def month(names):
    for name in names:
        with open(name, "rb") as file:
            answer = lossivurn.check(2, file.read())
        print("ACCEPTED" if answer.accepted else "REFUSED {} RECORD {} COLUMN {}".format(*answer.refusal), name)


def main(words):
    if words == ["use"]:
        use()
    elif len(words) == 2 and words[0] == "threads":
        threads(words[1])
    elif words and words[0] == "month":
        month(words[1:])
    elif len(words) == 3 and words[0] in QUESTIONS:
        cases = Cursor(pathlib.Path(words[2]).read_bytes())
        while cases.more():
            print(QUESTIONS[words[0]](cases, words[1]))
    else:
        sys.exit(__doc__)


main(sys.argv[1:])

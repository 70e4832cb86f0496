"""Card files, payroll files and day sheets, answered by Lossivurn's proved library.

    import lossivurn

    with open("day.card", "rb") as file:
        answer = lossivurn.check(2, file.read())
    if answer.accepted:
        print(answer.settled.net)           # centavos
    else:
        print(answer.refusal)               # Refusal(number=9, record=3, column=194)

The edition is the caller's to state: 2 is that of November 2023, and 1 is retired. Every file gets an answer, broken or hostile; nothing is raised for what a file holds.
A TypeError or a BufferError says that what was handed over is no run of bytes, or no number; a ValueError that a Sheet has a version it cannot have.

Bytes may be bytes, a bytearray, a memoryview or an mmap: they are lent to the library as they stand, and not copied. While a call runs other threads run too, and must
not change them. A number that has no room in 64 bits is handed over as the largest that has, which is no edition, no field and no number of a sheet.

Any thread may ask. An object that keeps a file's state (Stream, Records, ..) is one thread's at a time.

Needs CPython 3.9 or later on x86-64 Linux, and liblossivurn.so, which examples/python/build makes: beside this file, or where LOSSIVURN_LIBRARY says.
"""
from __future__ import annotations

import ctypes
import mmap
import operator
import os
import pathlib
from typing import NamedTuple, Optional, Union

Bytes = Union[bytes, bytearray, memoryview, mmap.mmap]

# ---- Answers ---------------------------------------------------------------------------------------------------------------------------------


class Refusal(NamedTuple):
    """Why something is refused: the number in the refusal list, the record from 1, and the column; 0 where the list gives none."""

    number: int
    record: int
    column: int


class Totals(NamedTuple):
    """How many sales, and what is payable for them, in centavos."""

    sales: int
    gross: int
    discount: int
    net: int


class Adjusted(NamedTuple):
    """How many adjustments, and their net in centavos."""

    count: int
    net: int


class Answer(NamedTuple):
    """The answer of a card file. Where it is not accepted all numbers are 0; where there is no refusal either, the file goes on.

    `forecast` is of sales that are only announced, and come again when they are paid; `settled` of those that are paid. The date is AAAAMMDD.
    """

    accepted: bool
    refusal: Optional[Refusal]
    date: int
    movement: int
    records: int
    batches: int
    forecast: Totals
    settled: Totals
    credits: Adjusted
    debits: Adjusted


class PayrollAnswer(NamedTuple):
    """The answer of a payroll file. Where it is not accepted all numbers are 0; where there is no refusal either, the file goes on. The amount is in centavos."""

    accepted: bool
    refusal: Optional[Refusal]
    records: int
    batches: int
    payments: int
    amount: int


# ---- The library -----------------------------------------------------------------------------------------------------------------------------

_HERE = pathlib.Path(__file__).resolve().parent
_LIBRARY = ctypes.CDLL(os.environ.get("LOSSIVURN_LIBRARY") or str(_HERE / "liblossivurn.so"))
_NUMBER, _SIZE, _POINTER = ctypes.c_uint64, ctypes.c_size_t, ctypes.c_void_p
_WAITING = ctypes.POINTER(_SIZE)
_LARGEST = 2**64 - 1

# The arrays of the header, by their lengths.
_CARD_ROW, _PAYROLL_ROW, _SHEET_ROW, _WRITTEN_ROW, _FIELD_ROW = (_NUMBER * n for n in (20, 8, 17, 3, 5))
_SHEET_NUMBERS = {1: _NUMBER * 8, 2: _NUMBER * 13}
_CARD_STATE, _PAYROLL_STATE, _HELD = _NUMBER * 24, _NUMBER * 20, ctypes.c_uint8 * 242
_SHEET_WIDTH = {1: 52, 2: 81}


def _function(name, *types):
    """A function of the library, which answers by what it is lent."""
    function = getattr(_LIBRARY, "lossivurn_" + name)
    function.argtypes, function.restype = types, None
    return function


_card_check = _function("card_check", _NUMBER, _POINTER, _SIZE, _CARD_ROW)
_card_mask = _function("card_mask", _NUMBER, _POINTER, _SIZE, _POINTER, _SIZE, _CARD_ROW)
_card_sheet = _function("card_sheet", _NUMBER, _POINTER, _SIZE, _POINTER, _SIZE, _CARD_ROW)
_payroll_check = _function("payroll_check", _POINTER, _SIZE, _PAYROLL_ROW)
_sale_field = _function("sale_field", _POINTER, _SIZE, _NUMBER, _FIELD_ROW)
_sheet_read = _function("sheet_read", _POINTER, _SIZE, _SHEET_ROW)
_sheet_write = {version: _function(f"sheet_write_{version}", _SHEET_NUMBERS[version], _POINTER, _SIZE, _WRITTEN_ROW) for version in (1, 2)}
_sheet_convert = _function("sheet_convert", _POINTER, _SIZE, _POINTER, _SIZE, _WRITTEN_ROW)
_card_open = _function("card_open", _NUMBER, _CARD_STATE)
_card_feed = _function("card_feed", _CARD_STATE, _POINTER, _SIZE)
_card_close = _function("card_close", _CARD_STATE)
_card_answer = _function("card_answer", _CARD_STATE, _CARD_ROW)
_payroll_open = _function("payroll_open", _PAYROLL_STATE)
_payroll_feed = _function("payroll_feed", _PAYROLL_STATE, _POINTER, _SIZE)
_payroll_close = _function("payroll_close", _PAYROLL_STATE, _POINTER, _SIZE)
_payroll_answer = _function("payroll_answer", _PAYROLL_STATE, _PAYROLL_ROW)
_card_stream_open = _function("card_stream_open", _NUMBER, _CARD_STATE, _WAITING, _HELD)
_card_stream_take = _function("card_stream_take", _CARD_STATE, _WAITING, _HELD, _POINTER, _SIZE)
_card_stream_end = _function("card_stream_end", _CARD_STATE, _WAITING, _HELD)
_card_stream_answer = _function("card_stream_answer", _CARD_STATE, _SIZE, _HELD, _CARD_ROW)
_payroll_stream_open = _function("payroll_stream_open", _PAYROLL_STATE, _WAITING, _HELD)
_payroll_stream_take = _function("payroll_stream_take", _PAYROLL_STATE, _WAITING, _HELD, _POINTER, _SIZE)
_payroll_stream_end = _function("payroll_stream_end", _PAYROLL_STATE, _WAITING, _HELD)
_payroll_stream_answer = _function("payroll_stream_answer", _PAYROLL_STATE, _SIZE, _HELD, _PAYROLL_ROW)


class _View(ctypes.Structure):
    """CPython's Py_buffer: the front of it, and room for the rest."""

    _fields_ = [("buf", ctypes.c_void_p), ("obj", ctypes.py_object), ("len", ctypes.c_ssize_t), ("rest", ctypes.c_byte * 160)]


_get_buffer = ctypes.pythonapi.PyObject_GetBuffer
_get_buffer.argtypes, _get_buffer.restype = (ctypes.py_object, ctypes.POINTER(_View), ctypes.c_int), ctypes.c_int
_release_buffer = ctypes.pythonapi.PyBuffer_Release
_release_buffer.argtypes, _release_buffer.restype = (ctypes.POINTER(_View),), None
_NOTHING = (ctypes.c_uint8 * 1)()


class _Lent:
    """`with _Lent(data) as (pointer, length)`: the bytes where they stand, read-only ones too. The pointer is never NULL."""

    def __init__(self, data: Bytes):
        self._data, self._view = data, _View()

    def __enter__(self):
        _get_buffer(self._data, ctypes.byref(self._view), 0)  # PyBUF_SIMPLE: a TypeError for no bytes, a BufferError for bytes with gaps
        return self._view.buf if self._view.len else ctypes.addressof(_NOTHING), self._view.len

    def __exit__(self, *_):
        _release_buffer(ctypes.byref(self._view))


def _number(value: int) -> int:
    """A number as it is handed over. ctypes would cut 2**64 + 2 down to 2."""
    value = operator.index(value)
    return value if 0 <= value <= _LARGEST else _LARGEST


def _refusal(row) -> Optional[Refusal]:
    return Refusal(*row[:3]) if row[0] else None


def _answer(row) -> Answer:
    return Answer(bool(row[19]), _refusal(row), *row[3:7], Totals(*row[7:11]), Totals(*row[11:15]), Adjusted(*row[15:17]), Adjusted(*row[17:19]))


def _payroll(row) -> PayrollAnswer:
    return PayrollAnswer(bool(row[7]), _refusal(row), *row[3:7])


def _output(room: int):
    """An output of this size, and how C sees it; there is a byte where there is no room, since no pointer is NULL."""
    out = bytearray(max(room, 1))
    return out, (ctypes.c_uint8 * len(out)).from_buffer(out)


# ---- Whole files -----------------------------------------------------------------------------------------------------------------------------


def check(edition: int, data: Bytes) -> Answer:
    """The answer of a card file under an edition."""
    row = _CARD_ROW()
    with _Lent(data) as (at, length):
        _card_check(_number(edition), at, length, row)
    return _answer(row)


def check_payroll(data: Bytes) -> PayrollAnswer:
    """The answer of a payroll file."""
    row = _PAYROLL_ROW()
    with _Lent(data) as (at, length):
        _payroll_check(at, length, row)
    return _payroll(row)


def mask(edition: int, data: Bytes) -> tuple[Answer, Optional[bytearray]]:
    """The answer of a card file, and its masked copy, with a star at each hidden place; None where the file is refused."""
    row = _CARD_ROW()
    with _Lent(data) as (at, length):
        out, lent = _output(length)
        _card_mask(_number(edition), at, length, lent, length, row)
    answer = _answer(row)
    return answer, out if answer.accepted else None


def sheet_of(edition: int, data: Bytes) -> tuple[Answer, Optional[bytes]]:
    """The answer of a card file, and the 81 bytes of its day sheet; None where the file is refused."""
    row, room = _CARD_ROW(), _SHEET_WIDTH[2]
    out, lent = _output(room)
    with _Lent(data) as (at, length):
        _card_sheet(_number(edition), at, length, lent, room, row)
    answer = _answer(row)
    return answer, bytes(out) if answer.accepted else None


def field(record: Bytes, number: int) -> Union[bytes, Refusal]:
    """The field with this number, 1 to 26, of a lone CV record without its line end; never 13, the card."""
    row = _FIELD_ROW()
    with _Lent(record) as (at, length):
        _sale_field(at, length, _number(number), row)
    return _refusal(row) or bytes(memoryview(record).cast("B")[row[3]:row[3] + row[4]])


# ---- Day sheets ------------------------------------------------------------------------------------------------------------------------------


class Sheet(NamedTuple):
    """The numbers of a day sheet, of version 1 or 2.

    Version 2 tells settled sales and forecast ones apart, and `split` is 1 where they are known apart. In version 1 `settled` is of all sales, `split` is 0 and
    `forecast` is of none.
    """

    version: int
    edition: int
    date: int
    movement: int
    batches: int
    settled: Totals
    split: int = 0
    forecast: Totals = Totals(0, 0, 0, 0)

    @staticmethod
    def read(data: Bytes) -> Union[Sheet, Refusal]:
        """The sheet that these bytes are, of either version."""
        row = _SHEET_ROW()
        with _Lent(data) as (at, length):
            _sheet_read(at, length, row)
        return _refusal(row) or Sheet(*row[3:8], Totals(*row[8:12]), row[12], Totals(*row[13:17]))

    def write(self) -> Union[bytes, Refusal]:
        """The bytes of a new sheet with these numbers: 52 of version 1, 81 of version 2. A ValueError where the version is neither, or where a sheet of version 1
        has a split or a forecast, which would be lost."""
        if self.version not in (1, 2):
            raise ValueError(f"a day sheet has version 1 or 2, and not {self.version!r}")
        if self.version == 1 and (self.split, *self.forecast) != (0, 0, 0, 0, 0):
            raise ValueError("a day sheet of version 1 has no split and no forecast")
        named = (self.edition, self.date, self.movement, self.batches, *self.settled, self.split, *self.forecast)
        numbers = _SHEET_NUMBERS[self.version]
        row, room = _WRITTEN_ROW(), _SHEET_WIDTH[self.version]
        out, lent = _output(room)
        _sheet_write[self.version](numbers(*map(_number, named[:numbers._length_])), lent, room, row)
        return _refusal(row) or bytes(out)


def convert(data: Bytes) -> Union[bytes, Refusal]:
    """The bytes of a day sheet in the other version: of 81 bytes 52, in which the split is lost, and of 52 bytes 81, whose split is not known."""
    row = _WRITTEN_ROW()
    with _Lent(data) as (at, length):
        room = _SHEET_WIDTH[1 if length == _SHEET_WIDTH[2] else 2]
        out, lent = _output(room)
        _sheet_convert(at, length, lent, room, row)
    return _refusal(row) or bytes(out)


# ---- Record by record ------------------------------------------------------------------------------------------------------------------------


class Records:
    """A card file that is given record by record, without line ends, and then closed."""

    def __init__(self, edition: int):
        self._state = _CARD_STATE()
        _card_open(_number(edition), self._state)

    def feed(self, record: Bytes) -> None:
        """Takes the next record."""
        with _Lent(record) as (at, length):
            _card_feed(self._state, at, length)

    def close(self) -> None:
        """No record comes any more."""
        _card_close(self._state)

    def answer(self) -> Answer:
        """The answer so far: a refusal as soon as there is one, and the file's numbers once it is closed."""
        row = _CARD_ROW()
        _card_answer(self._state, row)
        return _answer(row)


class PayrollRecords:
    """A payroll file that is given record by record, without line ends, and then closed with what stands behind the last of them."""

    def __init__(self):
        self._state = _PAYROLL_STATE()
        _payroll_open(self._state)

    def feed(self, record: Bytes) -> None:
        """Takes the next record."""
        with _Lent(record) as (at, length):
            _payroll_feed(self._state, at, length)

    def close(self, rest: Bytes = b"\x1a") -> None:
        """No record comes any more; behind the last line end stands one byte 1A, or what is given here."""
        with _Lent(rest) as (at, length):
            _payroll_close(self._state, at, length)

    def answer(self) -> PayrollAnswer:
        """The answer so far."""
        row = _PAYROLL_ROW()
        _payroll_answer(self._state, row)
        return _payroll(row)


# ---- In chunks -------------------------------------------------------------------------------------------------------------------------------


class Stream:
    """A card file that comes in chunks of any size."""

    def __init__(self, edition: int):
        self._kept = _CARD_STATE(), _SIZE(), _HELD()
        _card_stream_open(_number(edition), *self._kept)

    def take(self, chunk: Bytes) -> None:
        """Takes the file's next bytes, as many as there are."""
        with _Lent(chunk) as (at, length):
            _card_stream_take(*self._kept, at, length)

    def end(self) -> None:
        """No byte comes any more."""
        _card_stream_end(*self._kept)

    def answer(self) -> Answer:
        """The answer so far: a refusal as soon as there is one, and the file's numbers once it has ended."""
        row = _CARD_ROW()
        _card_stream_answer(*self._kept, row)
        return _answer(row)


class PayrollStream:
    """A payroll file that comes in chunks of any size."""

    def __init__(self):
        self._kept = _PAYROLL_STATE(), _SIZE(), _HELD()
        _payroll_stream_open(*self._kept)

    def take(self, chunk: Bytes) -> None:
        """Takes the file's next bytes, as many as there are."""
        with _Lent(chunk) as (at, length):
            _payroll_stream_take(*self._kept, at, length)

    def end(self) -> None:
        """No byte comes any more."""
        _payroll_stream_end(*self._kept)

    def answer(self) -> PayrollAnswer:
        """The answer so far."""
        row = _PAYROLL_ROW()
        _payroll_stream_answer(*self._kept, row)
        return _payroll(row)

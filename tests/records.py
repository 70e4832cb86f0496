"""The records of a card file that document 01's example describes, an adjustment, and how cases are made of them."""

CRLF = b"\r\n"

A0 = (b"A0" b"001.7d" b"20231115" b"083000" b"000042" + b"REDE DE POSTOS".ljust(30) + b"0101" b"000777" b"N" b"000001")
L0 = b"L0" b"20231115" b"RE" b"000002"
# A cash sale of 10000 = 250 + 9750, whose card of sixteen is 4111111111111111: instalment 00 of 00, and zero in 111, 123, 134 and 145.
CV = (b"CV" + b"POSTO 7".ljust(15) + b"000000012345" b"20231114" b"235959" b"1" b"20231215" b"D" b"1"
      b"00000010000" b"00000000250" b"00000009750" b"0004111111111111111" b"00" b"00" b"000000000000"
      b"00000000000" b"00000000000" b"00000000000" b"422" b"000123" + b"45678-9".ljust(11) + b"000000998877" b"001" b"010" b"000003")
# A credit of 3000 = 75 + 2925 for that sale, whose card is the same.
AJ = (b"AJ" + b"POSTO 7".ljust(15) + b"000000012345" b"20231114" b"00" b"000000054321" b"20231115" b"101500" b"1" b"20231215" b"1" b"1" b"007"
      + b"VALOR INFORMADO A MENOR".ljust(30) + b"00000003000" b"00000000075" b"00000002925" b"422" b"000123" + b"45678-9".ljust(11)
      + b"0004111111111111111" b"001" b"010" b"000003")
L9 = b"L9" b"000001" b"00000000010000" b"000004"
A9 = b"A9" b"000005" b"000005"
assert [len(r) for r in (A0, L0, CV, AJ, L9, A9)] == [75, 18, 199, 193, 28, 14]


def put(record, position, text):
    """The record with this text from this position on; positions count from 1."""
    assert position - 1 + len(text) <= len(record)
    return record[:position - 1] + text + record[position - 1 + len(text):]


def numbered(record, number):
    """The record with this NSEQ, which is the last six bytes of every kind of a card file."""
    return put(record, len(record) - 5, b"%06d" % number)


def whole(*records):
    return b"".join(record + CRLF for record in records)


def sale(cv):
    """The file of five records with this CV."""
    return whole(A0, L0, cv, L9, A9)


def adjustment(aj):
    """The file of five records with this AJ in place of the CV."""
    return whole(A0, L0, aj, put(L9, 9, b"00000000002925"), A9)


def file_of(*batches):
    """The file of these batches, each the count and the sum that its L9 has and its records. All are numbered, and A9 counts them."""
    made = [A0]
    for count, total, *records in batches:
        made += [L0, *records, b"L9%06d%014d%06d" % (count, total, 0)]
    made.append(b"A9%06d%06d" % (len(made) + 1, 0))
    return whole(*(numbered(record, number) for number, record in enumerate(made, 1)))


# A debit of 2000 = 50 + 1950.
DEBIT = put(put(AJ, 76, b"2"), 110, b"00000002000" b"00000000050" b"00000001950")
# The sale as a forecast, and as an advanced one.
AHEAD, ADVANCED = put(CV, 44, b"0"), put(CV, 44, b"2")
FIVE = sale(CV)
ACCEPTED = "A 20231115 000042 5 1 0 0 0 0 1 10000 250 9750 0 0 0 0"
FORECAST = "A 20231115 000042 5 1 1 10000 250 9750 0 0 0 0 0 0 0 0"
ADJUSTED = "A 20231115 000042 5 1 0 0 0 0 0 0 0 0 1 2925 0 0"

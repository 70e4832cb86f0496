"""Card files and payroll files, made from what they are about: counts, sums and sequence numbers are filled in.

Used by tests/samples.py and bench/make. Positions and widths are document 01's; the assertions hold the widths.
"""

CRLF = b"\r\n"

# ---- Card files ----------------------------------------------------------------------------------------------------------------------------

NO_INSTALMENT = dict(instalment=0, instalments=0, instalment_nsu=0, instalment_gross=0, instalment_discount=0)

SALE = dict(store=b"POSTO AURORA", nsu=1, date=20231114, time=101500, launch=1, launch_date=20231215, product=b"D", capture=1, gross=10000,
            discount=250, card=b"4111111111111111", bank=422, branch=123, account=b"45678-9", authorisation=998877, brand=b"001",
            product_code=b"010", **NO_INSTALMENT)


CREDIT, DEBIT = 1, 2

# For the sale above. One for no sale has original_nsu=0, original_date=0 and card=BLANK.
ADJUSTMENT = dict(store=b"POSTO AURORA", original_nsu=1, original_date=20231114, instalment=0, nsu=9001, date=20231115, time=101500, launch=1,
                  launch_date=20231215, capture=1, type=CREDIT, reason=7, description=b"VALOR INFORMADO A MENOR", gross=3000, discount=75,
                  card=b"4111111111111111", bank=422, branch=123, account=b"45678-9", brand=b"001", product_code=b"010")
BLANK = b" " * 19


def in_sum(one):
    """What a sale or an adjustment adds to L9's sum: a sale its instalment's gross where there is an instalment and else its own, a credit its net;
    a debit takes its net."""
    if "reason" in one:
        net = one["gross"] - one["discount"]
        return net if one["type"] == CREDIT else -net
    return one["instalment_gross"] if one["instalments"] else one["gross"]


def cv(sale, nseq):
    made = (b"CV%-15b%012d%08d%06d%d%08d%b%d%011d%011d%011d%019b%02d%02d%012d%011d%011d%011d%03d%06d%-11b%012d%3b%3b%06d" % (
        sale["store"], sale["nsu"], sale["date"], sale["time"], sale["launch"], sale["launch_date"], sale["product"], sale["capture"],
        sale["gross"], sale["discount"], sale["gross"] - sale["discount"], sale["card"].rjust(19, b"0"), sale["instalment"],
        sale["instalments"], sale["instalment_nsu"], sale["instalment_gross"], sale["instalment_discount"],
        sale["instalment_gross"] - sale["instalment_discount"], sale["bank"], sale["branch"], sale["account"], sale["authorisation"],
        sale["brand"], sale["product_code"], nseq))
    assert len(made) == 199
    return made


def aj(adjustment, nseq):
    made = (b"AJ%-15b%012d%08d%02d%012d%08d%06d%d%08d%d%d%03d%-30b%011d%011d%011d%03d%06d%-11b%b%3b%3b%06d" % (
        adjustment["store"], adjustment["original_nsu"], adjustment["original_date"], adjustment["instalment"], adjustment["nsu"], adjustment["date"],
        adjustment["time"], adjustment["launch"], adjustment["launch_date"], adjustment["capture"], adjustment["type"], adjustment["reason"],
        adjustment["description"], adjustment["gross"], adjustment["discount"], adjustment["gross"] - adjustment["discount"], adjustment["bank"],
        adjustment["branch"], adjustment["account"], adjustment["card"].rjust(19, b"0"), adjustment["brand"], adjustment["product_code"], nseq))
    assert len(made) == 193
    return made


def card_file(batches, date=20231115, movement=42, name=b"REDE DE POSTOS"):
    """The records of a card file, each with its CR LF. A batch is an iterable of sales and adjustments; SALE and ADJUSTMENT have all their names."""
    nseq = 1
    a0 = b"A0001.7d%08d083000%06d%-30b0101000777N%06d" % (date, movement, name, nseq)
    assert len(a0) == 75
    yield a0 + CRLF
    for batch in batches:
        nseq += 1
        yield b"L0%08dRE%06d" % (date, nseq) + CRLF
        count = total = 0
        for one in batch:
            nseq += 1
            count += 1
            total += in_sum(one)
            yield (aj if "reason" in one else cv)(one, nseq) + CRLF
        nseq += 1
        yield b"L9%06d%014d%06d" % (count, total, nseq) + CRLF
    nseq += 1
    yield b"A9%06d%06d" % (nseq, nseq) + CRLF


# ---- Payroll files -------------------------------------------------------------------------------------------------------------------------


def record(front, *fields):
    """A record of 240 bytes: bank, batch and kind in front, and fields at their positions, which count from 1; blanks elsewhere."""
    made = bytearray(front.ljust(240))
    for position, text in fields:
        made[position - 1:position - 1 + len(text)] = text
    assert len(made) == 240
    return bytes(made) + CRLF


def payroll_file(batches, date=b"15112023"):
    """The records of a payroll file, and the byte 1A. A batch is an iterable of payments, each a name and an amount."""
    records = 1
    count = 0
    yield record(b"42200000", (73, b"REDE DE POSTOS"), (143, b"1"), (144, date))
    for batch in batches:
        count += 1
        yield record(b"422%04d1" % count, (73, b"REDE DE POSTOS"))
        details = amounts = 0
        for name, amount in batch:
            details += 1
            amounts += amount
            yield record(b"422%04d3%05dA" % (count, details), (44, name), (94, b"30112023"), (120, b"%015d" % amount))
        yield record(b"422%04d5" % count, (18, b"%06d" % (details + 2)), (24, b"%018d" % amounts))
        records += details + 2
    yield record(b"42299999", (18, b"%06d" % count), (24, b"%06d" % (records + 1)))
    yield b"\x1a"

#!/usr/bin/env python3
"""Writes the files of samples/, and the same files where the programs' own runs take them from. All is made up, and the card numbers are the card
brands' own test numbers.

    tests/samples.py
"""
import pathlib

from made import ADJUSTMENT, BLANK, DEBIT, SALE, card_file, payroll_file

ROOT = pathlib.Path(__file__).resolve().parent.parent


def sale(store, gross, discount, card, **other):
    return {**SALE, "store": store, "gross": gross, "discount": discount, "card": card, **other}


def adjustment(store, gross, discount, card, **other):
    return {**ADJUSTMENT, "store": store, "gross": gross, "discount": discount, "card": card, **other}


def instalment(number, of, gross, discount):
    return dict(product=b"C", instalment=number, instalments=of, instalment_nsu=number, instalment_gross=gross, instalment_discount=discount)


def sheet(version, *numbers):
    """A day sheet: edition 2, 15 November 2023, movement 42, 3 batches, and then these numbers, each with its width."""
    return b"DSH" + bytes([0, version, 2]) + b"20231115" b"000042" + b"".join(number.to_bytes(width, "big") for number, width in ((3, 4), *numbers))


# Payable: 10000 - 250, 25990 - 650; 15000 - 375, and 15000 - 375 of an instalment that is forecast for January; and a batch of no sale.
DAY = [
    [sale(b"POSTO AURORA", 10000, 250, b"4111111111111111"),
     sale(b"POSTO AURORA", 25990, 650, b"5555555555554444", nsu=2, capture=7)],
    [sale(b"POSTO DO LAGO", 30000, 750, b"4012888888881881", nsu=3, **instalment(1, 2, 15000, 375)),
     sale(b"POSTO DO LAGO", 30000, 750, b"378282246310005", nsu=4, launch=0, launch_date=20240115, **instalment(2, 2, 15000, 375))],
    [],
]


# The day's sheet: the settled sales and what is payable for them, 1 for a split that is known, and the same of the forecast.
SHEET = sheet(2, (3, 4), (50990, 8), (1275, 8), (49715, 8), (1, 1), (1, 4), (15000, 8), (375, 8), (14625, 8))
# The same day in version 1: all sales, forecast or settled.
OLD_SHEET = sheet(1, (4, 4), (65990, 8), (1650, 8), (64340, 8))

# A day with adjustments. To L9 go 10000 and a credit of 2925; 15000 less a debit of 4875, and a credit of 1500 for no sale.
# Names have their accents, each one byte.
NETWORK, SAO_JOAO, BONUS = (text.encode("latin-1") for text in ("ESTAÇÕES REUNIDAS", "POSTO SÃO JOÃO", "BÔNUS DO MÊS"))
ADJUSTED = [
    [sale(b"POSTO AURORA", 10000, 250, b"4111111111111111"),
     adjustment(b"POSTO AURORA", 3000, 75, b"4111111111111111")],
    [sale(SAO_JOAO, 30000, 750, b"4012888888881881", nsu=3, **instalment(1, 2, 15000, 375)),
     adjustment(SAO_JOAO, 5000, 125, b"378282246310005", original_nsu=4, instalment=1, nsu=9002, type=DEBIT, reason=12,
                description=b"VENDA DEVOLVIDA"),
     adjustment(SAO_JOAO, 1500, 0, BLANK, original_nsu=0, original_date=0, nsu=9003, reason=30, description=BONUS)],
]

WAGES = [
    [(b"ANA SOUZA", 412350), (b"BRUNO LIMA", 388000)],
    [(b"CARLA DIAS", 501275)],
]


def refused():
    """Document 01's example: a file of one cash sale, whose CV is numbered 000004."""
    a0, l0, cv, l9, a9 = card_file([[SALE]])
    return [a0, l0, cv.replace(b"000003\r\n", b"000004\r\n"), l9, a9]


FILES = {
    "day.card": b"".join(card_file(DAY)),
    "adjusted.card": b"".join(card_file(ADJUSTED, movement=43, name=NETWORK)),
    "refused.card": b"".join(refused()),
    "wages.payroll": b"".join(payroll_file(WAGES)),
    "day.sheet": SHEET,
    "old.sheet": OLD_SHEET,
}

# What a program is run on: its standard input, or its data.
RUNS = {
    "adjustments/stdin": "adjusted.card",
    "card/stdin": "day.card",
    "mask/data/day.card": "day.card",
    "payroll/data/wages.payroll": "wages.payroll",
    "sheet/data/day.sheet": "day.sheet",
}


def main():
    for name, content in FILES.items():
        (ROOT / "samples" / name).write_bytes(content)
    for place, name in RUNS.items():
        (ROOT / "crates" / place).write_bytes(FILES[name])


if __name__ == "__main__":
    main()

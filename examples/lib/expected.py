#!/usr/bin/env python3
"""What the widgets of m.json log on t.json, by Python's own decimals and texts.

    ./expected.py <t.json

writes the two logs as JSON, first that of BILL_, then that of TESTS_. `../compare.py` compares them with what
the program writes. The fuel and the page of replay.jsonl are those of the program.
"""

import json
import sys
from decimal import ROUND_HALF_UP, Decimal, getcontext
from functools import reduce

MOST = 9007199254740991
getcontext().prec = 60


def fits(number):
    """A whole number as the program logs it, NaN where it is outside the numbers."""
    return number if number is not None and abs(number) <= MOST else None


def read(text, places):
    """The number of a decimal, in units of its last place."""
    body = text[1:] if text[:1] in ("+", "-") else text
    before, point, behind = body.partition(".")
    if not (before + behind).isascii() or not (before + behind).isdigit() or len(behind) > places or len(text) > 64:
        return None
    return fits(int(Decimal(text).scaleb(places)))


def write(number, places):
    """The decimal of a number."""
    return f"{Decimal(number).scaleb(-places):.{places}f}"


def rounded(number):
    """A decimal as a whole number, halves away from 0."""
    return int(number.quantize(Decimal(1), rounding=ROUND_HALF_UP))


def divide(a, b):
    return None if b == 0 else rounded(Decimal(a) / Decimal(b))


def times(a, b, drop):
    return None if fits(a * b) is None else rounded(Decimal(a * b).scaleb(-drop))


def plus(a, b):
    return fits(a + b)


def whole(text):
    good = text.isascii() and text.isdigit() and len(text) < 16
    return int(text) if good else None


CALLS = {
    ("decimal", "read"): read, ("decimal", "write"): write, ("decimal", "plus"): plus,
    ("decimal", "times"): times, ("decimal", "divide"): divide,
    ("more", "indexOf"): lambda many, v: next((i for i, it in enumerate(many) if it == v and type(it) is type(v)), -1),
    ("more", "trim"): lambda text: text.strip(" \t\r\n"),
    ("more", "replace"): lambda text, old, other: text.replace(old, other, 1),
    ("more", "replaceAll"): lambda text, old, other: text.replace(old, other),
    ("more", "startsWith"): lambda text, head: text.startswith(head),
    ("more", "endsWith"): lambda text, tail: text.endswith(tail),
    ("more", "whole"): whole,
}


def logged(value):
    """A value as ADSAFE.log writes it."""
    if value is None:
        return "NaN"
    return ("false", "true")[value] if isinstance(value, bool) else str(value)


def bill(price, count, rate):
    """What the bill shows: all texts as they are typed."""
    typed = [(price, 2), (count, 0), (rate, 1)]
    cents, pieces, percent = [None if len(text) > 64 else read(text.strip(), places) for text, places in typed]
    if None in (cents, pieces, percent):
        return "That cannot be reckoned"
    net = times(cents, pieces, 0)
    tax = None if net is None else times(net, percent, 3)
    total = None if tax is None else plus(net, tax)
    if total is None:
        return "That cannot be reckoned"
    return f"{write(net, 2)} + {write(tax, 2)} = {write(total, 2)}"


def main():
    fields, bills, tests = {1: "", 3: "1", 5: "19.0"}, [], []
    stable = sorted([[2, "b"], [1, "x"], [2, "a"], [1, "y"], [0, "z"]], key=lambda it: it[0])
    tests.append(json.dumps(stable, separators=(",", ":")))
    tests.append(str(reduce(lambda total, n: total + n, [1, 2, 3], 10)))
    tests += ["20 undefined", "true false"]
    for item in json.load(sys.stdin)["items"]:
        if item["to"] == "BILL_":
            fields[item["path"][0]] = item["value"]
            bills.append(bill(fields[1], fields[3], fields[5]))
        else:
            name, call, *given = json.loads(item["value"])
            tests.append(logged(CALLS[name, call](*given)))
    print(json.dumps(bills))
    print(json.dumps(tests))


if __name__ == "__main__":
    main()

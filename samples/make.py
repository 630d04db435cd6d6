"""Writes the sample scripts beside this file, and prints what each of their layouts costs, the cheapest first.

    python3 samples/make.py
"""

import struct
from collections import namedtuple
from itertools import combinations, product
from pathlib import Path

# Days for which each class of records is kept: door events, keypad errors, heartbeats.
DAYS = {"d": 2555, "k": 90, "h": 7}

# parts: name and charge of each line or store, in coordinate order. A charge is a class with its units, such as
# "d3", or a price over the contract, below 0 for a credit. Layouts and start are rows of 0 and 1.
Branch = namedtuple("Branch", "name reach parts layouts start")

HARBOUR_STREET = Branch(
    name="harbour-street",
    reach=1_000_000,
    parts=[
        ("vault line A", "d3"),
        ("vault line B", "d2"),
        ("standby line", "h40"),
        ("keypad store", "k12"),
        ("shared store", "k30"),
        ("event store on the ground floor", "d1"),
        ("event store in the cellar", "d4"),
        ("store handed back", -1500),
    ],
    layouts=["11010110", "10101100", "01101011", "10011101", "01110100"],
    start="11010110",
)

CORN_EXCHANGE_PARTS = [
    ("vault line A", "d3"),
    ("vault line B", "d2"),
    ("vault line C", "d4"),
    ("vault line D", "d1"),
    ("vault line E", "d5"),
    ("cellar store of supplier 1", "d2"),
    ("cellar store of supplier 2", "d4"),
    ("cellar store of supplier 3", "d1"),
    ("cellar store of supplier 4", "d3"),
    ("ground floor store of supplier 1", "d3"),
    ("ground floor store of supplier 2", "d1"),
    ("ground floor store of supplier 3", "d4"),
    ("ground floor store of supplier 4", "d2"),
    ("upper floor store of supplier 1", "k60"),
    ("upper floor store of supplier 2", "k25"),
    ("upper floor store of supplier 3", "k35"),
    ("upper floor store of supplier 4", "k20"),
    ("keypad store of its own", "k40"),
    ("keypad store shared with the lobby", "k15"),
    ("standby line by cable", "h60"),
    ("standby line by radio", 940),
    ("archive outside the branch", 3200),
    ("old cellar store handed back", -2750),
    ("vault line E handed back", -4100),
]


def corn_exchange_layout(lines, supplier):
    """Two vault lines, and one supplier's store on each floor; the rest follows from these."""
    used = {"ABCDE".index(line) for line in lines}
    used |= {4 + supplier, 8 + supplier, 12 + supplier}
    used.add(17 if "A" in lines or "B" in lines else 18)  # beside these lines the lobby's store has no room
    used.add(19 if lines in (("A", "B"), ("C", "D")) else 20)  # a cable joins only two lines of one shaft
    if supplier in (2, 4):  # these have no archive of their own
        used.add(21)
    if supplier != 1:  # the old cellar store is supplier 1's
        used.add(22)
    if "E" not in lines:
        used.add(23)
    return "".join("1" if i in used else "0" for i in range(len(CORN_EXCHANGE_PARTS)))


CORN_EXCHANGE = Branch(
    name="corn-exchange",
    reach=2_000_000,
    parts=CORN_EXCHANGE_PARTS,
    layouts=[corn_exchange_layout(*choice) for choice in product(combinations("ABCDE", 2), (1, 2, 3, 4))],
    start=corn_exchange_layout(("C", "E"), 1),
)

MILL_LANE = Branch(
    name="mill-lane",
    reach=100_000,
    parts=[
        ("vault line A", "d2"),
        ("vault line B", "d3"),
        ("standby line", "h30"),
        ("keypad store", "k10"),
        ("event store", "d1"),
        ("store handed back", -800),
    ],
    layouts=["101110", "011011", "100111", "010110"],
    start="110010",
)


def price(charge):
    return DAYS[charge[0]] * int(charge[1:]) if isinstance(charge, str) else charge


def layout_price(branch, layout):
    return sum(price(charge) for (_, charge), mark in zip(branch.parts, layout) if mark == "1")


def packed(row):
    """Coordinate i is the bit of value 2^(i mod 8) in byte i div 8."""
    return sum(1 << i for i, mark in enumerate(row) if mark == "1").to_bytes(16, "little")


def price_command(coordinate, charge):
    if isinstance(charge, str):
        return struct.pack(">cBcI", b"Y", coordinate, charge[0].encode(), int(charge[1:]))
    return struct.pack(">cBq", b"C", coordinate, charge)


def script(branch):
    n, weight = len(branch.parts), sum(abs(price(charge)) for _, charge in branch.parts)
    assert n <= 128 and len(branch.layouts) <= 256 and weight < branch.reach < 2**40
    assert all(len(row) == n for row in [*branch.layouts, branch.start])
    commands = [struct.pack(">cBcQ", b"N", n, b"L", branch.reach)]
    commands += [b"P" + packed(layout) for layout in branch.layouts]
    commands += [price_command(i, charge) for i, (_, charge) in enumerate(branch.parts)]
    return b"".join([*commands, b"S", packed(branch.start), b"Z"])


def main():
    for branch in (HARBOUR_STREET, CORN_EXCHANGE, MILL_LANE):
        Path(__file__).with_name(branch.name + ".script").write_bytes(script(branch))
        legal = "legal" if branch.start in branch.layouts else "not legal"
        print(f"{branch.name}: start {branch.start} costs {layout_price(branch, branch.start)}, {legal}")
        for layout in sorted(branch.layouts, key=lambda row: layout_price(branch, row)):
            print(f"  {layout} costs {layout_price(branch, layout)}")


main()

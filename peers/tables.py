#!/usr/bin/env python3
"""tables.py OBSERVED [PEERS.md]: the tables of docs/PEERS.md out of what peers/run printed.

With a second file it prints how many of the rows stand in it, and those that do not.
"""
import re
import sys


def observations(lines):
    """For each section of the run, its observed lines as lists of cells."""
    sections, name = {}, None
    for line in lines:
        if line.startswith("== "):
            name = line[3:].strip()
            sections[name] = []
        elif name and re.match(r"[ 12]?\d  ", line):
            sections[name].append([cell.strip() for cell in line.split(" | ")])
    return sections


def short(cell):
    """A cell without the words that all rows have, and with the first message of the log only."""
    cell = cell.split(": ", 1)[1]
    cell = re.sub(r"(^|/ )\d triples?: ", r"\1", cell)
    cell = re.sub(r"(log: [^;]*);.*", r"\1", cell)
    cell = cell.replace("handed on:", "hands on").replace(" as they are", "").replace("no captions", "none")
    if "_cs " in cell:
        false = re.findall(r"(\w+) FALSE", cell)
        cell = " and ".join(false) + " false" if false else "all true"
    return cell


def without_each(text, cases):
    """The cases without a message that all units of their carriage bring."""
    return [[re.sub("; log: " + text, "", cell) for cell in case] for case in cases]


def rows(tables):
    """One table row for each case, with the cells of all peers that were shown it."""
    for cases in zip(*tables):
        number, what = re.match(r"(\d+) +(.*)", cases[0][0]).groups()
        yield "| " + " | ".join([number, what] + [short(c) for case in cases for c in case[2:]]) + " |"


def main():
    sections = observations(open(sys.argv[1]))
    starts = ["Picture area, SCTE 20", "Picture area, GA94", "Subtitling", "Line 21 payload, taken", "PES data field, read",
              "PES data field, written"]
    scte20, ga94, *others = (
        [cases for name, cases in sections.items() if name.startswith(start)] for start in starts)
    ga94 = [without_each(r"CEA-708 closed captions, \d+ bytes", cases) for cases in ga94]
    table = [row for tables in (scte20, ga94, *others) for row in rows(tables)]
    if len(sys.argv) < 3:
        print("\n".join(table))
        return
    text = open(sys.argv[2]).read().split("\n")
    other = [row for row in table if row not in text]
    print(f"docs/PEERS.md: rows observed {len(table)}, in the document {len(table) - len(other)}")
    for row in other:
        print("not in the document:", row)


main()

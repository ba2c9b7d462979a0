#!/usr/bin/env python3
"""extract.py STANDARD.txt > annex_b.txt: the points of Tables B.1 to B.9 of ITU-T J.195.2, AS PRINTED.

One line a point, `bits label I Q`, in the order of the tables' rows, the left half of a row before the right half.
`bits` is the table's own number of bits a point; the label is the digits as they stand on the page, misprints too.
The repairs of document 01 are made in src/points.rs, where they can be seen.
"""
import re
import sys

row = re.compile(r"^([01]+)\t(-?\d+)\t(-?\d+)\t([01]+)\t(-?\d+)\t(-?\d+)$")
bits = None
for line in open(sys.argv[1], encoding="utf-8"):
    line = line.rstrip()
    table = re.match(r"^Table B\.(\d) ", line)
    if table:
        bits = int(table.group(1)) + 1
    half = row.match(line)
    if half and bits:
        print(bits, *half.group(1, 2, 3))
        print(bits, *half.group(4, 5, 6))

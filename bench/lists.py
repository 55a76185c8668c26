#!/usr/bin/env python3
"""Which names two lists of records share, by Python's own dict and unicodedata: prints the equal pairs, the names of the first
list with a partner, and two median times in nanoseconds, the second with the first list's names put in order.

A key is NFKD of the capitals. (Of the titlecase it would be another for one name in two spellings: `title` takes a letter after
a combining mark for the first of a word.) Reading the records and decoding the names is not timed.

Usage: lists.py FIRST SECOND ROUNDS
"""
import statistics
import sys
import timeit
from unicodedata import normalize


def read_list(path):
    with open(path, "rb") as file:
        octets = file.read()
    names, at = [], 0
    while at < len(octets):
        end = at + 4 + int.from_bytes(octets[at : at + 4], "little")
        names.append(octets[at + 6 : end].decode())
        at = end
    return names


def find_shared(first, second, in_order):
    lowest, counts = {}, {}
    for number, name in enumerate(second, 1):
        key = normalize("NFKD", name.upper())
        if key in counts:
            counts[key] += 1
        else:
            lowest[key], counts[key] = number, 1
    keys = [normalize("NFKD", name.upper()) for name in first]
    partners = [lowest.get(key, 0) for key in keys]
    if in_order:
        sorted(range(len(keys)), key=keys.__getitem__)
    return sum(counts.get(key, 0) for key in keys), len(partners) - partners.count(0)


def median_time(in_order):
    times = timeit.repeat(lambda: find_shared(first, second, in_order), number=1, repeat=int(sys.argv[3]))
    return round(statistics.median(times) * 1e9)


first, second = read_list(sys.argv[1]), read_list(sys.argv[2])
print(*find_shared(first, second, True), median_time(False), median_time(True))

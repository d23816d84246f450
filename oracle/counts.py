#!/usr/bin/env python3
"""Adds up the lines of oracle/crates/compare: for each call how many and by which refusal number, then the closing counts."""
import re
import sys
from collections import Counter

LINE = re.compile(r" (\w+): compared (\d+), equal (\d+), recorded(.*), unexplained (\d+); by refusal number(.*)$", re.M)


def pairs(text):
    return Counter({name: int(n) for name, n in (word.split(":") for word in text.split())})


def listed(counter, key=str):
    return "".join(f" {name}:{counter[name]}" for name in sorted(counter, key=key))


calls, numbers, recorded, total = Counter(), {}, Counter(), Counter()
for call, compared, equal, kinds, unexplained, rows in LINE.findall(sys.stdin.read()):
    calls[call] += int(compared)
    numbers.setdefault(call, Counter()).update(pairs(rows))
    recorded.update(pairs(kinds))
    total.update(compared=int(compared), equal=int(equal), unexplained=int(unexplained))
for call in calls:
    print(f"{call}: {calls[call]}, by refusal number{listed(numbers[call], int)}")
print(f"compared {total['compared']}, equal {total['equal']}, recorded {sum(recorded.values())}{listed(recorded)}, unexplained {total['unexplained']}")

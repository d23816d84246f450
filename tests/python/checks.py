"""The Python module under test, and what is expected of it."""
import os
import sys

sys.path.insert(0, os.path.dirname(os.path.dirname(os.path.abspath(__file__))))
from counts import ROOT, expect

sys.path.insert(0, os.path.join(ROOT, "python"))
import gerg
import gerg_archive


def text(path):
    with open(os.path.join(ROOT, path), encoding="utf-8") as source:
        return source.read()


def refused(name, number, value, call, *arguments, **named):
    try:
        call(*arguments, **named)
        expect(f"{name}: accepted", False)
    except gerg.Refusal as refusal:
        expect(f"{name}: {refusal}", (refusal.number, refusal.value) == (number, value) and refusal.cause == gerg.CAUSES[number])

"""Runs of the command-line program, and what is expected of them."""
import os
import struct
import subprocess
import sys

sys.path.insert(0, os.path.dirname(os.path.dirname(os.path.abspath(__file__))))
from counts import ROOT, expect

GERG = os.path.join(ROOT, "rust", "target", "debug", "gerg")
GAS = ["--mix", "methane=0.9,ethane=0.1"]


def run(*words, cwd=ROOT):
    return subprocess.run([GERG, *words], cwd=cwd, stdout=subprocess.PIPE, stderr=subprocess.PIPE, text=True)


def fault(status, part, *words):
    """One line on standard error, nothing on standard output."""
    r = run(*words)
    one_line = r.stderr.count("\n") == 1 and r.stderr.startswith("gerg: ") and r.stdout == ""
    expect(f"{words}: {r.returncode} {r.stderr}", r.returncode == status and part in r.stderr and one_line)


def answered(*words, cwd=ROOT):
    r = run(*words, cwd=cwd)
    expect(f"{words}: {r.returncode} {r.stderr}", r.returncode == 0 and r.stderr == "")
    return r.stdout


def same_bits(name, numbers, patterns):
    """What --bits adds to --json: the pattern of each double; counts stay."""
    expected = {key: number if key == "trials" else "0x" + struct.pack(">d", number).hex() for key, number in numbers.items()}
    expect(f"the bits of {name}", patterns == expected)

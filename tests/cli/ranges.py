"""The command line in the extended range."""
import csv
import json
import math
import os

from program import GAS, answered, expect, fault

WIDE = ["--mix", "hydrogen=1", "--range", "extended"]
LINE = "range         extended: 60 to 700 K, up to 70 MPa\n"


def accepted():
    """States that the normal range refuses; the heading says the range."""
    cold, high = ["--t", "60", "--rho", "100"], ["--t", "300", "--p", "69e6"]
    bracket = ["--lo", "1000", "--hi", "30000"]
    for command, at in (("properties", cold), ("properties", high), ("fugacity", cold), ("fugacity", high), ("density", high), ("density", high + bracket)):
        expect(f"{command} {at}: the range is said", "\n" + LINE in answered(command, *WIDE, *at))
        expect(f"{command} {at}: the range as JSON", json.loads(answered(command, *WIDE, *at, "--json"))["range"] == "extended")
        fault(1, "number 8: " if at == cold else "number 14: ", command, "--mix", "hydrogen=1", *at)
    found = json.loads(answered("density", *WIDE, *high, "--json"))["state"]
    expect("69 MPa", math.isclose(found["pressure"], 69e6, rel_tol=1e-10))
    fault(1, "number 11: ", "properties", "--mix", "hydrogen=1", "--t", "300", "--rho", repr(found["molar_density"]))
    expect("700 K", "state         T = 700 K" in answered("properties", *WIDE, "--t", "700", "--rho", "100"))


def refused():
    for t in (math.nextafter(60.0, 0.0), math.nextafter(700.0, math.inf)):
        fault(1, "number 8: temperature not in 200..450 K (extended range: 60..700 K) or density", "properties", *WIDE, "--t", repr(t), "--rho", "100")
        fault(1, f" (T = {t!r} K, density 100 mol/m³; extended range)", "fugacity", *WIDE, "--t", repr(t), "--rho", "100")
        fault(1, "number 8: ", "density", *WIDE, "--t", repr(t), "--p", "1e5")
    fault(1, "number 8: ", "properties", *WIDE, "--t", "60", "--rho", repr(math.nextafter(30000.0, math.inf)))
    fault(1, "number 14: ", "density", *WIDE, "--t", "300", "--p", repr(math.nextafter(70e6, math.inf)))
    fault(1, "number 11: ", "properties", *WIDE, "--t", "300", "--rho", "30000")


def default():
    """The normal range is the default and not said; its answers have the same bits in the extended one."""
    for command, at in (("properties", ["--rho", "2000"]), ("properties", ["--p", "5e6"]), ("fugacity", ["--rho", "2000"]), ("density", ["--p", "5e6"])):
        words = [command, *GAS, "--t", "300", *at, "--bits"]
        plain = answered(*words)
        expect(f"{command}: the default", "range" not in plain and answered(*words, "--range", "normal") == plain)
        expect(f"{command}: the same bits", answered(*words, "--range=extended").replace(LINE, "") == plain)
        fault(2, f"{command}: --range: 'wide' is no range; known: normal extended", *words, "--range", "wide")
        fault(2, f"{command}: --range has no value", *words, "--range")
    for command in ("roots", "saturation", "states", "state", "check"):
        fault(2, f"{command}: unknown option --range", command, "--range", "extended")


def curve(folder):
    name = os.path.join(folder, "wide")
    words = ["curve", "--mix", "hydrogen=1", "--t", "77", "--from", "1e5", "--to", "2e7", "--points", "5", "--out", name]
    fault(1, "number 8: ", *words)
    said = answered(*words, "--range", "extended")
    expect(f"the curve's range is said: {said}", "\n" + LINE in said and "by the search upward at 5" in said)
    with open(name + ".csv", newline="") as source:
        rows = list(csv.DictReader(source))
    expect("the curve's columns and points", len(rows) == 5 and len(rows[0]) == 8 and all(row["refusal"] == "" for row in rows))
    with open(name + ".svg", encoding="utf-8") as source:
        expect("the picture says the range", "extended range</text>" in source.read())
    fault(2, "pressures must rise within (0, 35e6]", "curve", *GAS, "--t", "300", "--to", "36e6")
    fault(2, "pressures must rise within (0, 70e6]", "curve", *GAS, "--t", "300", "--to", "71e6", "--range", "extended")
    answered("curve", *GAS, "--t", "300", "--to", "69e6", "--points", "2", "--out", name, "--range", "extended")


def ranges(folder):
    accepted()
    refused()
    default()
    curve(folder)

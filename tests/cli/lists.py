"""The command line with a chromatograph's lists: --list in place of --mix, and the command `list`."""
import json
import os
import struct

from program import GAS, answered, expect, fault, run, same_bits

TWO = bytes.fromhex("1001 00900000  1004 00100000")  # the gas of GAS
PURE = bytes.fromhex("1005 01000000")


def file_of(folder, name, data):
    path = os.path.join(folder, name)
    with open(path, "wb") as out:
        out.write(data)
    return path


def content(path):
    with open(path, "rb") as source:
        return source.read()


def shown(folder):
    path = file_of(folder, "two.list", TWO)
    expect("a list is shown", answered("list", "--list", path) == "methane   900000  0.9\nethane    100000  0.1\n")
    expect("with its bits", answered("list", "--list", path, "--bits") == "methane   900000  0x3feccccccccccccd  0.9\nethane    100000  0x3fb999999999999a  0.1\n")
    records = [{"component": "methane", "parts": 900000, "fraction": 0.9}, {"component": "ethane", "parts": 100000, "fraction": 0.1}]
    expect("as JSON", json.loads(answered("list", "--list", path, "--json")) == {"records": records})
    patterns = json.loads(answered("list", "--list", path, "--json", "--bits"))["records"]
    expect("as JSON with its bits", [each["fraction"] for each in patterns] == ["0x" + struct.pack(">d", each["fraction"]).hex() for each in records])
    expect("one component", answered("list", "--list", file_of(folder, "pure.list", PURE)) == "propane  1000000  1\n")


def written(folder):
    path = os.path.join(folder, "written.list")
    said = answered("list", *GAS, "--out", path)
    expect("a list is written", content(path) == TWO and said == f"methane   900000  0.9\nethane    100000  0.1\nwritten  {path} (12 bytes)\n")
    expect("and shown with no file", answered("list", *GAS) == said[: said.index("written")])
    expect("and said as JSON", json.loads(answered("list", *GAS, "--out", path, "--json"))["written"] == path)
    again = os.path.join(folder, "again.list")
    answered("list", "--list", path, "--out", again)
    expect("a list that is read and written has the same bytes", content(again) == TWO)
    digits = ["--mix", "methane=0.901234,nitrogen=0.020501,carbon-dioxide=0.009999,ethane=0.048266,propane=0.019999,argon=1e-6,helium=0"]
    answered("list", *digits, "--out", path)
    expect("eight digits of each", content(path).hex() == "100100901234" "100200020501" "100300009999" "100400048266" "100500019999" "101500000001" "101400000000")
    mixed, read = (answered("properties", *gas, "--t", "300", "--rho", "40", "--json", "--bits") for gas in (digits, ["--list", path]))
    expect("the fractions have the bits of those typed", json.loads(mixed)["state"] == json.loads(read)["state"])


def in_commands(folder):
    """Every command that takes --mix answers the same with --list, and says the list."""
    two, pure = file_of(folder, "two.list", TWO), file_of(folder, "pure.list", PURE)
    line = f"list          {two} (12 bytes)\n"
    for words in (["properties", "--t", "300", "--rho", "2000", "--all"], ["properties", "--t", "300", "--p", "5e6"], ["fugacity", "--t", "300", "--rho", "2000"],
                  ["density", "--t", "300", "--p", "5e6"], ["density", "--t", "650", "--p", "6e7", "--range", "extended"], ["roots", "--t", "300", "--p", "5e6"]):  # fmt: skip
        plain, listed = answered(*words, *GAS, "--bits"), answered(*words, "--list", two, "--bits")
        expect(f"{words}: the same of a list", line in listed and listed.replace(line, "") == plain)
        expect(f"{words}: the list as JSON", json.loads(answered(*words, "--list", two, "--json"))["list"] == two)
    boiling = ["saturation", "--p", "5e5", "--json"]
    of_list = json.loads(answered(*boiling, "--list", pure))
    expect("saturation of a list", of_list["saturation"] == json.loads(answered(*boiling, "--mix", "propane=1"))["saturation"])
    same_bits("a list's saturation", of_list["saturation"], json.loads(answered(*boiling, "--list", pure, "--bits"))["saturation"])
    drawn = ["states", "--seed", "1", "--states", "2000"]
    expect("states of a list", answered(*drawn, "--list", two) == answered(*drawn, *GAS))
    name = os.path.join(folder, "listed")
    curve = ["curve", "--t", "300", "--points", "5", "--out", name]
    plain, rows = answered(*curve, *GAS), content(name + ".csv")
    listed = answered(*curve, "--list", two)
    expect("the curve of a list", "\n" + line in listed and listed.replace(line, "") == plain and content(name + ".csv") == rows)


def refused(folder):
    kind, total = "number 28: chromatograph's list: a record of another kind than 0x10, cut, or with a digit above 9", "number 29: chromatograph's list: the parts do not total 1,000,000"
    at = ["--t", "300", "--rho", "40"]
    for name, data, said in (
        ("cut", TWO[:11], f"{kind} (PATH, at byte 6)"),
        ("kind", b"\x11" + TWO[1:], f"{kind} (PATH, at byte 0)"),
        ("digit", TWO[:-1] + b"\x0a", f"{kind} (PATH, at byte 6)"),
        ("far", TWO * 2000 + b"\x10", f"{kind} (PATH, at byte 24000)"),
        ("empty", b"", "number 3: component list empty, over 21 long, or with a number unknown or repeated (PATH, at place 0 from 0)"),
        ("repeated", TWO[:6] + TWO[:6], "(PATH, at place 1 from 0)"),
        ("unknown", TWO[:7] + b"\x16" + TWO[8:], "(PATH, at place 1 from 0)"),
        ("total", TWO[:6], f"{total} (PATH)"),
    ):
        path = file_of(folder, name, data)
        for command in (["list"], ["properties", *at], ["states", "--seed", "1", "--states", "1"], ["curve", "--t", "300"]):
            fault(1, said.replace("PATH", path), *command, "--list", path)
    r = run("roots", "--list", file_of(folder, "cut", TWO[:11]), "--t", "300", "--p", "1e5", "--json")
    expect("a refused list as JSON", r.returncode == 1 and json.loads(r.stdout)["refused"]["number"] == 28 and json.loads(r.stdout)["refused"]["value"] == 6)
    out = os.path.join(folder, "none.list")
    fault(1, f"{total} (they total 1100000)", "list", "--mix", "methane=0.9,ethane=0.2", "--out", out)
    fault(1, "number 3: component list empty, over 21 long, or with a number unknown or repeated (part 2 of --mix, methane=0.1)", "list", "--mix", "methane=0.9,methane=0.1", "--out", out)
    expect("a refused list is not written", not os.path.exists(out))


def faults(folder):
    two, out, at = file_of(folder, "two.list", TWO), os.path.join(folder, "none.list"), ["--t", "300", "--rho", "40"]
    for command in (["list"], ["properties", *at], ["fugacity", *at], ["density", "--t", "300", "--p", "1e6"], ["roots", "--t", "300", "--p", "1e6"],
                    ["saturation", "--p", "1e6"], ["curve", "--t", "300"], ["states", "--seed", "1", "--states", "1"]):  # fmt: skip
        fault(2, f"{command[0]}: --mix and --list are both given", *command, *GAS, "--list", two)
        fault(2, f"{command[0]}: --mix or --list is missing", *command)
        fault(2, "/nonexistent: No such file", *command, "--list", "/nonexistent")
    fault(2, "list: --list has no value", "list", "--list")
    fault(2, "list: --list is given twice", "list", "--list", two, "--list", two)
    fault(2, "state: unknown option --list", "state", "--list", two)
    fault(2, "list: unknown option --t", "list", "--list", two, "--t", "300")
    fault(2, "list: 'stray' is no option", "list", "--list", two, "stray")
    fault(2, "list: --list: /dev/zero has over 1048576 bytes", "list", "--list", "/dev/zero")
    fault(2, "/nonexistent/x: No such file", "list", *GAS, "--out", "/nonexistent/x")
    whole = "list: --mix: no whole parts per million in eight digits: "
    fault(2, whole + "ethane=0.0999999999, propane=0.1000001\n", "list", "--mix", "methane=0.8,ethane=0.0999999999,propane=0.1000001", "--out", out)
    fault(2, whole + "methane=0.9000000000000001\n", "list", "--mix", "methane=0.9000000000000001,ethane=0.1", "--out", out)
    fault(2, whole + "methane=-0.1, argon=NaN, helium=inf, oxygen=100\n", "list", "--mix", "methane=-0.1,argon=nan,helium=inf,oxygen=100,water=99.999999")
    expect("nothing is written then", not os.path.exists(out))
    expect("the help names it", "--list FILE" in answered("--help") and "\n  gerg list " in answered("--help"))


def lists(folder):
    shown(folder)
    written(folder)
    in_commands(folder)
    refused(folder)
    faults(folder)

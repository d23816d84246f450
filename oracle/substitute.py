#!/usr/bin/env python3
"""Lays the workspace of the comparison out in a folder: oracle/crates, and upstream's text with the elementary calls substituted.

    oracle/substitute.py FOLDER [extended]

gerg.rs and gerg_density.rs go over whole; of gerg_flash.rs the constant COMPONENTS, `validate` and `gerg_outer_roots`, of gerg_ph.rs
`pure_saturation`, of saturation.rs the struct `PureSaturation`. In each, `.exp()` and its kin become the methods of the trait `Elementary`,
one `use` line brings that trait, and what a cut part needs is imported anew. With `extended` the ends of the range become those of EXTENDED.
Nothing else changes: tests/oracle/test holds the difference.
"""
import os
import re
import shutil
import sys

HERE = os.path.dirname(os.path.abspath(__file__))
CALL = re.compile(r"\.(exp|ln|sqrt|sinh|cosh|tanh)\(\)|\.(powf|powi)\(")
TRAIT = "use elementary::Elementary as _;\n"
FLASH = "use thermo_models::{GERG_GAS_CONSTANT as R, GergFugacityState, GergModel};\nuse thermo_types::{CalculationError as Error, Pressure, Temperature};\n"
PH = "use crate::{PureSaturation, gerg_outer_roots};\nuse thermo_models::GergModel;\nuse thermo_types::{CalculationError as Error, Pressure, Temperature};\n"

# The ends of the extended range: file, the Rust's text, which stands there once, and what takes its place. Comments and the texts of errors keep
# the normal ends, so that an error is known by the same text in both.
EXTENDED = [
    ("thermo-models/src/gerg.rs", "(200.0..=450.0)", "(60.0..=700.0)"),
    ("thermo-models/src/gerg.rs", "(0.0..=35e6)", "(0.0..=70e6)"),
    ("thermo-solvers/src/gerg_density.rs", "target > 35e6", "target > 70e6"),
]


def upstream(name):
    with open(os.path.join(HERE, "upstream", name), encoding="utf-8") as source:
        return source.read()


def part(text, first, last):
    """From the line that begins with `first` to before the line that begins with `last`."""
    start = re.search("(?m)^" + re.escape(first), text).start()
    end = re.compile("(?m)^" + re.escape(last)).search(text, start + 1) if last else None
    return text[start : end.start() if end else len(text)]


def calls_substituted(text):
    def name(match):
        return f".elementary_{match[1]}()" if match[1] else f".elementary_{match[2]}("
    return CALL.sub(name, text)


def after_inner_comments(text, line):
    """The `use` line stands behind the file's own `//!` lines."""
    lines = text.splitlines(keepends=True)
    at = next(k for k, each in enumerate(lines) if not each.startswith("//!"))
    return "".join(lines[:at]) + line + "".join(lines[at:])


def sources():
    flash, ph, saturation = upstream("gerg_flash.rs"), upstream("gerg_ph.rs"), upstream("saturation.rs")
    return {
        "thermo-types/src/error.rs": upstream("error.rs"),
        "thermo-models/src/gerg.rs": after_inner_comments(calls_substituted(upstream("gerg.rs")), TRAIT),
        "thermo-solvers/src/gerg_density.rs": calls_substituted(upstream("gerg_density.rs")),
        "thermo-solvers/src/gerg_flash.rs": TRAIT + FLASH + calls_substituted(part(flash, "const COMPONENTS", "#[derive(Clone)]")),
        "thermo-solvers/src/gerg_ph.rs": PH + "pub " + calls_substituted(part(ph, "fn pure_saturation", None)),
        "thermo-solvers/src/saturation.rs": part(saturation, "#[derive(Debug, Clone)]", "/// Index of the only"),
    }


def widened(texts):
    wide = dict(texts)
    for name, normal, extended in EXTENDED:
        if wide[name].count(normal) != 1:
            raise ValueError(f"{name} has {normal} {wide[name].count(normal)} times and not once")
        wide[name] = wide[name].replace(normal, extended)
    return wide


def main(words):
    if not words or words[1:] not in ([], ["extended"]):
        print("usage: substitute.py FOLDER [extended]", file=sys.stderr)
        return 2
    folder, texts = words[0], widened(sources()) if words[1:] else sources()
    shutil.rmtree(os.path.join(folder, "crates"), ignore_errors=True)
    shutil.copytree(os.path.join(HERE, "crates"), os.path.join(folder, "crates"))
    shutil.copy(os.path.join(HERE, "Cargo.toml"), folder)
    os.makedirs(os.path.join(folder, "data"), exist_ok=True)
    shutil.copy(os.path.join(HERE, "..", "data", "gerg-2008.json"), os.path.join(folder, "data"))
    for name, text in texts.items():
        with open(os.path.join(folder, "crates", name), "w", encoding="utf-8") as out:
            out.write(text)
    return 0


if __name__ == "__main__":
    sys.exit(main(sys.argv[1:]))

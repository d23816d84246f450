#!/usr/bin/env python3
"""What an auditor must believe: the files of definitions that a public contract or a promise reaches. Usage: tools/reading.py [--names | --table | --unnamed]

A contract is a clause of a public function of chromatograph, gerg_calls, gerg_states, gerg_equilibrium or gerg_api, of a C export or of the programs `tablecheck` and `states`; a promise is a statement of a file named in PROMISES. From their names the search goes on through
the signatures and bodies of definitions, and through the declarations of structs and enums in src/. Of a law only its statement counts, and nothing follows a law that stands inside a
definition: its proof is checked, and what it says is no part of the meaning. Names of the toolchain's own libraries end the search.

Prints a line for each file: its path and its lines, imports and blank lines aside (of a source file only its structs and enums, of a file of promises in proofs/ only its statements); --names lists what was reached in each, --table prints
the rows of docs/READING.md, --unnamed adds what stands in specs/ of a crate with code and is named by no contract and no promise.
"""
import glob
import os
import re
import sys

ROOT = os.path.dirname(os.path.dirname(os.path.abspath(__file__)))
# The files whose statements are promised.
PROMISES = (
    "crates/elementary_distance/specs/Distances.antt",
    "crates/chromatograph/proofs/Promises/Reading.antt",
    "crates/chromatograph/proofs/Promises/Writing.antt",
    "crates/chromatograph/proofs/Promises/Back.antt",
    "crates/gerg_states/proofs/Promises.antt",
    "crates/gerg_api/proofs/Promises/Refusals.antt",
    "crates/gerg_api/proofs/Promises/Memory.antt",
    "crates/gerg_api/proofs/Promises/Searches.antt",
    "crates/gerg_api/proofs/Promises/Ranges.antt",
    "crates/gerg_api/proofs/Promises/Lists.antt",
    "crates/gerg_api/proofs/Cases.antt",
)
# What a layer promises to those above: named, though no auditor has to read it.
LAYER = re.compile(r"/proofs/(?:Promises|Laws/(?:Numbers|Answered|Cases)|Bounds)\.antt$")
# The crates of which every public function is a public call, and the programs whose functions are promised.
PUBLIC = ("chromatograph", "gerg_calls", "gerg_states", "gerg_equilibrium", "gerg_api")
PROGRAMS = ("tablecheck", "states")
TOKEN = re.compile(r"«[^»]*»|[^\s(){}.;,@\"«»⟦⟧]+")
# What `rt` reads of the proof of one function: no promise.
ANSWERS = re.compile(r"proofs\.(?:.*\.)?(?:Proof|Answers|Invariants)$")
DECLARED = re.compile(r"^(\s*)(?:(?:unfoldable|abbrev|pub|axiom) )*(?:(record|data) (\S+)|([^\s(){}.;,@\"]+) :(?= |$))")
LAW = re.compile(r"≡|≤|⊑|⊥| < |\bT \(|Within|Near")


def text(path):
    with open(os.path.join(ROOT, path), encoding="utf-8") as source:
        return source.read()


def uncommented(source, mark):
    return re.sub(rf"{mark}.*", "", source)


def imports(source):
    """What a file's `use` lines bring: short name -> (module, name), and alias -> module."""
    names, modules = {}, {}
    for path, body, alias in re.findall(r"^(?:(?:ghost|pub|unfoldable pub) )?use ([^\s{};]+?)(?:\.\{([^}]*)\})?(?: as (\S+?))?;?\s*$", source, re.M):
        if not body:
            modules[alias or path.split(".")[-1]] = path
            continue
        for item in filter(None, (part.strip() for part in body.split(","))):
            name, _, short = item.partition(" as ")
            names[(short or name).strip()] = (path, name.strip())
    return names, modules


class Antt:
    """A file of definitions or laws: its declarations by name, each with its statement and its body; `stated` counts the lines of its comments and public statements."""

    def __init__(self, path):
        self.path, source = path, text(path)
        self.names, self.modules = imports(source)
        self.lines = sum(1 for line in source.splitlines() if line.strip() and not re.match(r"(?:unfoldable )?(?:pub )?use ", line))
        self.found, self.public, sections = {}, [], []
        name, statement, inside, going = None, [], True, True
        self.stated = sum(1 for line in source.splitlines() if re.match(r"\s*--", line))
        for line in uncommented(source, "(?<!\\S)--").splitlines():
            if re.match(r"(?:unfoldable )?(?:pub )?(?:use|mod) |infix", line) or not line.strip():
                continue
            indent = len(line) - len(line.lstrip())
            while sections and indent <= sections[-1][0]:
                sections.pop()
            if re.match(r"\s*module _ ", line):
                sections.append((indent, line))
                self.stated, name = self.stated + 1, None
                continue
            start = DECLARED.match(line)
            if start and indent == (sections[-1][0] + 2 if sections else 0) and not re.match(r"\s*(?:unfolding|where|let|in) ?", line):
                name = start[3] or start[4]
                self.found[name] = statement = [" ".join(header for _, header in sections) + " " + line, ""]
                if re.match(r"\s*(?:unfoldable )?(?:abbrev )?pub ", line):
                    self.public.append(name)
                    self.stated += 1
                inside = bool(start[3])
                going = True
            elif name:
                word = line.strip().split(" ")[0]
                parts = [part for part in name.split("◌") if part]
                clause = not inside and (word == "unfolding" or word == name or (name.startswith("◌") and any(f" {part} " in line for part in parts) and "=" in line))
                if clause:
                    going = False
                if going and name in self.public:
                    self.stated += 1
                statement[0 if going else 1] += "\n" + (line if word != "unfolding" else "")
        for key in [key for key in self.found if "◌" in key]:
            for part in filter(None, key.split("◌")):
                self.found.setdefault(part, self.found[key])

    def law(self, name):
        """Whether a name is a law's: no record, and its type ends in a statement."""
        words = self.found[name][0]
        stated = words.partition(f" {name} :")[2].split("→")[-1]
        return not re.search(rf"\b(?:record|data) {re.escape(name)}(?!\S)", words) and bool(LAW.search(stated))


class Source:
    """A source file: its structs and enums, and the contracts of its functions."""

    def __init__(self, path):
        self.path, source = path, text(path)
        self.names, self.modules = imports(source)
        plain = uncommented(source, "//")
        self.types = {m[2]: m[0] for m in re.finditer(r"^pub (struct|enum) (\w+)[^{;]*(?:\{.*?^\}|;)", plain, re.M | re.S)}
        blocks = re.findall(r"(?:^ *//[^\n]*\n)*(?:^#\[[^\n]*\n)*^pub (?:struct|enum) \w+[^{;]*(?:\{.*?^\}|;)", source, re.M | re.S)
        self.blocks = {re.search(r"^pub (?:struct|enum) (\w+)", block, re.M)[1]: len([line for line in block.splitlines() if line.strip() and not line.startswith("#[")]) for block in blocks}
        self.contracts = []
        for m in re.finditer(r"^( *)(pub )?(extern \"C\" )?fn (\w+)[^{]*?\)(?: -> [^{]*?)?\n((?:\1    (?:requires|ensures).*\n(?:\1        .*\n|\1    \}\n)*)*)", plain, re.M):
            self.contracts.append((m[4], bool(m[2]), bool(m[3]), m[5]))
        # what an impl states of a value, as what it is printed as
        self.contracts += [(m[1], True, False, m[2]) for m in re.finditer(r"^    ghost (\w+) = \{(.*?)\};$", plain, re.M | re.S)]
        # and what the ghost fields of a struct say, which is asked of whoever makes one
        self.contracts += [(m[1], False, False, m[2]) for m in re.finditer(r"^    (?:pub )?ghost (\w+): \{(.*?)\},$", plain, re.M | re.S)]
        # the crate that each type of another one is taken from
        self.taken = {word: m[1] for m in re.finditer(r"^use (\w+)::((?:[^;])+);", plain, re.M) for word in re.findall(r"\w+", m[2])}


class Tree:
    def __init__(self):
        self.files, self.sources = {}, {}
        lines = uncommented(text("crates.txt"), "#").splitlines()
        self.crates = [line.split(":")[0].split()[0] for line in lines if ":" in line]
        for crate in self.crates:
            for part in ("specs", "proofs"):
                for path in glob.glob(os.path.join(ROOT, "crates", crate, part, "**", "*.antt"), recursive=True):
                    short = os.path.relpath(path, ROOT)
                    module = os.path.relpath(path, os.path.join(ROOT, "crates", crate))[: -len(".antt")].replace(os.sep, ".")
                    if not ANSWERS.match(module):
                        self.files[crate, module] = Antt(short)
            for path in sorted(glob.glob(os.path.join(ROOT, "crates", crate, "src", "**", "*.rt"), recursive=True)):
                self.sources.setdefault(crate, []).append(Source(os.path.relpath(path, ROOT)))
        self.reached = {}

    def module(self, path):
        """The crate and module that a path of a `use` line names; None for the toolchain's."""
        m = re.match(r"Rattle\.(\w+)\.((?:specs|proofs)\..*)$", path)
        return (m[1], m[2]) if m else None

    def visit_module(self, path, name):
        found = self.module(path)
        if not found:
            return
        crate, module = found
        if ".declared." in "." + module + ".":
            kept = [part for part in module.split(".") if part not in ("specs", "declared", "TheVariants")]
            self.visit_type(crate, kept[-1])
            return
        file = self.files.get((crate, module))
        if file:
            self.visit(file, name)

    def visit_type(self, crate, name):
        for source in self.sources.get(crate, []):
            if name in source.types and name not in self.reached.setdefault(source.path, set()):
                self.reached[source.path].add(name)
                for word in re.findall(r"\w+", source.types[name]):
                    for other in self.crates:
                        if word != name and any(word in s.types for s in self.sources.get(other, [])):
                            if other == crate or source.taken.get(word) == other or re.search(rf"\b{other}::(?:\w+::)*{word}\b", text(source.path)):
                                self.visit_type(other, word)

    def visit(self, file, name, statement_only=False):
        if name not in file.found or name in self.reached.get(file.path, set()):
            if name in file.names:
                self.visit_module(*file.names[name])
            return
        if not statement_only and file.law(name):
            return
        self.reached.setdefault(file.path, set()).add(name)
        parts = file.found[name]
        self.walk(file, parts[0] if statement_only else parts[0] + "\n" + parts[1])

    def walk(self, file, words):
        words = re.sub(r"(\S)\.(?=\S)", r"\1 .", words)
        tokens = TOKEN.findall(words)
        for k, token in enumerate(tokens):
            if token in getattr(file, "found", {}):
                self.visit(file, token)
            for key, (module, name) in file.names.items():
                if token == key or token in filter(None, key.split("◌")):
                    self.visit_module(module, name)
            if token in file.modules and k + 1 < len(tokens):
                self.visit_module(file.modules[token], tokens[k + 1])

    def contracts(self, public):
        for crate in self.crates:
            for source in self.sources.get(crate, []):
                for name, is_public, is_export, clauses in source.contracts:
                    if not public or is_export or crate in PROGRAMS or (is_public and crate in PUBLIC):
                        self.walk(source, clauses)

    def promises(self):
        for file in self.files.values():
            if file.path in PROMISES:
                for name in file.public:
                    self.visit(file, name, statement_only=not file.path.endswith("Distances.antt"))

    def believed(self):
        """Path and lines of each file reached, lowest crate first, in the order of its Lib.antt."""
        rows = []
        for crate in self.crates:
            order = text(f"crates/{crate}/specs/Lib.antt") if os.path.exists(os.path.join(ROOT, "crates", crate, "specs", "Lib.antt")) else ""
            here = [(path, names) for path, names in self.reached.items() if path.startswith(f"crates/{crate}/") and names]
            place = {name: k for k, name in enumerate(re.findall(r"^pub mod (\S+)", order, re.M))}
            for path, names in sorted(here, key=lambda row: ("/src/" not in row[0], "/proofs/" in row[0], place.get(os.path.basename(row[0])[:-5], 99), row[0])):
                if path.endswith(".rt"):
                    source = next(s for s in self.sources[crate] if s.path == path)
                    rows.append((path, sum(source.blocks[name] for name in names), names))
                else:
                    file = next(f for f in self.files.values() if f.path == path)
                    rows.append((path, file.stated if path in PROMISES and "/proofs/" in path else file.lines, names))
        return rows


def reading():
    tree = Tree()
    tree.contracts(public=True)
    tree.promises()
    return tree.believed()


def unnamed():
    """Declarations in specs/ of a crate with code that no contract, private ones too, and no promise reaches: (path, name)."""
    tree = Tree()
    tree.contracts(public=False)
    tree.promises()
    for file in [file for file in tree.files.values() if LAYER.search(file.path)]:
        for name in file.public:
            tree.visit(file, name, statement_only=True)
    found = []
    for (crate, module), file in tree.files.items():
        code = any(source.contracts for source in tree.sources.get(crate, []))
        if module.startswith("specs") and code:
            names = {id(parts): name for name, parts in list(file.found.items())[::-1]}
            reached = {id(file.found[name]) for name in tree.reached.get(file.path, set())}
            found += [(file.path, name) for key, name in names.items() if key not in reached]
    return found


def holds(path, names):
    """What a row of docs/READING.md says of a file: the first sentence of its head, or the types that are read of a source file."""
    if path.endswith(".rt"):
        return ", ".join(f"`{name}`" for name in sorted(names))
    head = " ".join(re.findall(r"^-- ?(.*)", re.match(r"(?:--.*\n)*", text(path))[0], re.M))
    return re.split(r"(?<=[^.])\.(?: |$)", head)[0].replace("|", "\\|")


if __name__ == "__main__":
    total = 0
    for path, lines, names in reading():
        total += lines
        if "--table" in sys.argv:
            print(f"| `{path}` | {lines} | {holds(path, names)} |")
            continue
        print(f"{lines:5} {path}" + (f": {' '.join(sorted(names))}" if "--names" in sys.argv else ""))
    if "--table" not in sys.argv:
        print(f"{total:5} in all")
    if "--unnamed" in sys.argv:
        for path, name in unnamed():
            print(f"{path}: {name} is named by no contract and no promise")

#!/usr/bin/env python3
"""Brings this repository's own names in proofs to snake case: definitions and lemmas of specs/ and proofs/, types and functions of src/ aside.

    tools/respell.py [FOLDER]

It was run after the toolchain's port.py, when the repository came to rattle-kit-13f, and once more for four names whose types begin with `ofProperties`, which it had taken for answers. `optionsRefused` and `first-begins` became `options_refused` and `first_begins`; a lemma that would
have had its definition's name in one file got `_lem`. Answers of proofs are left: their names are the toolchain's. In comments and pages a name is
respelled where it stands in backticks, and in must-fail edits everywhere. Prints how many names and files it changed.
"""
import collections
import glob
import os
import re
import sys

WORD = r"[^\s(){}.;,@\"«»\[\]\\]+"
TOKEN = re.compile(WORD)
DECLARED = re.compile(rf"^\s*(?:(?:unfoldable|abbrev|pub|axiom) )*(?:(?:record|data) )?({WORD}) :(?=\s|$)")
ANSWER = re.compile(r"\s*(?:tie|goal|\S+-lts)\.")
IMPORT = re.compile(r"use ([^;{]+)\.\{([^}]*)\}")
# Lemmas that port.py had put in snake case already, with the files that name them.
MADE = {
    "record_of": ["crates/chromatograph/proofs/Cases.antt"],
    "list_code": ["crates/gerg_answers/proofs/Laws.antt", "crates/gerg_api/proofs/Promises/Lists.antt"],
}


def read(path):
    with open(path, encoding="utf-8") as source:
        return source.read()


def write(path, text):
    with open(path, "w", encoding="utf-8") as out:
        out.write(text)


def snake(name):
    if name[0].isupper():
        head, dash, tail = name.partition("-")
        return f"{head}-{snake(tail)}" if dash and tail else name
    name = re.sub(r"(?<=[A-Za-z0-9'₀-₉])-(?=[A-Za-z0-9'])", "_", name)
    return re.sub(r"(?<=[a-z0-9])([A-Z]+)", lambda found: "_" + found.group(1).lower(), name)


def code(line, mark):
    return line.split(mark)[0]


def proof_files(root):
    return sorted(glob.glob(f"{root}/crates/*/specs/**/*.antt", recursive=True) + glob.glob(f"{root}/crates/*/proofs/**/*.antt", recursive=True))


def source_files(root):
    return sorted(glob.glob(f"{root}/crates/*/src/**/*.rt", recursive=True))


def declared(files):
    names = set()
    for path in files:
        if "/proofs/" in path and os.path.basename(path) in ("Invariants.antt", "Answers.antt"):
            continue
        for line in read(path).split("\n"):
            found = DECLARED.match(code(line, "--"))
            if found and not ANSWER.match(code(line, "--")[found.end() :]):
                names.add(found.group(1))
    return names


def tokens(path):
    mark = "--" if path.endswith(".antt") else "//"
    return {word for line in read(path).split("\n") for word in TOKEN.findall(code(line, mark))}


def library_words(path):
    found = IMPORT.findall(read(path))
    return {name.strip() for home, names in found if not re.match(r"Rattle\.(?!std|core)", home) for name in names.split(",")}


# A lemma gives way where a file names both it and what has its new name.
def renamings(root):
    files = proof_files(root)
    own = declared(files)
    new = {name: snake(name) for name in own if snake(name) != name and not name.startswith("+")}
    groups = collections.defaultdict(set)
    for name in own:
        groups[new.get(name, name)].add(name)
    words = {path: tokens(path) for path in files + source_files(root)}
    library = {path: library_words(path) for path in words}
    for short, names in groups.items():
        for name in names:
            others = names - {name}
            if name in new and "-" in name and any(name in words[path] and (others & words[path] or short in library[path]) for path in words):
                new[name] = short + "_lem"
    return new


def respelled(text, new):
    return re.sub(WORD, lambda found: new.get(found.group(), found.group()), text)


# A mark of a comment, and what it says: of that only what stands in backticks.
def file_respelled(text, new, mark):
    lines = []
    for line in text.split("\n"):
        body, found, comment = line.partition(mark)
        lines.append(respelled(body, new) + found + page_respelled(comment, new))
    return "\n".join(lines)


def page_respelled(text, new):
    return re.sub(r"`[^`\n]*`", lambda found: respelled(found.group()[1:-1], new).join("``"), text)


def changed(path, text):
    if text == read(path):
        return 0
    write(path, text)
    return 1


def main():
    root = sys.argv[1] if len(sys.argv) > 1 else os.path.dirname(os.path.dirname(os.path.abspath(__file__)))
    new = renamings(root)
    count = 0
    for path in proof_files(root):
        own = new | {name: name + "_lem" for name in MADE if os.path.relpath(path, root) in MADE[name] and f"{name}_lem" not in tokens(path)}
        count += changed(path, file_respelled(read(path), own, "--"))
    for path in source_files(root):
        count += changed(path, file_respelled(read(path), new, "//"))
    # Edits and pages still have the names that port.py respelled.
    made = {name for name in declared(proof_files(root)) if "_" in name}
    for path in glob.glob(f"{root}/crates/*/must-fail/*.edit"):
        old = {word: snake(word) for word in TOKEN.findall(read(path)) if word not in new and snake(word) in made}
        count += changed(path, "\n".join(respelled(line, new | old) if line.startswith(("old:", "new:")) else line for line in read(path).split("\n")))
    for path in glob.glob(f"{root}/*.md") + glob.glob(f"{root}/docs/**/*.md", recursive=True) + glob.glob(f"{root}/crates/*/README.md"):
        if os.path.basename(path) == "PORT.md":  # it has both spellings
            continue
        named = {word for quoted in re.findall(r"`[^`\n]*`", read(path)) for word in TOKEN.findall(quoted[1:-1])}
        old = {word: snake(word) for word in named if word not in new and snake(word) in made}
        count += changed(path, page_respelled(read(path), new | old))
    print(f"{len(new)} names, {count} files")


main()

#!/usr/bin/env python3
"""Brings this repository's own names to today's spelling, once, after port.py: definitions, lemmas, fields and variables of specs/ and
proofs/ in snake case, in the .antt files, in the clauses of the .rt files, in the must-fail edits and in the pages.

usage: python3 tools/respell.py     at the top of the repository

Names of libraries, names that Rattle makes and names of Rust keep theirs. Where two names would fall together, CHOSEN says what each is called.
"""

import collections
import glob
import os
import re

# names that would fall together with another, and what they are called
CHOSEN = {
    "codeRam": "code_ram_of",
    "oneMore": "one_more_of",
    "captureLeft": "capture_left_job",
    "code-size": "code_sized",
    "marks-size": "marks_sized",
    "known-family": "names_family",
    "greatest-of": "greatest_from",
    "least-of": "least_from",
    "slot-run": "run_of_slot",
    "valid-place": "place_valid",
    "passed-by": "passes_by",
    "bit-of": "bit_of_lem",
    "clear-bit": "clear_bit_lem",
    "set-bit": "set_bit_lem",
    "in-state": "in_state_lem",
    "is-hung": "is_hung_lem",
    "left-from": "left_from_lem",
    "marks-plain": "marks_plain_lem",
    "ones-in": "ones_in_lem",
    "progress-after": "progress_after_lem",
    "ranges-fit": "ranges_fit_lem",
    "script-fits": "script_fits_lem",
    "reading-number": "reading_number_lem",
    "row-mask": "row_mask_lem",
    "same-slot-step": "same_slot_step_lem",
    "some-executes": "some_executes_lem",
    "wait-fits": "wait_fits_lem",
    "wait-in": "wait_in_lem",
}

W = r"[^\s(){}.;,@\"«»\[\]\\]+"
TOKEN = re.compile(r"--[^\n]*|\"(?:[^\"\\]|\\.)*\"|«[^»]*»|" + W)
OWN = re.compile(r"[a-z][A-Za-z0-9₀-₉'-]*$")
USE = re.compile(r"^\s*(?:ghost )?(?:pub )?use ([\w.·+-]+?)\.\{([^}]*)\}", re.M)


def snake(name):
    if name in CHOSEN:
        return CHOSEN[name]
    name = re.sub(r"(?<=[a-z0-9])([A-Z])", lambda m: "_" + m.group(1), name)
    return name.replace("-", "_").lower()


def turns(name):
    return bool(OWN.match(name)) and ("-" in name or name != name.lower()) and not name.startswith("-")


def paths(*patterns):
    for pattern in patterns:
        for path in sorted(glob.glob(pattern, recursive=True)):
            if "/out/" not in path:
                yield path


def read(path):
    with open(path, encoding="utf-8", newline="") as f:
        return f.read()


def write(path, old, new):
    if old != new:
        with open(path, "w", encoding="utf-8", newline="") as f:
            f.write(new)


def foreign(text):
    """What a file takes from libraries: those names stay."""
    names = set()
    for m in USE.finditer(text):
        part = m.group(1).split(".")
        if part[0] == "Rattle" and len(part) > 1 and os.path.isdir("crates/" + part[1]):
            continue
        names |= {it.strip().split(" as ")[-1] for it in m.group(2).split(",")}
    return names


def fields_and_names():
    """Fields of the repository's own records, and all of its names that turn."""
    fields, names = set(), set()
    functions = set()
    for path in paths("crates/*/src/**/*.rt"):
        functions |= set(re.findall(r"\bfn (\w+)", read(path)))
    for path in paths("crates/*/specs/**/*.antt", "crates/*/proofs/**/*.antt"):
        text = read(path)
        kept = foreign(text)
        fields |= set(re.findall(r"^\s+(?:pub )?([a-z][\w₀-₉'-]*) :", text, re.M))
        fields |= set(re.findall(r"[{;] ([a-z][\w₀-₉'-]*) =", text))
        for m in TOKEN.finditer(text):
            before = text[m.start() - 1] if m.start() else ""
            if turns(m.group(0)) and before != "." and m.group(0) not in kept:
                names.add(m.group(0))
    return fields, names, functions


# Labels and names that Rattle makes in proofs.
MADE = re.compile(
    r"(enum-told\d*|loop-test|loop-\w+|shared-slice-known\d*|well-formed|.*-requires|need-.*|invariant-.*|decreases-.*|array-share-prefix-.*"
    r"|element-write-.*|wrapping-add-u\d+)$"
)


def turn_antt(text, fields, functions, said, path):
    kept = foreign(text)
    here = collections.defaultdict(set)

    def one(m):
        word = m.group(0)
        before = text[m.start() - 1] if m.start() else ""
        if word.startswith("--"):
            return re.sub(r"(?<![\w.-])[a-z]+[a-z0-9]*(?:[A-Z][a-z0-9]*)+(?![\w-])", lambda n: snake(n.group(0)), word)
        if not turns(word):
            if re.match(r"[a-z]\w*", word) and before != ".":
                here[word].add(word)
            return word
        if word in kept or MADE.match(word):
            here[word].add(word)
            return word
        if before == ".":
            bare = re.sub(r"\d+$", "", word).replace("-", "_")
            if word in fields or bare in functions:
                return snake(word) if word in fields and bare not in functions else (word.replace("-", "_") if bare in functions and word not in fields else snake(word))
            return word
        new = snake(word)
        here[new].add(word)
        return new

    text = TOKEN.sub(one, text)
    for new, old in sorted(here.items()):
        if len(old) > 1:
            said.append(f"{path}: {sorted(old)} fall together as {new}")
    return text


CAMEL = re.compile(r"(?<![\w-])[a-z]+[a-z0-9]*(?:[A-Z][a-z0-9]*)+(?![\w-])")
DASHED = re.compile(r"(?<=\.)[a-z][a-z0-9]*(?:-[a-z0-9]+)+(?![\w-])")


def turn_rt(text):
    text = CAMEL.sub(lambda m: snake(m.group(0)), text)
    lines = []
    for line in text.split("\n"):
        if not line.strip().startswith("//"):
            line = DASHED.sub(lambda m: snake(m.group(0)), line)
        lines.append(line)
    return "\n".join(lines)


def main():
    fields, names, functions = fields_and_names()
    said = []
    for path in paths("crates/*/specs/**/*.antt", "crates/*/proofs/**/*.antt"):
        old = read(path)
        write(path, old, turn_antt(old, fields, functions, said, path))
    for path in paths("crates/*/src/**/*.rt"):
        old = read(path)
        write(path, old, turn_rt(old))

    def known(m):
        return snake(m.group(0)) if m.group(0) in names | fields else m.group(0)

    for path in paths("crates/*/must-fail/*.edit"):
        old = read(path)
        lines = old.split("\n")
        is_antt = any(line.startswith("file: specs/") for line in lines)
        for i, line in enumerate(lines):
            if line.startswith(("old:", "new:")):
                head, rest = line[:4], line[4:]
                if is_antt:
                    rest = CAMEL.sub(lambda m: snake(m.group(0)), rest)
                    rest = re.sub(r"(?<![\w-])[a-z][A-Za-z0-9'-]*(?![\w-])", known, rest)
                else:
                    rest = turn_rt(rest)
                lines[i] = head + rest
        write(path, old, "\n".join(lines))

    for path in paths("docs/**/*.md", "README.md", "tests/**/*.md", "bench/*.md"):
        if path.startswith(("docs/changes/", "tests/second/", "docs/PORT")):
            continue
        old = read(path)

        def ticks(m):
            return re.sub(r"(?<![\w/-])[a-z][A-Za-z0-9'-]*(?![\w/-])", known, m.group(0))

        write(path, old, re.sub(r"`[^`\n]*`", ticks, old))
    print("\n".join(said))


if __name__ == "__main__":
    main()

#!/usr/bin/env python3
"""Spells this repository's own definitions and lemmas as today's Rattle does: words in snake case.

usage: python3 tools/respell.py          at the top of the repository, once, after port.py
       python3 tools/respell.py --list   only says what it would rename

A definition such as `wordLimit` becomes `word_limit`, a lemma such as `search-starts` becomes `search_starts`. Facts and types keep
their capital. Functions of src/, exported names, strings, inputs and outputs keep their names. A name of a library that is spelled
like one of ours stays as it is in the files that import it from there.
"""
import glob
import os
import re
import sys

DEFINED = re.compile(r"^\s*(?:(?:abbrev|unfoldable|pub|data|record|ruleset)\s+)*([^\s:(){}.,;]+)(?: [^:]*)? ?:(?:\s|$)")
USE = re.compile(r"^\s*(?:pub |ghost )?use\s+([\w.'+-]+?)(?:\.\{([^}]*)\}|)\s*;?\s*$", re.M)
TOKEN = re.compile(r"[^\s(){}.,;\"\[\]`]+")
# Names that would fall together with a field, a crate or another name, and what they become.
FALL = {
    "lowFirst": "low_first_number",
    "highFirst": "high_first_number",
    "timeTag": "time_tag_of",
    "pageLines": "lines_of_page",
    "sheetLines": "lines_of_sheet",
    "own_bits": "own_bits_lem",
}


def snake(name):
    out = re.sub(r"(?<=[a-z0-9])(?=[A-Z])", "_", name)
    if name[0].islower():
        out = out.lower() if re.search(r"[a-z0-9][A-Z]", name) else out
    return out.replace("-", "_")


def antt_files():
    return sorted(glob.glob("crates/*/specs/**/*.antt", recursive=True) + glob.glob("crates/*/proofs/**/*.antt", recursive=True))


def own_crates():
    return {os.path.basename(p) for p in glob.glob("crates/*")}


def imported(text, crates):
    """The names that a file takes from a library of the kit."""
    names = set()
    for m in USE.finditer(text):
        parts = m[1].split(".")
        own = parts[0] == "Rattle" and len(parts) > 1 and parts[1] in crates and "declared" not in parts and "Statement" not in parts and "Tie" not in parts
        if not own and m[2]:
            for item in m[2].split(","):
                item = item.strip()
                names.add(item.split(" as ")[-1].strip())
                names.add(item.split(" as ")[0].strip())
    return names


def code_lines(text):
    for line in text.split("\n"):
        yield line.split("--")[0] if line.lstrip().startswith("--") or " -- " in line else line


def own_names():
    names = {}
    for f in antt_files():
        if os.path.basename(f) in ("Proof.antt", "Answers.antt", "Invariants.antt") and "/proofs/" in f:
            # A lemma file may be called Answers too: only those of a function are left out.
            if os.path.basename(f) == "Proof.antt" or "Goals" in open(f).read() or ".Given" in open(f).read():
                continue
        for line in open(f):
            if line.lstrip().startswith(("--", "use ", "pub use ", "mod ", "pub mod ")):
                continue
            m = DEFINED.match(line)
            if m and "=" not in line.split(":")[0] and "◌" not in m[1]:
                names.setdefault(m[1], set()).add(f)
    return names


def renaming():
    crates = own_crates()
    own = own_names()
    library = set()
    for f in antt_files() + sorted(glob.glob("crates/*/src/**/*.rt", recursive=True)):
        library |= imported(open(f).read(), crates)
    table = {}
    for name in own:
        new = FALL.get(name, snake(name))
        if new != name and not name[0].isupper():
            table[name] = new
    # A lemma that would have the name of the function that it is about.
    functions = {new for name, new in table.items() if "-" not in name} | {name for name in own if "-" not in name} | library
    for name, new in table.items():
        if "-" in name and new in functions:
            table[name] = new + "_lem"
    return table, own, library, crates


def respelled(text, table):
    return TOKEN.sub(lambda m: table.get(m[0], m[0]), text)


def in_antt(text, table):
    out = []
    for line in text.split("\n"):
        comment = line.find("--") if line.lstrip().startswith("--") else -1
        if comment < 0 and " -- " in line:
            comment = line.find(" -- ") + 1
        code, said = (line, "") if comment < 0 else (line[:comment], line[comment:])
        out.append(respelled(code, table) + in_said(said, table))
    return "\n".join(out)


def in_said(said, table):
    """Comments and pages: names in backticks, and words that only a name can be."""
    said = re.sub(r"`[^`\n]+`", lambda m: respelled(m[0], table), said)
    return re.sub(r"(?<![\w'-])[a-z]+[a-z0-9]*(?:[A-Z][a-z0-9]*)+(?![\w'-])", lambda m: table.get(m[0], m[0]), said)


def in_rt(text, table):
    parts = re.split(r"""(b?'(?:\\.|[^'\\\n])'|"(?:\\.|[^"\\])*"|//[^\n]*)""", text)
    for i, part in enumerate(parts):
        if part.startswith("//"):
            parts[i] = in_said(part, table)
        elif not re.match(r"b?['\"]", part):
            parts[i] = respelled(part, table)
    return "".join(parts)


def main(argv):
    table, own, library, crates = renaming()
    fall = {}
    for name, new in sorted(table.items()):
        if new in own or new in library:
            fall[name] = new
        fall_with = [n for n in table if n != name and table[n] == new]
        if fall_with:
            fall[name] = new
    if argv == ["--list"]:
        for name, new in sorted(table.items()):
            print(name, new, "FALLS" if name in fall else "", "LIBRARY" if name in library else "")
        return 0
    files = antt_files() + sorted(glob.glob("crates/*/src/**/*.rt", recursive=True) + glob.glob("crates/*/must-fail/*.edit"))
    pages = ["README.md"] + sorted(glob.glob("docs/*.md"))
    for f in files + pages:
        if not os.path.exists(f):
            continue
        text = open(f).read()
        skip = imported(text, crates)
        here = {n: v for n, v in table.items() if n not in skip}
        if f.endswith(".antt"):
            new = in_antt(text, here)
        elif f.endswith(".md"):
            new = in_said(text, here)
        else:
            new = in_rt(text, here)
        if f.endswith("/Proof.antt"):
            function = os.path.basename(os.path.dirname(f))
            new = re.sub(r"(?<![\w-])" + re.escape(function.replace("_", "-")) + r"-spec(?![\w-])", function + "_spec", new)
        if new != text:
            open(f, "w").write(new)
    print(f"respell: {len(table)} names")
    return 0


if __name__ == "__main__":
    sys.exit(main(sys.argv[1:]))

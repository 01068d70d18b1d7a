#!/usr/bin/env python3
"""spell.py: brings the repository's own definitions and lemmas to the present spelling: words in snake case, types in camel case.

Run once, at the top, after port.py. A name of crates/*/specs or of a lemma file in crates/*/proofs that has a dash or a hump
gets underscores there, and wherever it is cited: other .antt files, clauses and `ghost use` lines of .rt files, edits, pages.
Names from Rattle source, of goals and of the library keep their spelling. It stops where two names would fall together."""
import os
import re
import sys

IDENT = r"[A-Za-z_][A-Za-z0-9_'₀-₉\-+*]*"
DEFINED = re.compile(r"\s*(?:(?:pub|abbrev|unfoldable|record|data|let)\s+)*(" + IDENT + r") (?:.* )?:(?: |$)")
IMPORTED = re.compile(r"^\s*(?:pub )?(?:ghost )?use ([\w.·]+)\.\{([^}]*)\}")
OWN_PATH = re.compile(r"Rattle\.(\w+)\.(specs|proofs)")
# lemmas that port.py gave the name which a function of theirs has now: file -> names that get `_lem`
LEMMAS = {
    "crates/promises/specs/EarliestLaws.antt": ["goes_before"],
    "crates/promises/specs/RecordLaws.antt": ["same_row"],
    "crates/embed/specs/RestLaws.antt": ["has_room"],
    "crates/exact/specs/ExactRun.antt": ["in_window"],
    "crates/exact/specs/ExactRefused.antt": ["in_window"],
    "crates/plan_text/specs/PrefixLaws.antt": ["numbers_fit"],
    "crates/plan_text/specs/WriteLaws.antt": ["numbers_fit"],
    "crates/plan_text/proofs/reader/plan_from/Proof.antt": ["numbers_fit"],
    "crates/plan_text/specs/RoundLaws.antt": ["same_bytes"],
    "crates/console/specs/Turns.antt": ["step_line"],
    "crates/console/proofs/run/stepped/Proof.antt": ["step_line"],
}


def files(root, ends):
    for folder, dirs, names in os.walk(root):
        dirs[:] = sorted(d for d in dirs if d not in ("out", "target", ".git"))
        for name in sorted(names):
            if name.endswith(ends):
                yield os.path.join(folder, name)


def text_of(path):
    with open(path, encoding="utf-8") as f:
        return f.read()


def new_name(name):
    parts = []
    for part in name.split("-"):
        if part[:1].islower():
            part = re.sub(r"(?<=[a-z0-9])([A-Z]+)(?![a-z])|(?<=[a-z0-9])([A-Z])", lambda m: "_" + m.group(0).lower(), part)
        parts.append(part)
    return "_".join(parts)


def own_names(crates):
    found = {}
    for crate in crates:
        for sub in ("specs", "proofs"):
            for path in files(os.path.join("crates", crate, sub), ".antt"):
                if os.path.basename(path) == "Proof.antt":
                    continue
                for line in text_of(path).split("\n"):
                    m = DEFINED.match(line)
                    if m and not line.lstrip().startswith("--"):
                        found.setdefault(m.group(1), path)
    return found


def library_names(crates):
    """What the files import from elsewhere."""
    names = {}
    for path in files("crates", (".antt", ".rt")):
        for line in text_of(path).split("\n"):
            m = IMPORTED.match(line)
            own = m and OWN_PATH.match(m.group(1))
            if m and not (own and own.group(1) in crates):
                for n in re.split(r",\s*", m.group(2)):
                    names.setdefault(n.split(" as ")[0].strip(), path)
    return names


def main():
    crates = sorted(os.listdir("crates"))
    token = re.compile(IDENT)
    for path, names in LEMMAS.items():
        old = text_of(path)
        lines = [token.sub(lambda m: m.group(0) + "_lem" if m.group(0) in names else m.group(0), line) if not re.match(r"use Rattle\.\w+\.proofs", line) else line for line in old.split("\n")]
        with open(path, "w", encoding="utf-8") as f:
            f.write("\n".join(lines))
    own = own_names(crates)
    library = library_names(crates)
    turned = {n: new_name(n) for n in own}
    turned = {n: m for n, m in turned.items() if n != m}
    stop = False
    by_new = {}
    for n, m in sorted(turned.items()):
        if n in library:
            print(f"spell: {n} of {own[n]} is the library's too ({library[n]}): left")
            continue
        if m in own or m in library:
            print(f"spell: {n} would be {m}, which is there ({own.get(m) or library[m]})")
            m = m + "_lem" if "-" in n else m
            if m in own or ("-" not in n and m in own):
                stop = True
        if m in by_new:
            print(f"spell: {n} and {by_new[m]} would both be {m}")
            first, second = sorted((n, by_new[m]), key=lambda x: "-" in x)
            if "-" not in second or "-" in first:
                stop = True
            by_new[m], by_new[m + "_lem"] = first, second
            continue
        by_new[m] = n
    turned = {n: m for m, n in by_new.items()}
    if stop or "--list" in sys.argv:
        for n, m in sorted(turned.items()):
            if "--list" in sys.argv:
                print(n, m)
        raise SystemExit(1 if stop else 0)
    operator = re.compile(r"◌(" + IDENT + r")◌")

    def turn(t):
        return token.sub(lambda m: turned.get(m.group(0), m.group(0)), t)

    changed = 0
    for path in files("crates", (".antt", ".rt", ".edit")):
        old = text_of(path)
        if path.endswith(".rt"):
            # a dash joins names in clauses alone; elsewhere it is a sign
            new = "\n".join(turn(line) if re.match(r"\s*(ghost use|requires|ensures|ghost)\b", line) else line for line in old.split("\n"))
        elif path.endswith(".edit"):
            new = "\n".join(turn(line) if re.match(r"(old|new): *(ghost use|requires|ensures|ghost)\b", line) or "file: specs" in old or "file: proofs" in old else line for line in old.split("\n"))
        else:
            new = turn(old)
            new = operator.sub(lambda m: "◌" + re.sub(r"([a-z])([A-Z])", lambda h: h.group(1) + "_" + h.group(2).lower(), m.group(1)) + "◌", new)
        if new != old:
            changed += 1
            with open(path, "w", encoding="utf-8") as f:
                f.write(new)
    print(f"spell: {len(turned)} names, {changed} files")


main()

#!/usr/bin/env python3
"""Brings the repository's own definitions and lemmas to today's spelling: snake case, and a dash only where it joins two names.

    respell.py [--list]     at the top of the repository, after port.py and before any proof is turned; --list changes nothing

Words get underscores, as `key-value` -> `key_value`. A type or a fact (declared with a result `Type n`) gets upper camel case.
A lemma whose parts are all names of definitions keeps the dash between them, as `length-last-digits` -> `length-last_digits`.
Names of src/, names that Rattle makes (`returns-2`, `loop-init` ..) and strings keep their spelling. Where a new name is already
another one's, the lemma gets `_lem`; a line `fell together` says so. Pages (*.md) follow inside backticks.
"""
import pathlib
import re
import sys

# Names that the prelude of `model` gives to std's, and the two arguments of a definition in specs/ that have dashes.
GIVEN = {
    "List-as-Memᴰ": "Memᴰ",
    "List·Memᴰ·append-cases": "mem_append_cases",
    "Memᴰ·append-left": "mem_append_left",
    "Memᴰ·append-right": "mem_append_right",
    "List·Memᴰ·cases-cons": "mem_cases_cons",
    "Memᴰ·cast": "mem_cast",
    "List·Memᴰ·eq-of-singleton": "mem_eq_of_singleton",
    "List·Memᴰ·head": "mem_head",
    "List·Memᴰ·not-nil": "mem_not_nil",
    "List·Memᴰ·tail": "mem_tail",
    "List·getD-append": "get_or_append",
    "List·getD-eq-default": "get_or_eq_default",
    "Bool·not-not": "not_not",
    "other-high": "other_high",
    "other-low": "other_low",
}
IDENT = r"[^\s(){}\[\],;.=λ→∀:\"@`|]+"
WORD = re.compile(r"[^\s(){}\[\],;.=λ→∀:\"@`|⌜⌝]+")
DECLARED = re.compile(r"^\s*(?:pub )?(?:(?:abbrev|unfoldable|record|data) )?(?:pub )?(" + IDENT + r"(?: " + IDENT + r")*?)\s*(?:\{[^}]*\}\s*|\([^)]*\)\s*)*:\s(.*)$")


def files(ending):
    return [f for f in sorted(pathlib.Path("crates").rglob(ending)) if "/out/" not in str(f)]


def made(file):
    """A file whose declarations are named by Rattle: the proof of a function, proofs/F/Proof.antt."""
    return file.name in ("Proof.antt", "Answers.antt", "Invariants.antt") and file.parent.name not in ("proofs", "specs")


def declared():
    """name -> whether it stands in specs/, and whether it is a type."""
    found, every = {}, set()
    for f in files("*.antt"):
        for line in f.read_text().split("\n"):
            code = line.split("-- ")[0]
            for name in re.findall(r" as ([^\s,{}()]+-[^\s,{}()]+)", code) if "use " in code else []:
                specs, kind = found.get(name, (False, False))
                found[name] = (specs or "/specs/" in str(f), kind)
            m = DECLARED.match(code)
            if not m:
                continue
            for name in m.group(1).split():
                every.add(name)
                if "-" in name.strip("-") and not made(f) and not name.startswith("-"):
                    specs, kind = found.get(name, (False, False))
                    found[name] = (specs or "/specs/" in str(f), kind or bool(re.search(r"Type \d( where)?$", m.group(2))))
    return found, every


def snake(name):
    return name.replace("-", "_")


def joined(name, known):
    """`name` with its dashes kept where they join names of definitions, or None."""
    parts = name.split("-")
    out, i = [], 0
    while i < len(parts):
        for j in range(len(parts), i, -1):
            if "_".join(parts[i:j]) in known:
                out.append("_".join(parts[i:j]))
                i = j
                break
        else:
            return None
    return "-".join(out) if len(out) > 1 else None


def main():
    found, every = declared()
    imported = {w for f in files("*.antt") for line in f.read_text().split("\n") if re.match(r"(pub )?use Rattle\.std", line) for w in re.findall(IDENT, line)}
    known = {snake(n) for n, (specs, kind) in found.items() if specs and not kind} | {w for w in imported if re.fullmatch(r"[a-z_]+", w)}
    table = {}
    for name, (specs, kind) in sorted(found.items()):
        if kind:
            new = "".join(p[:1].upper() + p[1:] for p in re.split(r"[-_]", name))
        else:
            new = (None if specs else joined(name, known)) or snake(name)
        if new != name:
            table[name] = new
    table.update(GIVEN)
    taken = {}
    for name, new in list(table.items()):
        if new in taken or new in every:
            print(f"fell together: {name} and {taken.get(new, new)}: {new}_lem")
            table[name] = new = new + "_lem"
        taken[new] = name
    if "--list" in sys.argv:
        for name, new in table.items():
            print(name, new)
        return

    def turned(text):
        return WORD.sub(lambda m: ".".join(table.get(p, p) for p in m.group(0).split(".")), text)

    def outside_strings(text):
        return '"'.join(t if i % 2 else turned(t) for i, t in enumerate(text.split('"')))

    count = 0
    for f in files("*.antt"):
        old = f.read_text()
        new = "\n".join(outside_strings(line) for line in old.split("\n"))
        new = re.sub(r"\b(\S+) as \1(?=[,}])", r"\1", new)
        count += new != old
        f.write_text(new)
    for f in files("*.rt"):
        out, clause = [], False
        for line in f.read_text().split("\n"):
            bare = line.strip()
            if bare.startswith("//"):
                line = re.sub(r"`[^`]*`", lambda m: turned(m.group(0)), line)
            elif bare.startswith("ghost ") or re.match(r"(requires|ensures)\b", bare) or clause:
                line = outside_strings(line)
                clause = not bare.startswith("ghost use") and (clause or bare.startswith(("requires", "ensures", "ghost"))) and not bare.startswith("{") or clause and not bare == "{"
                clause = clause and bare != "{" and not re.match(r"(requires|ensures|ghost)\b.*\}$", bare)
                if clause and bare.endswith("}") and out and line.count("}") > line.count("{"):
                    clause = False
            out.append(line)
        f.write_text("\n".join(out))
    for f in [*pathlib.Path(".").glob("*.md"), *pathlib.Path("docs").rglob("*.md"), *pathlib.Path("tests").rglob("*.md")]:
        old = f.read_text()
        new = re.sub(r"`[^`\n]*`", lambda m: turned(m.group(0)), old)
        if new != old:
            f.write_text(new)
            count += 1
    print(f"{len(table)} names in {count} files")


if __name__ == "__main__":
    main()

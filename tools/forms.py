#!/usr/bin/env python3
"""Counts, for docs/DESIGN-PASS.md, the places of older forms in crates/*/src: forms.py [--list] [TOP]   (TOP: the repository's top)"""
import pathlib
import re
import sys

words = [it for it in sys.argv[1:] if it != "--list"]
top = pathlib.Path(words[0] if words else ".")
order = [line.split(":")[0].split()[0] for line in (top / "crates.txt").read_text().splitlines() if ":" in line.partition("#")[0]]


def text_of(path):
    """The code of a file: comments are blanked, so that lines keep their numbers."""
    return re.sub(r"//[^\n]*", "", path.read_text())


files = {path: text_of(path) for crate in order for path in sorted((top / "crates" / crate / "src").rglob("*.rt"))}


def found(pattern):
    """Every place that a pattern has, as (file, line, text)."""
    places = []
    for path, text in files.items():
        for match in re.finditer(pattern, text, re.M | re.S):
            line = text.count("\n", 0, match.start()) + 1
            places.append((str(path.relative_to(top)), line, " ".join(match[0].split())[:110]))
    return places


def enums(is_wanted):
    """The crates' own enums whose variants pass a test."""
    places = []
    for place in found(r"^(?:pub )?enum \w+ \{.*?^\}"):
        body = files[top / place[0]].splitlines()[place[1] - 1:]
        variants = []
        for line in body[1:]:
            if line.startswith("}"):
                break
            if re.match(r"\s+\w", line):
                variants.append(line.strip().rstrip(","))
        if is_wanted(variants):
            places.append((place[0], place[1], body[0].rstrip(" {") + ": " + ", ".join(variants)))
    return places


def is_option_or_result(variants):
    """One bare variant beside one that carries a value; or one that carries a refusal beside others."""
    carrying = [it for it in variants if "(" in it]
    return (len(variants) == 2 and len(carrying) in (1, 2)) and not any(it.startswith(("Slot(", "Cell(")) for it in carrying) \
        or any(re.match(r"Refused\(", it) for it in variants)


def travelling(*names):
    """The functions whose parameters include all of these names."""
    places = []
    for path, line, _ in found(r"^\s*(?:pub )?(?:extern \"C\" )?fn \w+"):
        rest = "\n".join(files[top / path].splitlines()[line - 1:])
        head = re.match(r"\s*(?:pub )?(?:extern \"C\" )?fn \w+(?:<[^>]*>)?\((.*?)\)\s*(?:->|requires|ensures|\{)", rest, re.S)
        given = {it.split(":")[0].replace("mut ", "").strip() for it in head[1].split(",") if ":" in it} if head else set()
        if set(names) <= given:
            places.append((path, line, head[0].split("(")[0].strip()))
    return places


def clauses(pattern):
    """The `requires` and their further lines that hold a fact."""
    return [it for clause in found(r"requires(?: \w+)? \{.*?\}\n(?=\s*(?:requires|ensures|\{))") if re.search(pattern, clause[2]) or
            re.search(pattern, whole(clause)) for it in [clause]]


def whole(place):
    rest = "\n".join(files[top / place[0]].splitlines()[place[1] - 1:])
    return re.match(r".*?\}\n(?=\s*(?:requires|ensures|\{))", rest, re.S)[0]


POINTS = [
    ("1 own enums of the shape of Option or Result", enums(is_option_or_result)),
    ("1 other own enums", enums(lambda variants: not is_option_or_result(variants))),
    ("1 a flag or a number that says whether the value beside it counts",
     found(r"^\s+pub (?:few|agrees|held|inner|verdict): |^\s+pub right: usize|^    refused: u64,$|^(?:pub )?const (?:NO_BUCKET|NO_DIGIT|NONE|NOWHERE)\b|^\s+pub stores: ")),
    ("1 a number, 0 or 1, for yes or no; a number for a refusal", found(r"fn (?:step\(\s*first|kept\(|enter\(|fault\(|cause_number\(|refusal_of\()")),
    ("2 one conversion for each pair of number types", found(r"fn (?:usize|u64|u16|u8)_of_(?:u8|u16|u32|usize)\(")),
    ("2 calls of them", [it for it in found(r"\b(?:usize|u64|u16|u8)_of_(?:u8|u16|u32|usize)\(") if not re.search(r"fn \w+$", it[2])]),
    ("3 while", found(r"\bwhile\b")),
    ("3 loop", found(r"\bloop \{")),
    ("3 for", found(r"\bfor \w+ in\b")),
    ("4 equality and order by hand: calls", found(r"\b(?:digits::)?is_(?:same|below)\(")),
    ("4 numbers from bytes and to bytes by hand",
     found(r"fn (?:two|four|little_endian|swapped_two|swapped_four|swapped|word|bytes_of|pair|low|high|all_words)\(")),
    ("4 what a method of the library does",
     found(r"fn (?:larger|smaller|one_less|copy|clear|filled|taken|beginning)\(|std::num::wrapping_\w+|u64::(?:trailing_zeros|count_ones)\(")),
    ("4 structs and enums with derives for comparison", found(r"#\[derive\([^)]*PartialEq[^)]*\)\]")),
    ("5 requires: the file fits its size", clauses(r"Sized \(length")),
    ("5 requires: an image's length", clauses(r"length image\.(?:now|old) ≡ image_length")),
    ("5 requires: a slot's size", clauses(r"OfSize \w+\.now|64 ≤ length \w+\.now|length slot\.now ≡ 64")),
    ("5 requires: entries lie in a row", clauses(r"e \* \w+ ≤ length")),
    ("5 requires: an order's slots and their number", clauses(r"Below |count ≤ 64")),
    ("5 parameters file and size", travelling("file", "size")),
    ("5 parameters order and count", travelling("order", "count")),
    ("5 parameters slot and layout", travelling("slot", "layout")),
    ("5 parameters entries, e and count", travelling("entries", "e", "count")),
    ("5 requires in all", found(r"^\s+requires\b")),
]

for name, places in POINTS:
    print(f"{len(places):5} {name}")
    if "--list" in sys.argv:
        for path, line, text in places:
            print(f"        {path}:{line}: {text}")

proofs = [path for crate in order for path in (top / "crates" / crate / "proofs").rglob("*.antt")]
answers = [path for path in proofs if path.name == "Answers.antt"]
print(f"{len(answers):5} 8 files of answers, with {sum(len(re.findall(r'^(?:pub |abbrev pub )?[a-z][^ :]* : goal', p.read_text(), re.M)) for p in answers)} answers")
print(f"{sum(p.name == 'Invariants.antt' for p in proofs):5} 8 files of invariants")
print(f"{sum(len(p.read_text().splitlines()) for p in proofs):5} 8 lines of proofs")

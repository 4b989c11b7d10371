#!/usr/bin/env python3
"""Brings the repository's own definitions and lemmas to today's spelling: words in snake case, a dash only between two names.

usage: python3 tools/respell.py [FOLDER]    once, right after port.py; FOLDER is the repository's top, by default the one that holds this file
       python3 tools/respell.py --list      prints each old name beside its new one, and changes nothing

port.py respells what the library respelled. This one turns the rest: lower camel case everywhere in specs/, proofs/ and the clauses of src/, dashes in the names that
specs/ and the lemma files of proofs/ declare, and the crate `log`, which the library has too. Functions of src/, exported names, strings, inputs and outputs stay.
"""
import re
import sys
from pathlib import Path

WORD = r"[^\s(){}\[\];,.`\"«»|:]+"
TOKEN = re.compile(WORD)
DECLARED = re.compile(rf"^( *)(?:(?:pub|abbrev|unfoldable)\s+)*(?:(?:record|data)\s+)?({WORD})\s*(?:\([^)]*\)\s*|\{{[^}}]*\}}\s*)*:\s", re.M)
CAMEL = re.compile(r"(?<=[a-zα-ω0-9₀-₉'])(?=[A-Z])")
# Words of the library, beside which a dash joins two names.
LIBRARY = {"length", "take", "drop", "append", "get_or", "map", "reverse", "replicate", "slice", "bit_xor", "eqb", "cond", "filter", "concat"}
CRATE_NAMES = {"log": "chip_log"}


def snake(segment):
    """A segment of a name without its humps; one that begins with a capital names a type, and stays."""
    if not segment or not (segment[0].islower() or segment[0] == "_") or not re.search(r"[a-zα-ω0-9₀-₉'][A-Z]", segment):
        return segment
    return CAMEL.sub("_", segment).lower()


def lemma_files(top):
    """The files of definitions and lemmas: all of specs/, and of proofs/ those that prove no function."""
    for crate in sorted((top / "crates").iterdir()):
        yield from sorted(crate.glob("specs/**/*.antt"))
        yield from (f for f in sorted(crate.glob("proofs/**/*.antt")) if f.name not in ("Proof.antt", "Answers.antt", "Invariants.antt") or f.parent.name == "proofs")


def respelled(names, defined):
    """Each declared name that changes, with its new spelling."""
    definitions = {snake(n) for n in defined if "-" not in n and "_" in snake(n)} | LIBRARY

    def joined(parts):
        # the longest names first; a dash stays where all of the name is made of known ones
        if not parts:
            return []
        for size in range(len(parts), 0, -1):
            word = "_".join(parts[:size])
            if word in definitions and size < len(parts) + 1:
                rest = joined(parts[size:])
                if rest is not None:
                    return [word] + rest
        return None

    turned = {}
    for name in names:
        parts = [snake(p) for p in name.split("-")]
        if len(parts) == 1:
            new = parts[0]
        elif any(p == "" for p in parts) or any(not re.match(r"[\wα-ω₀-₉']+$", p) for p in parts):
            new = "-".join(parts)
        elif any(p[0].isupper() for p in parts):
            new = "-".join(parts)
        else:
            whole = joined(parts)
            new = "-".join(whole) if whole and len(whole) > 1 else "_".join(parts)
        if new != name:
            turned[name] = new
    return turned


def apart(turned, outer, defined):
    """No two names fall together: a definition takes its name, and the lemma that would have it too gets `_lem`. A record's parts are apart by the record."""
    for name in outer - defined:
        if name not in turned and any(turned.get(d) == name for d in defined):
            turned[name] = name
    taken = {n for n in outer if n not in turned}
    for old in sorted((n for n in turned if n in outer), key=lambda n: (n not in defined, "-" in n, n)):
        new = turned[old]
        while new in taken:
            new += "_lem"
        turned[old] = new
        taken.add(new)
    return turned


def words(text, turned):
    """A stretch of antt, word by word."""

    def one(found):
        word = found[0]
        if word in turned:
            return turned[word]
        if re.match(r"[a-zα-ω_]", word) and "-" not in word:
            return snake(word)
        if "-" in word:
            return "-".join(snake(p) for p in word.split("-"))
        return word

    return TOKEN.sub(one, text)


def prose(text, turned):
    """A comment or a page: only what stands between backquotes, and words with humps that are declared."""
    text = re.sub(r"`[^`\n]*`", lambda q: words(q[0], turned), text)
    return re.sub(r"(?<![\w`/.-])[a-z]+[A-Z]\w*(?![\w`])", lambda w: turned.get(w[0], w[0]), text)


def antt(text, turned):
    """A file of definitions, lemmas or a proof, its comments as prose."""
    out = []
    for line in text.split("\n"):
        cut = re.search(r"(^|\s)--(\s|$)", line)
        cut = cut.start() if cut else len(line)
        out.append(words(line[:cut], turned) + prose(line[cut:], turned))
    return "\n".join(out)


def source(text, turned):
    """A file of src/: its ghost lines and clauses; the code stays."""
    out, depth = [], 0
    for line in text.split("\n"):
        if line.lstrip().startswith("//"):
            out.append(prose(line, turned))
            continue
        clause = depth > 0 or re.match(r"\s*(ghost\b|requires\b|ensures\b|variant\b)", line)
        if clause:
            depth += line.count("{") - line.count("}")
            out.append(words(line, turned))
        else:
            out.append(line)
    return "\n".join(out)


def crate_renamed(text, old, new, antt_file):
    """A crate's name in paths."""
    text = re.sub(rf"\bRattle\.{old}\.", f"Rattle.{new}.", text)
    if not antt_file:
        text = re.sub(rf"\buse {old}\b(?=[:;])", f"use {new}", text)
        text = re.sub(rf"(?<![\w:.]){old}::", f"{new}::", text)
    return text


def main(argv):
    top = Path(argv[0]) if argv and not argv[0].startswith("-") else Path(__file__).resolve().parent.parent
    names, outer, defined = set(), set(), set()
    for file in lemma_files(top):
        for found in DECLARED.finditer(file.read_text()):
            if "◌" not in found[2] and not found[2].startswith(("λ", "--", "=")):
                names.add(found[2])
                if not found[1]:
                    outer.add(found[2])
                    if "specs" in file.parts:
                        defined.add(found[2])
    turned = {old: new for old, new in apart(respelled(names, defined), outer, defined).items() if old != new}
    if argv and argv[0] == "--list":
        for old in sorted(turned):
            print(old, turned[old])
        return 0
    for old, new in CRATE_NAMES.items():
        folder = top / "crates" / old
        if folder.exists():
            folder.rename(top / "crates" / new)
    for crate in sorted((top / "crates").iterdir()):
        for file in sorted(crate.rglob("*")):
            if "out" in file.relative_to(crate).parts[:1] or not file.is_file() or file.suffix not in (".antt", ".rt", ".edit"):
                continue
            text = file.read_text()
            if file.suffix == ".antt":
                new = antt(text, turned)
                if file.name == "Proof.antt":
                    function = file.parent.name
                    new = new.replace(function.replace("_", "-") + "-spec", function + "_spec")
            elif file.suffix == ".rt":
                new = source(text, turned)
            else:
                new = "\n".join(words(l, turned) if re.match(r"(old|new):", l) and re.search(r"^file: (specs|proofs)", text, re.M) else l for l in text.split("\n"))
            for a, b in CRATE_NAMES.items():
                new = crate_renamed(new, a, b, file.suffix == ".antt")
            if new != text:
                file.write_text(new)
    for page in [top / "README.md", *sorted((top / "docs").rglob("*.md"))]:
        text = page.read_text()
        new = prose(text, turned)
        if new != text:
            page.write_text(new)
    listed = top / "crates.txt"
    text = listed.read_text()
    new = re.sub(r"^([a-z_]+):(.*)$", lambda l: f"{CRATE_NAMES.get(l[1], l[1])}:" + re.sub(r"\w+", lambda w: CRATE_NAMES.get(w[0], w[0]), l[2]), text, flags=re.M)
    listed.write_text(new)
    return 0


if __name__ == "__main__":
    raise SystemExit(main(sys.argv[1:]))

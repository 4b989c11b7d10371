#!/usr/bin/env python3
"""Finds the places in crates/*/src that may be in an older form, point by point (docs/DESIGN-PASS.md).

Call it as `tools/forms.py` for the tree as it stands, or as `tools/forms.py COMMIT`; with `-q` behind that it prints the counts alone. It goes by text: it finds
places to look at, and the page says of each what became of it.
"""
import collections
import re
import subprocess
import sys


def texts(commit, wanted):
    """The text of each file below crates/ whose name has this form."""
    names = ["git", "ls-files", "crates"] if commit is None else ["git", "ls-tree", "-r", "--name-only", commit, "crates"]
    found = {}
    for name in subprocess.run(names, check=True, capture_output=True, text=True).stdout.split():
        if re.match(wanted, name):
            if commit is None:
                found[name] = open(name).read()
            else:
                found[name] = subprocess.run(["git", "show", f"{commit}:{name}"], check=True, capture_output=True, text=True).stdout
    return found


def uncited(commit):
    """Each law that nothing cites: no line of a proof, definition or source but those that begin with its own name."""
    proofs = texts(commit, r"crates/\w+/(proofs|specs|src)/.*\.(antt|rt)$")
    cited = collections.Counter()
    for text in proofs.values():
        for line in text.split("\n"):
            words = set(re.findall(r"[\w'-]+", line.split("--")[0]))
            own = re.match(r"(?:abbrev |unfoldable )?(?:pub )?([\w'-]+)", line)
            for word in words - ({own.group(1)} if own else set()):
                cited[word] += 1
    for file, text in sorted(proofs.items()):
        if re.match(r"crates/\w+/proofs/[A-Z]\w*\.antt$", file):
            for m in re.finditer(r"(?m)^(?:pub )?([\w'-]+) : ", text):
                if not cited[m.group(1)]:
                    yield f"{file[7:]}:{text[: m.start()].count(chr(10)) + 1}", m.group(1)


def functions(text):
    """Each function: its name, the line it begins at, its parameters, its clauses, its body."""
    for m in re.finditer(r"(?m)^( *)(?:pub(?:\(crate\))? )?(?:extern \"C\" )?fn (\w+)(?:<[^>(]*>)?\(", text):
        end = re.compile(r"(?m)^%s\}$|\{\}$" % m.group(1)).search(text, m.end())
        whole = text[m.end(): end.end() if end else len(text)]
        depth, at = 1, 0
        while depth and at < len(whole):
            depth += {"(": 1, ")": -1}.get(whole[at], 0)
            at += 1
        rest = whole[at:]
        open_body = re.search(r"(?m)^%s\{$|\{$|\{\}$" % m.group(1), rest)
        head = rest[: open_body.start()] if open_body else rest
        body = rest[open_body.start():] if open_body else ""
        parameters = [p.strip() for p in whole[: at - 1].split(",") if p.strip()]
        clauses = re.findall(r"(?m)^\s*(requires|ensures)(?: \w+)? \{ (.*) \}$", head)
        yield m.group(2), text[: m.start()].count("\n") + 1, parameters, clauses, re.sub(r"//.*", "", body)


def shape(body):
    """A body with its names, numbers and texts put out of sight."""
    body = re.sub(r'b?"[^"]*"', "S", re.sub(r"\b(0x[0-9a-f]+|\d+)(u8|usize|u64)?\b", "N", body))
    kept = set("fn let mut if else match while for in return bool true false as self struct S N".split())
    seen = {}
    name = lambda m: m.group(0) if m.group(0) in kept else seen.setdefault(m.group(0), "v%d" % len(seen))
    return re.sub(r"\b[A-Za-z_]\w*\b", name, re.sub(r"\s+", " ", body))


def places(commit):
    """Each place, as its point, where it stands and what it is."""
    shapes, facts, together = (collections.defaultdict(list) for _ in range(3))
    for file, text in sorted(texts(commit, r"crates/\w+/src/.*\.rt$").items()):
        where = lambda line: f"{file[7:]}:{line}"
        crate = file.split("/")[1]
        lines = text.split("\n")
        code = [line.split("//")[0] for line in lines]
        for n, line in enumerate(code, 1):
            if re.match(r"\s*(pub(\(crate\))? )?enum ", line):
                yield 1, where(n), "an enum of our own: " + line.strip()
            if re.match(r"\s+(pub )?answer: Answer,", line):
                yield 1, where(n), "an answer with values beside it"
            if re.search(r"\b(part|line|direction|phase|kind): (usize|u64|u8)\b", line) and "fn " in line:
                yield 1, where(n), "a number for a kind: " + line.strip()
            if re.search(r"\b(while|loop)\b", line):
                yield 3, where(n), line.strip()
            if re.search(r"(?:bytes|places): \[u8; \w+\],", line):
                yield 6, where(n), "bytes with a size beside them: " + line.strip()
        for name, line, parameters, clauses, body in functions(text):
            if crate not in ("gateway_c", "timing_c") and len(shape(body)) > 60:
                shapes[shape(body)].append((where(line), name))
            for kind, clause in clauses:
                if kind == "requires":
                    facts[crate, re.sub(r"\b\w+(\.\w+)*\.(old|now|new)\b", "P", clause)].append((where(line), name))
            named = [p.replace("mut ", "") for p in parameters if ":" in p]
            for i, p in enumerate(named):
                for q in named[i + 1:]:
                    together[crate, p, q].append((where(line), name))
            if re.match(r"(is_|same|compare$|equal|rank|number_of|\w+_number$|\w+_of$|lesser|earlier|later|number$)", name) and re.search(r"\bmatch\b|if .* \{ *\n? *return|=> (true|false|\d+)|\{ \w+ \} else", body):
                yield 4, where(line), "comparison or conversion by hand: " + name
            if len(re.findall(r"(?m)^\s*[\w:|{}_(), ]+ => (?:\w+(?:::|\.))?\w+\(", body)) > 1:
                yield 7, where(line), "arms that choose what is called: " + name
    for file in texts(commit, r"crates/\w+/proofs/.*/(Answers|Invariants)\.antt$"):
        yield 8, file[7:], "answers or invariants by hand"
    for where, name in uncited(commit):
        yield 8, where, "a law that no proof cites: " + name
    for group in shapes.values():
        if len(group) > 1:
            for at, name in group:
                yield 2, at, "alike: " + ", ".join(n for _, n in group)
    for (crate, clause), group in facts.items():
        if len(group) > 2:
            yield 5, group[0][0], f"in {len(group)} contracts: {clause}"
    for (crate, p, q), group in together.items():
        if len(group) > 4:
            yield 5, group[0][0], f"in {len(group)} functions together: {p}; {q}"


def main():
    words = [w for w in sys.argv[1:] if w != "-q"]
    counts = collections.Counter()
    for point, where, what in sorted(places(words[0] if words else None)):
        counts[point] += 1
        if "-q" not in sys.argv:
            print(point, where, what)
    for point in sorted(counts):
        print(f"point {point}: {counts[point]}")


main()

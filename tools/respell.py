#!/usr/bin/env python3
"""Brings the repository's own definitions and lemmas to the spelling of today's Rattle: words in snake case, a dash only between two names.

usage: tools/respell.py [FOLDER]

It gives the names of today when it is run, once, on what port.py makes of the commit that docs/PORT.md names first. tools/respell.tsv has a row for each name: old, a tab, new. Whole names
turn alone, in crates/ and in the further edits of tests/edits: in specs and proofs; in the clauses and comments of the sources; in the texts of edits. Strings
stay, and so does code: no function, type or variable of src/ is a row. In a comment a name with a dash turns only in back quotes. In an old Proof.antt a name
behind a dot turns only behind a path of modules, since a field there is mostly a step of the code, which has a function's name.
"""
import os
import re
import sys

HERE = os.path.dirname(os.path.realpath(__file__))
# Two operators of crate sets stood under the names of operators of the library: their words, in specs and proofs, and the test in a clause.
OPERATORS = {"◌==◌": "◌=?◌", "==": "=?", "if◌then◌else◌": "if?◌then◌else◌", "if": "if?"}
# Constructors of Call, in the files that have them; model/specs/Answers.antt gives its lists of lines names of the same spelling.
CALLS = {a + k: f"{a}_{k.lower()}" for a in ("add", "del") for k in ("Spec", "Mod", "Sys", "Modvar", "Sysvar")}
OF_CALLS = ("command_outcome/specs/Calls.antt", "demand_3/specs/NumberedLaws.antt", "try_demand_3/specs/Lesson.antt", "try_demand_3/src/main.rt", "commands/src/lib.rt")
WORD = re.compile(r'[^\s(){}.;,@"«»\[\]\\|]+')
PIECE = re.compile(r'"(?:[^"\\\n]|\\.)*"|--[^\n]*|//[^\n]*|[^\s(){}.;,@"«»\[\]\\|]+|.', re.S)


def table():
    with open(os.path.join(HERE, "respell.tsv"), encoding="utf-8") as f:
        return dict(line.rstrip("\n").split("\t") for line in f if line.strip())


def comment(text, names):
    def bare(m):
        word = m.group(0)
        tail = re.search(r"[:'?!]*$", word).group(0)
        core = word[: len(word) - len(tail)] if tail else word
        return names.get(word, names[core] + tail if core in names and "-" not in core and re.search("[a-z0-9][A-Z]|at$", core) else word) \
            if "-" not in word and re.search("[A-Z]", word) else word

    parts = re.split(r"(`[^`\n]*`)", text)
    for k, part in enumerate(parts):
        if part.startswith("`") and k % 2:
            parts[k] = "`" + re.sub(r"[^\s(){}.;,@\"«»\[\]\\|`]+", lambda m: names.get(m.group(0), m.group(0)), part[1:-1]) + "`"
        else:
            parts[k] = WORD.sub(bare, part)
    return "".join(parts)


def turn(text, names, kind):
    """kind: 'antt', 'rt' or 'proof' (an old Proof.antt)."""
    heads = set(re.findall(r"\bas ([^\s;,{}()]+)", text)) if kind == "proof" else set()
    fields = FIELDS
    out, chain = [], []  # chain: the dotted path that ends here
    pieces = PIECE.findall(text)
    for k, piece in enumerate(pieces):
        if kind == "rt" and piece.startswith("--"):
            out.append(piece)
            chain = []
        elif piece.startswith("--") and kind != "rt":
            out.append(comment(piece, names))
            chain = []
        elif piece.startswith("//") and kind == "rt":
            out.append(comment(piece, names))
            chain = []
        elif piece.startswith('"'):
            out.append(piece)
            chain = []
        elif WORD.fullmatch(piece):
            behind = k > 0 and pieces[k - 1] == "." and chain
            if not behind:
                chain = []
            path = behind and (chain[0] in heads or chain[0] == "Rattle")
            if kind == "proof" and behind and not path and piece not in fields:
                out.append(piece)
            elif kind != "antt" and piece in LAWS:
                out.append(piece)
            elif behind and piece in LAWS and chain[0] == "Rattle":
                out.append(piece)
            else:
                out.append(operator(names.get(piece, piece), kind))
            chain.append(piece)
        else:
            out.append(piece)
            if piece != ".":
                chain = []
    return "".join(out)


def operator(word, kind):
    if kind == "rt" and "◌" not in word:
        return word
    return OPERATORS.get(word, "=?" + word[2:] if word.startswith("==-") else word)


def tests_of_clauses(text):
    """A test in a clause of the sources: Rust has no `then`."""
    return re.sub(r"\bif (?=[^{};\n]*\bthen\b)", "if? ", text)


def edit(text, names):
    kind, lines = "rt", []
    for line in text.split("\n"):
        m = re.match(r"(file|old|new):( ?)(.*)$", line)
        if m and m.group(1) == "file":
            name = m.group(3).strip()
            kind = "rt" if name.endswith(".rt") else "proof" if name.endswith("Proof.antt") else "antt"
        if m and m.group(1) != "file":
            line = f"{m.group(1)}:{m.group(2)}{turn(m.group(3), names, kind)}"
            if kind == "rt":
                line = tests_of_clauses(line)
        lines.append(line)
    return "\n".join(lines)


def files(root, *folders):
    for folder in folders:
        for at, below, names in os.walk(os.path.join(root, folder)):
            below[:] = sorted(d for d in below if d not in ("out", ".git", "target"))
            for name in sorted(names):
                yield os.path.join(at, name)


def main(root):
    global FIELDS, LAWS
    names = table()
    # laws that port.py had given the name which a definition gets now: in specs alone, since functions of src/ may have that name
    LAWS = {old for old in names if "-" not in old and not re.search("[A-Z]", old)}
    FIELDS = set()
    for path in files(root, "crates"):
        if path.endswith(".antt"):
            with open(path, encoding="utf-8") as f:
                text = f.read()
            for block in re.finditer(r"^( *)(?:pub )?record [^\n]*(?:\n\1 {2,}[^\n]*)*", text, re.M):
                FIELDS |= {n for n in re.findall(r"^ +(?:pub )?([^\s:(){}]+) :", block.group(0), re.M) if n in names}
    changed = 0
    for path in files(root, "crates", "tests/edits"):
        kind = None
        if path.endswith(".rt"):
            kind = "rt"
        elif path.endswith(".antt"):
            kind = "proof" if path.endswith("/Proof.antt") else "antt"
        elif not path.endswith(".edit"):
            continue
        with open(path, encoding="utf-8") as f:
            text = f.read()
        own = names | CALLS if path.endswith(OF_CALLS) else names
        new = edit(text, names) if kind is None else turn(text, own, kind)
        if kind == "rt":
            new = tests_of_clauses(new)
        if new != text:
            with open(path, "w", encoding="utf-8") as f:
                f.write(new)
            changed += 1
    print(f"respell: {len(names)} names, {changed} files changed")


if __name__ == "__main__":
    main(sys.argv[1] if len(sys.argv) > 1 else os.path.dirname(HERE))

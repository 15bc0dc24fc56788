#!/usr/bin/env python3
"""Brings the repository's own definitions and lemmas to the spelling of today's Rattle, once, after the kit's port script.

usage: python3 tools/respell.py [FOLDER]     (the repository; default: here)

- A definition, a constructor, a field or a variable in camel case goes to snake case: `cellAfter` to `cell_after`. Types keep theirs.
- In a lemma's name a dash stays where it joins two names, a name being one that the repository's definitions declare or one of the
  library's words below; before a plain word stands `_`: `bit-take-low` goes to `bit-take_low`.
- Where a lemma's name falls together with a definition's, the lemma gets `_lem`.
It reads and writes the .antt files, the clauses of the .rt files, must-fail edits, and the names in backquotes of the pages.
Functions of src/, exported names, strings, inputs and outputs keep their names. Names that the library has are left alone.
"""
import collections
import glob
import os
import re
import subprocess
import sys

# the kit's library, beside the page that `rt doc` names
KIT = os.path.join(os.path.dirname(subprocess.run(["rt", "doc"], capture_output=True, text=True, check=True).stdout.strip()), "rattle")
WORDS = set("length take drop set get_or map append replicate mem nil cons zero suc eqb leb ltb add sub mul div mod pow min max not cond rev".split())
# a token: a name of antt, between blanks, brackets and signs
TOKEN = re.compile(r"[^\s(){}\[\].,;:\"`'«»λ]+(?:'+)?")
CAMEL = re.compile(r"[a-z][a-z0-9]*[A-Z]")
KEYWORDS = {"abbrev", "unfoldable", "pub", "data", "record", "use", "module", "mutual", "where", "mod", "infix", "infixl", "infixr", "let", "in", "elim", "unfolding", "ruleset", "deriving"}


def antt_files(root):
    return sorted(
        p
        for p in glob.glob(os.path.join(root, "crates", "*", "*", "**", "*.antt"), recursive=True)
        if f"{os.sep}out{os.sep}" not in p
    )


def is_function_proof(path):
    return os.path.basename(path) in ("Proof.antt", "Answers.antt", "Invariants.antt") and os.path.basename(os.path.dirname(path)) != "proofs"


def library_tokens():
    found = set()
    for p in glob.glob(os.path.join(KIT, "**", "*.antt"), recursive=True):
        with open(p, encoding="utf-8", errors="replace") as f:
            for line in f:
                s = line.strip()
                m = re.match(r"(?:abbrev |unfoldable )?(?:pub )?(?:abbrev |unfoldable |data |record )?([^\s:(){}.,;\"]+)(?: [:{(]|$)", s)
                if m and ("-" in m[1] or CAMEL.search(m[1])):
                    found.add(m[1])
    return found


def declared(path):
    """The names that a file declares: (name, kind), the kind one of type, field, constructor, def, lemma."""
    inside = None
    with open(path, encoding="utf-8") as f:
        lines = f.read().split("\n")
    for line in lines:
        s = line.strip()
        if not s or s.startswith("--"):
            continue
        indent = len(line) - len(line.lstrip())
        m = re.match(r"(?:pub )?(data|record) (?:pub )?([^\s:({]+)", s)
        if m and not re.match(r"record \{", s):
            yield m[2], "type"
            inside = (m[1], indent)
            continue
        if inside and indent > inside[1]:
            m = re.match(r"(?:pub )?([^\s:(){}.,;\"]+) :", s)
            if m:
                yield m[1], "field" if inside[0] == "record" else "constructor"
            continue
        inside = None
        m = re.match(r"((?:abbrev |unfoldable |pub )*)([^\s:(){}.,;\"]+)(?: :|$| \{)", s)
        if m and m[2] not in KEYWORDS:
            kind = "def" if re.search("abbrev|unfoldable", m[1]) else "lemma"
            if re.match(r".* :|[^\s]+$", s) or kind == "def" or m[1]:
                yield m[2], kind


def snake(part):
    if not CAMEL.match(part):
        return part
    return re.sub(r"(?<=[a-z0-9])([A-Z])", lambda m: "_" + m[1].lower(), part)


def camel_off(name):
    return "-".join(snake(p) for p in name.split("-"))


def dashes(name, known):
    parts = name.split("-")
    if len(parts) < 2 or not all(parts):
        return name
    made = parts[0]
    group = parts[0]
    for p in parts[1:]:
        if group in known and p in known:
            made += "-" + p
            group = p
        else:
            made += "_" + p
            # a word that follows a name belongs to it, as set_same in get_or-set_same
            group = group if group in known else group + "_" + p
    return made


def plan(root):
    library = library_tokens()
    kinds = collections.defaultdict(set)
    tokens = set()
    for p in antt_files(root):
        text = open(p, encoding="utf-8").read()
        tokens |= set(TOKEN.findall(text))
        if not is_function_proof(p):
            for name, kind in declared(p):
                kinds[name].add(kind)
    rename = {}
    for t in sorted(tokens):
        if t in library or "-" in t or not CAMEL.match(t):
            continue
        rename[t] = camel_off(t)
    stated = collections.defaultdict(set)
    for p in antt_files(root):
        if f"{os.sep}specs{os.sep}" in p:
            for name, kind in declared(p):
                stated[name].add(kind)
    known = {rename.get(n, n) for n, k in stated.items() if k & {"def", "type"} and "-" not in n} | WORDS
    taken = collections.defaultdict(set)
    for n in kinds:
        if "-" not in n:
            taken[rename.get(n, n)].add(n)
    for n in sorted(kinds):
        if "-" not in n or n in library or re.match(r"[A-Za-z_]*\u00b7", n):
            continue
        to = dashes(camel_off(n), known)
        if to != n:
            if taken[to] - {n}:
                to += "_lem"
            rename[n] = to
        taken[to].add(n)
    # a lemma in snake case whose name a definition now has: renamed where a file declares or imports it
    lemmas = {}
    for to, froms in sorted(taken.items()):
        if len(froms) > 1 and to in froms and kinds[to] <= {"lemma", "field"}:
            lemmas[to] = to + "_lem"
        elif len(froms) > 1:
            print("look: fall together:", to, sorted(froms))
    return rename, lemmas


def lemmas_of(path, text, lemmas):
    """Which of these lemmas a file declares or imports."""
    here = {n for n, k in declared(path) if k == "lemma"}
    for m in re.finditer(r"(?m)^\s*(?:ghost )?use [^\n{]*\{([^}]*)\}", text):
        here |= set(TOKEN.findall(m[1]))
    return {a: b for a, b in lemmas.items() if a in here}


def respell(text, rename):
    """Renames the tokens of antt text; comments and strings stay."""
    out = []
    for line in text.split("\n"):
        code, comment = line, ""
        m = re.search(r"(?:^|\s)--\s", line)
        if m:
            code, comment = line[: m.start()], line[m.start() :]
        pieces = re.split(r'("(?:[^"\\]|\\.)*")', code)
        pieces = [x if i % 2 else TOKEN.sub(lambda t: rename.get(t[0], t[0]), x) for i, x in enumerate(pieces)]
        out.append("".join(pieces) + comment)
    return "\n".join(out)


GHOST = re.compile(r"^\s*(ghost |requires|ensures|decreases|invariant)")


def respell_source(text, rename):
    """The ghost lines and clauses of a .rt file; a clause ends where its braces do."""
    out, depth, within = [], 0, False
    for line in text.split("\n"):
        if within or GHOST.match(line):
            bare = re.sub(r'"(?:[^"\\]|\\.)*"', "", line)
            depth += bare.count("{") - bare.count("}")
            out.append(respell(line, rename))
            within = depth > 0
            if not within:
                depth = 0
        else:
            out.append(line)
    return "\n".join(out)


def respell_edit(text, rename):
    """The old: and new: lines of an edit, as the file that they are of."""
    out, of_source = [], False
    for line in text.split("\n"):
        if line.startswith("file:"):
            of_source = line.rstrip().endswith(".rt")
        m = re.match(r"((?:old|new): ?)(.*)", line)
        if m:
            body = m[2]
            line = m[1] + (respell_source(body, rename) if of_source else respell(body, rename))
        out.append(line)
    return "\n".join(out)


def respell_page(text, rename):
    """Names in backquotes."""
    return re.sub(r"`([^`\n]+)`", lambda m: "`" + TOKEN.sub(lambda t: rename.get(t[0], t[0]), m[1]) + "`" if not re.search(r"[/]|\.(rt|edit|md|sh)", m[1]) else m[0], text)


def main(root):
    rename, lemmas = plan(root)
    work = [(p, respell) for p in antt_files(root)]
    work += [(p, respell_source) for p in glob.glob(os.path.join(root, "crates", "*", "src", "**", "*.rt"), recursive=True)]
    work += [(p, respell_edit) for p in glob.glob(os.path.join(root, "crates", "*", "must-fail", "*.edit"))]
    work += [(p, respell_page) for p in glob.glob(os.path.join(root, "docs", "*.md")) + [os.path.join(root, "README.md"), os.path.join(root, "CONTRIBUTING.md")]]
    changed = 0
    for path, how in work:
        if not os.path.exists(path):
            continue
        old = open(path, encoding="utf-8").read()
        new = how(old, rename | lemmas_of(path, old, lemmas) if path.endswith(".antt") else rename)
        if new != old:
            open(path, "w", encoding="utf-8").write(new)
            changed += 1
    print(f"respell: {len(rename)} names, {changed} files")
    return rename | lemmas


if __name__ == "__main__":
    names = main(sys.argv[1] if len(sys.argv) > 1 else ".")
    sys.stdout.writelines(f"{a}\t{b}\n" for a, b in sorted(names.items()))

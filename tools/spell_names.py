#!/usr/bin/env python3
"""Brings the names of definitions and lemmas that the repository's own specs/ and proofs/ declare to the spelling of today's Rattle.

usage: spell_names.py [FOLDER]      in FOLDER (or here) it rewrites crates/ and the pages in place, once

Words become snake case: goesLeft is goes_left, border-is is border_is. Types and facts, which begin with a capital, keep it, and each part
behind a dash that begins with one does too. Where a lemma would have the name of a definition, it gets _lem. A name that some file imports
from a library stays: each such is printed. The names of Rust's functions, of what a proof is asked and of what is declared in the proof of one function stay.
"""

import os
import re
import sys

NAME = re.compile(r"""[^\s(){}.;,@"«»`]+""")
DECLARED = re.compile(r"^\s*(?:(?:pub|unfoldable|abbrev|opaque|ruleset)\s+)*([^\s:(){}.;,@\"«»=]+(?:\s+[^\s:(){}.;,@\"«»=]+)*)(?:\s+\{[^{}\n]*\})*\s+:(?:\s|$)")
WORDS = {"pub", "unfoldable", "abbrev", "record", "data", "module", "where", "let", "in", "use", "ghost", "open", "infixl", "infixr", "infix", "opaque", "ruleset"}
USE = re.compile(r"^\s*(?:pub\s+)?use\s+([^\s{]+?)\.?\{([^}]*)\}", re.M)
GHOST_USE = re.compile(r"^\s*ghost use\s+([^\s{]+?)\.?\{([^}]*)\};", re.M)
# The path of an import, in which a module is named as a function of Rust's is.
PATH = re.compile(r"\buse\s+[^\s{]+")
OWN = re.compile(r"Rattle\.(\w+)\.")


def snake(name):
    parts = []
    for part in name.split("-"):
        if part[:1].isupper():
            parts.append(part)
        else:
            parts.append(re.sub(r"(?<=[a-z0-9₀-₉])[A-Z]", lambda m: "_" + m[0].lower(), part))
    return "_".join(p for p in parts)


def files(top):
    for folder, dirs, names in os.walk(os.path.join(top, "crates")):
        dirs[:] = sorted(d for d in dirs if d not in ("out", ".git"))
        for n in sorted(names):
            if n.endswith((".antt", ".rt")):
                yield os.path.join(folder, n)


def of_one_function(path):
    parts = path.split("/crates/", 1)[1].split("/")
    return parts[1] == "proofs" and len(parts) > 3


def declared_in(text):
    for line in text.split("\n"):
        code = line.split("--", 1)[0] if line.lstrip().startswith("--") else line
        m = DECLARED.match(code)
        if m:
            for n in m[1].split():
                if n not in WORDS:
                    yield n


def plain_words(text):
    """The words of the code that stand behind no dot and in no import's path."""
    for line in text.split("\n"):
        code = re.sub(r"(?:^|\s)--(?=\s|$).*", "", PATH.sub(" ", line))
        yield from re.findall(r"""(?<![^\s(){};,@"«»`])[^\s(){}.;,@"«»`]+""", code)


def main(top):
    texts = {p: open(p, encoding="utf-8").read() for p in files(top)}
    crates = set(os.listdir(os.path.join(top, "crates")))
    declared, lent, spelled = set(), set(), set()
    for p, t in texts.items():
        if p.endswith(".antt"):
            spelled.update(plain_words(t))
            if not of_one_function(p):
                declared.update(declared_in(t))
        for m in (USE if p.endswith(".antt") else GHOST_USE).finditer(t):
            own = OWN.match(m[1] + ".")
            if not (own and own[1] in crates):
                for n in m[2].split(","):
                    lent.add(n.strip().split(" as ")[0].strip())
    turned, kept = {}, []
    # Where a definition and a lemma would fall together, the definition comes first and the lemma gets _lem.
    for n in sorted(declared, key=lambda n: ("-" in n, n)):
        new = snake(n)
        if new == n or not re.search(r"[\w]", n) or not n[:1].isalpha():
            continue
        if n in lent:
            kept.append(f"{n}: imported from a library")
        elif new in turned.values() or (new in spelled and "-" in n):
            turned[n] = new + "_lem"
        elif new in lent or new in spelled and new not in declared:
            kept.append(f"{n}: {new} is taken")
        else:
            turned[n] = new
            if new in declared:
                turned[new] = new + "_lem"
    for line in kept:
        print("kept:", line)
    for n, new in sorted(turned.items()):
        if new.endswith("_lem"):
            print(f"fell together: {n} is {new}")
    token = lambda m: turned.get(m[0], m[0])
    quoted = lambda m: "`" + NAME.sub(token, m[1]) + "`"
    for p, t in texts.items():
        new = turn_antt(t, token, quoted) if p.endswith(".antt") else turn_rt(t, token, quoted)
        if new != t:
            open(p, "w", encoding="utf-8").write(new)
    pages = [os.path.join(top, "README.md")] + [os.path.join(top, "docs", n) for n in ("ARCHITECTURE.md", "DECISIONS.md", "GUIDE.md", "PERFORMANCE.md")]
    for p in pages:
        if os.path.exists(p):
            t = open(p, encoding="utf-8").read()
            new = re.sub(r"`([^`\n]*)`", quoted, t)
            if new != t:
                open(p, "w", encoding="utf-8").write(new)
    print(f"{len(turned)} names turned, {len(kept)} kept")


def turn_antt(text, token, quoted):
    out = []
    for line in text.split("\n"):
        at = re.search(r"(?:^|\s)--(?=\s|$)", line)
        code, comment = (line[: at.start()], line[at.start() :]) if at else (line, "")
        out.append(NAME.sub(token, code) + re.sub(r"`([^`]*)`", quoted, comment))
    return "\n".join(out)


def turn_rt(text, token, quoted):
    """Clauses and ghost imports whole; elsewhere only what a comment quotes."""
    out, depth = [], 0
    for line in text.split("\n"):
        opens = re.match(r"\s*(requires|ensures|also_owns|also_shares|ghost)\b", line) or depth > 0
        if opens and not line.lstrip().startswith("//"):
            out.append(NAME.sub(token, line))
            depth = max(0, depth + line.count("{") - line.count("}"))
        else:
            out.append(re.sub(r"`([^`]*)`", quoted, line) if "//" in line else line)
    return "\n".join(out)


if __name__ == "__main__":
    main(os.path.abspath(sys.argv[1] if len(sys.argv) > 1 else "."))

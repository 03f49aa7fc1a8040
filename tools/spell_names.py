#!/usr/bin/env python3
"""Spells the repository's own antt names as today's Rattle has them: words in snake case, with no dash and no camel case.

usage: python3 tools/spell_names.py        at the top of the repository, once, right after the kit's own port script

A name is the repository's own where a file of specs/ or proofs/ declares it: a definition, a lemma, a constructor, a record's field. Types and
modules, which begin with a capital, keep their spelling, and so does whatever a library declares: a name that a file imports from elsewhere
is left alone in that file. A name that would meet another one in some file is left alone everywhere, and is printed.
It goes through .antt and .rt files (no strings, and of comments only what is quoted there, or camel case), and through README.md and docs/.
"""
import collections
import os
import re
import sys

NAME = r"[^\s(){}.;,@\"«»`]+"
WORD = re.compile(NAME)
# A word that is no part of a path and no field of another word.
ALONE = re.compile(r"(?<![^\s(){};,@\"«»`])" + NAME + r"(?![^\s(){};,@\"«»`])")
DECLARED = re.compile(r"^ *(?:(?:abbrev|unfoldable|pub|data|record) +)*([^\s:(){}.;,]+)((?: \{[^{}\n]*\}| \([^()\n]*\))*) :(?: |$)", re.M)
USE = re.compile(r"\b(?:pub )?use ([^\s;{]+?)(?:\.\{([^}]*)\})?(?: as (\S+?))?(?=;|\s*$)", re.M)
MADE = re.compile(r"^(tie|goal)\.")


def snake(name):
    return re.sub(r"(?<=[a-z0-9])[A-Z]", lambda m: "_" + m[0].lower(), name).replace("-", "_")


def files(top, ends):
    for folder, dirs, names in os.walk(top):
        dirs[:] = sorted(d for d in dirs if d not in ("out", ".git", "target"))
        for n in sorted(names):
            if n.endswith(ends):
                yield os.path.join(folder, n)


def read(path):
    with open(path, encoding="utf-8") as f:
        return f.read()


def code_of(text, mark):
    """The text without comments and strings."""
    text = re.sub(r'"(?:[^"\\\n]|\\.)*"', '""', text)
    return re.sub(mark + r"[^\n]*", "", text)


def declared():
    found = collections.Counter()
    for p in files("crates", ".antt"):
        for line in code_of(read(p), "--").split("\n"):
            m = DECLARED.match(line)
            if not m:
                continue
            rest = line[m.end():].strip()
            if MADE.match(rest) or m[1].endswith("-spec") or m[1].startswith(("invariant-", "decreases-")):
                continue
            found[m[1]] += 1
    return found


def imported(text):
    """What a file has from a library that is not the repository's."""
    own = {c for c in os.listdir("crates")}
    names = set()
    for m in USE.finditer(text):
        path = m[1].split(".")
        if path[0] == "Rattle" and len(path) > 1 and path[1] in own:
            continue
        for item in (m[2] or "").split(","):
            names.add(item.split(" as ")[-1].strip())
    return names


def main():
    own = declared()
    table = {n: snake(n) for n in own if n[:1].islower() and ("-" in n or snake(n) != n)}
    table = {a: b for a, b in table.items() if a != b and re.fullmatch(r"[\w']+", b) and "-" in a or re.match(r"[a-z0-9]+[A-Z]", a)}
    table = {a: b for a, b in table.items() if re.fullmatch(r"[\w']+", b)}
    by_new = collections.defaultdict(set)
    for a, b in table.items():
        by_new[b].add(a)
    clash = {}
    for b, olds in by_new.items():
        if len(olds) > 1:
            # A definition and a lemma that would have its name: the lemma's gets an ending, as the kit's own style has it.
            words = [a for a in olds if "-" not in a]
            for a in olds - set(words[:1]):
                table[a] = b + "_lem"
    texts = {p: read(p) for p in files("crates", (".antt", ".rt"))}
    for p, t in texts.items():
        words = set(ALONE.findall(code_of(t, "--" if p.endswith(".antt") else "//")))
        if p.endswith(".rt"):
            words = {w for line in t.split("\n") if "ghost use" in line for w in ALONE.findall(line)}
        for w in words & table.keys():
            if table[w] in words and w not in clash:
                clash[w] = f"{table[w]} stands in {p}"
    only = sys.argv[1:] == ["--list"]
    for a in sorted(clash):
        # The kit's script has made one of the two already: then that one, a lemma, gets the ending.
        if "-" not in a and own[table[a]]:
            table[table[a]] = table[a] + "_lem"
        elif "-" in a:
            table[a] += "_lem"
        else:
            print(f"left: {a}: {clash[a]}")
            del table[a]
    print(f"{len(table)} names, {sum(1 for a in table if '-' in a)} of them with a dash")
    if only:
        return
    changed = 0
    for p in list(files("crates", (".antt", ".rt"))) + [q for q in files("docs", ".md")] + ["README.md"]:
        t = texts[p] if p in texts else read(p)
        away = imported(t) if p.endswith((".antt", ".rt")) else set()
        here = {a: b for a, b in table.items() if a not in away}

        def word(m):
            return here.get(m[0], m[0])

        def comment(s):
            s = re.sub(r"`([^`\n]*)`", lambda m: "`" + WORD.sub(word, m[1]) + "`", s)
            return re.sub(r"\b[a-z][a-z0-9]*[A-Z]\w*\b", lambda m: here.get(m[0], m[0]), s)

        out = []
        if p.endswith(".md"):
            out = [comment(t)]
        else:
            mark = "--" if p.endswith(".antt") else "//"
            for m in re.finditer(r'"(?:[^"\\\n]|\\.)*"|' + re.escape(mark) + r"[^\n]*|[^\"\-/]+|.", t):
                s = m[0]
                if s.startswith('"'):
                    out.append(s)
                elif s.startswith(mark):
                    out.append(comment(s))
                else:
                    out.append(None if False else s)
            # Words may hold a dash, so the code between comments and strings is joined again first.
            parts, run = [], ""
            for s in out:
                if s.startswith(mark) and len(s) > 1 or s.startswith('"') and len(s) > 1:
                    parts += [WORD.sub(word, run), s]
                    run = ""
                else:
                    run += s
            out = parts + [WORD.sub(word, run)]
        new = "".join(out)
        if new != t:
            with open(p, "w", encoding="utf-8") as f:
                f.write(new)
            changed += 1
    print(f"{changed} files changed")


main()

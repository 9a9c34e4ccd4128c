#!/usr/bin/env python3
"""Spells the repository's own definitions and lemmas in snake case, once, after the kit's port.py.

usage: python3 tools/spell_names.py            at the top of the repository: rewrites crates/
       python3 tools/spell_names.py --list     writes nothing, and prints each name with its new spelling

A name is the repository's own where a file of specs/ or a file of lemmas of proofs/ declares it, or an answer file declares it
beside its goals. `rowCount` becomes `row_count`, `times-comm` becomes `times_comm`, `getD-symbolsIn` becomes
`get_or_symbols_in`. Types keep their capitals. Names that come from a library, goals and steps that Rattle makes, and what
stands in comments and strings stay. Where two names of one file fall together the script says so.
"""

import collections
import os
import re
import sys

NAME = r"[^\s(){}.;,@\"«»]+"
HEAD = re.compile(rf"^\s*(?:(?:abbrev|opaque|unfoldable|pub|instance)\s+)*(?:(record|data)\s+)?({NAME})((?:\s+(?:\([^()]*\)|\{{[^{{}}]*\}}))*)\s+:(?:\s|$)", re.M)
BARE = re.compile(rf"^\s*(?:(?:abbrev|opaque|unfoldable|pub)\s+)+({NAME})\s*\n\s*:(?:\s)", re.M)
GOAL = re.compile(rf"^(?:abbrev\s+)?(?:pub\s+)?({NAME})\s*:\s*goal\.", re.M)
USE = re.compile(r"^\s*(?:pub\s+)?(?:ghost\s+)?use\s+([^\s;{]+?)(?:\.\{([^}]*)\})?(?:\s+as\s+\S+?)?;?\s*$", re.M)
KEYWORDS = {"use", "mod", "open", "module", "let", "in", "where", "elim", "unfolding", "record", "data", "λ", "pub", "abbrev"}

# Names whose new spelling no rule gives: the caret and the large letter are no part of a word, a lemma that would have its
# function's name ends in _lem, and a premise would hide a function.
SPECIAL = {
    "X^": "x_power",
    "good-width": "good_width_lem",
    "judged-right": "judged_right_lem",
    "memory-clear": "memory_clear_lem",
    "memory-put": "memory_put_lem",
    "is-taken": "was_taken",
}


def respell(name):
    """The new spelling of an own name."""
    if name in SPECIAL:
        return SPECIAL[name]
    for old, new in SPECIAL.items():
        if name.startswith(old + "-"):
            return new + "_" + respell(name[len(old) + 1 :])
    name = re.sub(r"(?<![A-Za-z])getD(?![A-Za-z])", "get_or", name)
    name = re.sub(r"(?<=[\w'′₀-₉])-(?=[\w◌])", "_", name)
    if name[:1].islower():
        name = re.sub(r"(?<=[a-z0-9])([A-Z])", lambda m: "_" + m[1].lower(), name)
    return name.replace("′", "'")


def files():
    for folder, dirs, names in os.walk("crates"):
        dirs[:] = sorted(d for d in dirs if d not in ("out", "target"))
        for n in sorted(names):
            if n.endswith((".rt", ".antt", ".edit")):
                yield os.path.join(folder, n)


def of_a_function(path):
    """Whether the file holds the proof of one function."""
    return "/proofs/" in path and os.path.basename(path) in ("Answers.antt", "Invariants.antt", "Proof.antt")


def without_comments(text, mark):
    return re.sub(rf"(?m){mark}.*$", "", text)


def foreign(text):
    """The names that a file brings in from a library, or from what Rattle makes."""
    out = set()
    for m in USE.finditer(text):
        path, names = m[1], m[2]
        top = path.split(".")
        own = top[0] == "Rattle" and len(top) > 2 and os.path.isdir(os.path.join("crates", top[1]))
        made = top[-1] in ("Goals", "Given") or "declared" in top
        if names and (not own or made):
            for part in names.split(","):
                words = part.split()
                out.update(w for w in words if w != "as")
    return out


def declared(text):
    out = set()
    for m in HEAD.finditer(text):
        if m[2] not in KEYWORDS and not m[2].startswith("--"):
            out.add(m[2])
    for m in BARE.finditer(text):
        out.add(m[1])
    return out


def pieces(text, mark):
    """Cuts a text into pieces that may be turned and pieces that stay: comments and strings."""
    at = 0
    for m in re.finditer(rf'{mark}[^\n]*|"(?:[^"\\\n]|\\.)*"', text):
        yield text[at : m.start()], True
        yield m[0], False
        at = m.end()
    yield text[at:], True


def main(argv):
    texts = {p: open(p, encoding="utf-8").read() for p in files()}
    own, aliases = set(), set()
    local = collections.defaultdict(set)
    for p, t in texts.items():
        if not p.endswith(".antt"):
            if p.endswith(".rt"):
                for m in USE.finditer(t):
                    if m[2]:
                        aliases.update(re.findall(r"\bas (\w+)", m[2]))
            continue
        plain = without_comments(t, "--")
        if of_a_function(p):
            goals = {m[1] for m in GOAL.finditer(plain)}
            local[p] = declared(plain) - goals
        else:
            own |= declared(plain) - foreign(plain)
            aliases.update(a for m in USE.finditer(plain) if m[2] for a in re.findall(r"\bas (\S+?)(?=[,}]|$)", m[2]))
    own |= {a for a in aliases if re.match(r"[a-z]\w*[A-Z]", a)}
    turned = {n: respell(n) for n in own if respell(n) != n}
    for p in local:
        local[p] = {n: respell(n) for n in local[p] if respell(n) != n}
    if "--list" in argv:
        for n in sorted(turned):
            print(n, turned[n])
        return 0

    bad = 0
    by = collections.defaultdict(set)
    for n in own:
        by[respell(n)].add(n)
    for new, olds in sorted(by.items()):
        if len(olds) > 1:
            print(f"look: {' and '.join(sorted(olds))} fall together as {new}")

    wrote = 0
    for p, t in texts.items():
        mark = "--" if p.endswith(".antt") else "//"
        kept = foreign(t) if p.endswith(".antt") else set()
        met = collections.defaultdict(set)
        lemma = p.endswith(".antt") and not of_a_function(p)

        def turn(m):
            word = m[0]
            before = t_piece[: m.start()]
            after_dot = before.endswith(".") and not before.endswith("..")
            if word in kept and not after_dot:
                met[word].add(word)
                return word
            new = word
            if p.endswith(".antt"):
                if lemma:
                    # a path to what Rattle makes of a function keeps its names
                    if re.search(r"use\s+[^\s{]*$", before) and word not in turned:
                        return word
                    if word in turned or re.fullmatch(r"[^\W\d][\w₀-₉'′]*(-[\w₀-₉'′◌]+)+|[a-zα-ω][\w₀-₉'′]*[A-Z][\w₀-₉'′]*", word):
                        new = respell(word)
                elif word in local[p]:
                    new = local[p][word]
                elif after_dot:
                    new = turned[word] if word in turned and not is_made(before, word) else word
                elif word in turned and word in brought(t):
                    new = turned[word]
            elif word in turned:
                new = turned[word]
            if "--dots" in argv and after_dot and new != word:
                print("dot", p, t_piece[max(0, m.start() - 30) : m.end()].replace("\n", " "))
            if new != word or not after_dot:
                met[new].add(word)
            return new

        out = ""
        for t_piece, may in pieces(t, mark):
            out += re.sub(NAME if p.endswith(".antt") else r"(?<![\w'-])[A-Za-z_][\w'′]*(?:-[A-Za-z][\w'′]*)*(?![\w-])", turn, t_piece) if may else t_piece
        for new, olds in sorted(met.items()):
            if len(olds) > 1:
                print(f"look: {p}: {' and '.join(sorted(olds))} fall together as {new}")
        if out != t:
            wrote += 1
            if "--dry" not in argv:
                with open(p, "w", encoding="utf-8") as f:
                    f.write(out)
    print(f"spell_names: {len(turned)} names, {wrote} files")
    return bad


def brought(text):
    """The names that an answer file brings in from the repository's own modules."""
    out = set()
    for m in USE.finditer(text):
        top = m[1].split(".")
        if m[2] and top[0] == "Rattle" and len(top) > 2 and os.path.isdir(os.path.join("crates", top[1])) and top[-1] not in ("Goals", "Given"):
            for part in m[2].split(","):
                out.update(w for w in part.split() if w != "as")
    return out


def is_made(before, word):
    """Whether a word behind a dot, in an answer file, is a step that Rattle makes: right behind `c`, `l` or `goal`."""
    m = re.search(rf"({NAME})\.$", before)
    return bool(m) and m[1] in ("c", "l", "goal", "g") and not before[: m.start()].endswith(".")


if __name__ == "__main__":
    raise SystemExit(main(sys.argv[1:]))

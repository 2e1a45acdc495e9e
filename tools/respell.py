#!/usr/bin/env python3
"""Respells this repository's own definitions and lemmas as Rattle's guides spell names: words in snake case, a dash only between two names.

usage: tools/respell.py [--table]        once, at the top of the repository, right after /opt/rattle/port/port.py
       tools/respell.py --text FILE..    the same spellings in pages and other texts, by tools/respelled.tsv

What it turns is what files of specs/ and proofs/ declare: definitions, lemmas, fields, constructors, variables. Functions of src/, exported names, strings, inputs
and outputs keep their names. A name that a file takes from a library stays there. Names that would fall together stay as they are, and a line 'left:' says so.
In a function's Proof.antt only its lemmas and fields, and what it takes from a module of this repository, are turned: the rest are names that Rattle makes.
"""

import collections
import glob
import os
import re
import sys

WORD = re.compile(r'[^\s(){}.;,@"«»]+')
COMMENT = re.compile(r"(?<![^\s(){}.;,])--[^\n]*")
USE = re.compile(r"(?m)^( *)(?:pub |ghost )*use ([^\s;{]+?)(?:\.\{([^}]*)\})?(?: as ([^\s;]+))?;?$")
TABLE = "tools/respelled.tsv"
# Words of the libraries that lemmas' names are made of, beside this repository's own definitions.
WORDS = set("length append map take drop set get_or reverse sum add sub mul div mod pow le lt eq suc max min not and or cond leb ltb eqb replicate".split())


# std's is_nan asks a float, ours its bits
GIVEN = {"isNaN": "is_nan_bits"}


def camel(word):
    word = word.replace("NaN", "Nan")
    return re.sub(r"(?<=[a-z0-9])[A-Z]", lambda m: "_" + m[0].lower(), word)


def own(path, crates):
    return path.startswith("Rattle.") and path.split(".")[1] in crates and not re.search(r"\.(declared|contracts)(\.|$)|\.(Goals|Given|Tie|Statement|Code|Met|Symbol|Key)$", path)


def uses(text, crates):
    """The names that a file takes from this repository's own modules, and those from elsewhere."""
    ours, others = set(), set()
    for _, path, items, alias in USE.findall(text):
        names = [re.split(r"\s+as\s+", it.strip()) for it in items.split(",")] if items else []
        for it in names:
            (ours if own(path, crates) else others).update(it)
    return ours, others


def declared(text):
    """What a file declares: at the head of a line, in binders, after let and λ."""
    text = COMMENT.sub("", text)
    out = set()
    for line in text.split("\n"):
        m = re.match(r" *(?:(?:abbrev|opaque|unfoldable|pub|instance|ruleset|record|data|let) +)*([^\s:(){},.=|;]+)(?: [^:=]*?)? *[:=](?: |$)", line)
        if m:
            out.add(m[1])
        m = re.match(r" *\| ([^\s:(){},.=|;]+)", line)
        if m:
            out.add(m[1])
    for m in re.finditer(r"[({]((?:[^\s(){}:,.;=]+ )+): ", text):
        out.update(m[1].split())
    for m in re.finditer(r"λ ((?:[^\s(){}:,.;=]+ )*[^\s(){}:,.;=]+)\.", text):
        out.update(m[1].split())
    for m in re.finditer(r"\blet ([^\s(){}:,.;=]+)(?: [^:=]*?)? *[:=] ", text):
        out.add(m[1])
    for m in re.finditer(r"[{;]\s*([^\s(){}:,.;=]+) [:=] ", text):
        out.add(m[1])
    for m in re.finditer(r"[\[|] ([^\s(){}:,.;=↦]+)(?: [^↦\[\]|]*)? ↦", text):
        out.update(m[0][1:].replace("↦", "").split()[1:])
    return out


def declared_by_proof(text):
    """The lemmas and fields of a function's proof, without the answers, which have the names of goals."""
    out = set()
    for line in COMMENT.sub("", text).split("\n"):
        m = re.match(r" *(?:(?:abbrev|opaque|unfoldable|pub|record|data) +)*([^\s:(){},.=|;]+)(?: [^:=]*?)? *: (?!tie\.)", line)
        if m and not m[1].endswith("-spec") and not re.search(r"\{M : Type 1\}", line):
            out.add(m[1])
    return out


def turns(word):
    return word[0].islower() and (re.search(r"[a-z0-9][A-Z]", word) or re.search(r"[\w'₀-₉]-[\w]", word)) or (word[0].isupper() and re.search(r"-[a-z]\w*[a-z0-9][A-Z]", word))


def spell(word, known):
    parts = [camel(p) if p[:1].islower() else p for p in word.split("-")]
    if len(parts) == 1:
        return parts[0]
    if word[0].isupper():
        return "-".join(parts)
    out = parts[0]
    for before, part in zip(parts, parts[1:]):
        names = (before in known or before[:1].isupper()) and (part in known or part[:1].isupper()) or not (before and part) or not re.match(r"\w", part) or not re.search(r"[\w'₀-₉]$", before)
        out += ("-" if names else "_") + part
    return out


def table():
    crates = {d for d in os.listdir("crates") if os.path.isdir(f"crates/{d}/src")}
    texts, facts = {}, {}
    for p in sorted(glob.glob("crates/*/specs/**/*.antt", recursive=True) + glob.glob("crates/*/proofs/**/*.antt", recursive=True)):
        with open(p) as f:
            texts[p] = f.read()
        facts[p] = ((declared_by_proof if p.endswith("/Proof.antt") else declared)(texts[p]), *uses(texts[p], crates))
    laws = [p for p in texts if not p.endswith("/Proof.antt")]
    names = set().union(*(facts[p][0] for p in laws))
    for p in texts:
        if p.endswith("/Proof.antt"):
            names |= {n for n in facts[p][0] if turns(n)}
    # the definitions, of which names of lemmas are made
    known = set(WORDS)
    for p in laws:
        for m in re.finditer(r"(?m)^ *(?:abbrev|unfoldable|opaque) pub ([^\s:(){},.=]+)|^ *(?:abbrev|unfoldable|opaque) ([^\s:(){},.=]+)", COMMENT.sub("", texts[p])):
            n = m[1] or m[2]
            if n not in ("pub", "instance") and "-" not in n:
                known |= {n, camel(n)}
    rows = {n: GIVEN.get(n) or spell(n, known) for n in names if n and turns(n)}
    rows = {a: b for a, b in rows.items() if a != b}
    # a lemma that would have its definition's name gets _lem, as the guides say
    back = collections.defaultdict(set)
    for a, b in rows.items():
        back[b].add(a)
    for b, olds in back.items():
        for a in sorted(olds, key=lambda a: ("-" in a, a))[1:]:
            rows[a] = b + "_lem"
    words_of = {p: set(WORD.findall(COMMENT.sub("", t))) for p, t in texts.items() if not p.endswith("/Proof.antt")}
    for p, words in words_of.items():
        for a in sorted(words & set(rows)):
            b = rows[a]
            if a in facts[p][2] or b not in words or b in facts[p][2]:
                continue
            if "-" in a:
                rows[a] = b + "_lem"
            elif b in names:
                rows[b] = b + "_lem"
    # names that still fall together, or meet a word of a file that they are in, stay
    left = {}
    back = collections.defaultdict(set)
    for a, b in rows.items():
        back[b].add(a)
    for b, olds in back.items():
        for a in sorted(olds)[1:]:
            left[a] = f"{b} is {sorted(olds)[0]} too"
    for p, words in words_of.items():
        for a in words & set(rows):
            if a not in facts[p][2] and rows[a] in words and rows[a] not in rows:
                left.setdefault(a, f"{p} has {rows[a]}")
    return {a: b for a, b in rows.items() if a not in left}, left, texts, facts, crates


def turn_antt(text, rows, ours, others, defs, proof):
    """In a Proof.antt names that it neither declares nor takes from here stay."""

    def one(m):
        w = m[0]
        if w not in rows or w in others:
            return w
        if proof and w not in defs and (m.start() and m.string[m.start() - 1] == "." or w not in ours):
            return w
        return rows[w]

    return WORD.sub(one, text)


def turn_text(text, rows):
    words = sorted(rows, key=len, reverse=True)
    plain = re.compile(r"(?<![\w'₀-₉-])(?:" + "|".join(map(re.escape, words)) + r")(?![\w'₀-₉-])")
    return plain.sub(lambda m: rows[m[0]], text)


def main(argv):
    if argv[:1] == ["--text"]:
        with open(TABLE) as f:
            rows = dict(line.rstrip("\n").split("\t") for line in f)
        for p in argv[1:]:
            with open(p) as f:
                t = f.read()
            new = re.sub(r"`[^`\n]+`", lambda m: turn_text(m[0], rows), t) if p.endswith(".md") else turn_text(t, rows)
            if new != t:
                with open(p, "w") as f:
                    f.write(new)
        return 0
    rows, left, texts, facts, crates = table()
    for a, why in sorted(left.items()):
        print(f"left: {a}: {why}")
    if argv[:1] == ["--table"]:
        for a, b in sorted(rows.items()):
            print(f"{a}\t{b}")
        return 0
    with open(TABLE, "w") as f:
        f.writelines(f"{a}\t{b}\n" for a, b in sorted(rows.items()))
    for p, t in texts.items():
        defs, ours, others = facts[p]
        new = turn_antt(t, rows, ours, others, defs, p.endswith("/Proof.antt"))
        if new != t:
            with open(p, "w") as f:
                f.write(new)
    # a name with a capital in its middle is antt's alone; one with a dash turns where it is taken from here or stands behind a dot in a clause
    for p in sorted(glob.glob("crates/*/src/**/*.rt", recursive=True)):
        with open(p) as f:
            t = f.read()
        ours, others = uses(t, crates)
        mine = {a: b for a, b in rows.items() if a not in others and ("-" not in a or a in ours or re.search(r"\." + re.escape(a) + r"(?![\w-])", t))}
        new = turn_text(t, mine) if mine else t
        if new != t:
            with open(p, "w") as f:
                f.write(new)
    print(f"{len(rows)} names, {len(left)} left")
    return 0


if __name__ == "__main__":
    sys.exit(main(sys.argv[1:]))

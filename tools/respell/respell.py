#!/usr/bin/env python3
"""Spells the repository's own names of specs/ and proofs/ as today's Rattle spells words: snake case for definitions,
laws, fields and cases, camel case for types and modules.

usage: python3 tools/respell/respell.py [FOLDER]     at the top of a repository that port.py has just turned

A name turns if an .antt file declares it, it begins with no capital, and it has a dash or a capital inside. Two names
that would fall together stay apart: the one with a dash gets `_lem` behind it, a case `_cause` or `_way`. A name that
only a function's proof declares stays, since the kit may have made it, but the proof itself is named for its function.
Names of Rust, strings and what the kit makes (behind `tie.`) stay. Run it once.
"""
import collections
import glob
import os
import re
import sys

WORD = re.compile(r'[^\s(){}.;,@"«»]+')
COMMENT = re.compile(r'(?m)(?<![^\s(){}.;,@"«»])--.*$')
LINE = re.compile(r'(?m)^ *((?:pub |abbrev |unfoldable |private )*)((?:record|data|ruleset) )?([^\s(){}.;,@"«»]+)((?: \{[^{}]*\}| \([^()]*\)| [^\s(){}.;,@"«»:=]+)*) :(?= |$)')
HEAD = re.compile(r'(?m)^ *(?:pub )?(?:record|data|ruleset) ([^\s(){}.;,@"«»]+)')
BY_HAND = {"bad-seed": "bad_seed_cause", "partial-turn": "partial_turn_cause", "turn-count": "turn_count_cause", "one-driver": "one_driver_way", "one-groomer": "one_groomer_way"}
# words of English that a comment may have with a dash, though a name is spelled so
PROSE = {"ten-thousandth"}
# laws and fields that port.py has spelled as a definition would be spelled now
LAWS = "all_right fits_below held_by limit_is map_of row_counts step_from turn_moved".split()


def snake(name):
    return re.sub(r"(?<=[a-z0-9])[A-Z]", lambda m: "_" + m[0].lower(), name).replace("-", "_")


def read(path):
    with open(path, encoding="utf-8") as f:
        return f.read()


def antt(root):
    return sorted(p for kind in ("specs", "proofs") for p in glob.glob(f"{root}/crates/*/{kind}/**/*.antt", recursive=True))


def table(root):
    shared, local, files = set(), set(), collections.defaultdict(set)
    for path in antt(root):
        text = COMMENT.sub("", read(path))
        for m in re.finditer(r'(?<![^\s(){};,@"«»])' + WORD.pattern, text):
            files[m.group()].add(path)
        proof = os.path.basename(path) == "Proof.antt"
        for m in LINE.finditer(text):
            names = [m.group(3)]
            if not m.group(2):
                names += re.sub(r"\{[^{}]*\}|\([^()]*\)", "", m.group(4)).split()
            for name in names:
                (local if proof and not name.endswith("-spec") else shared).add(name)
        for m in HEAD.finditer(text):
            shared.add(m.group(1))
    new = {}
    for name in sorted(shared):
        if re.match(r"[A-Z|↦→{:=λ◌]", name) or snake(name) == name:
            continue
        new[name] = BY_HAND.get(name, snake(name))
    for name in LAWS:
        if name in shared:
            new[name] = name + "_lem"
            files[name] = set()
    by = collections.defaultdict(list)
    for name, to in new.items():
        by[to].append(name)
    for to, names in by.items():
        taken = len(names) > 1 or any(files[to] & files[n] for n in names)
        for n in names:
            if n in LAWS:
                continue
            if taken and "-" in n and not n.endswith("-spec") and n not in BY_HAND:
                new[n] = to + "_lem"
            elif taken and "-" not in n and files[to] & files[n]:
                new[n] = to + "_it"
                print(f"look: {n}: {new[n]}, since {to} stands in {sorted(files[to] & files[n])[0]}")
    for to, n in collections.Counter(new.values()).items():
        if n > 1:
            raise SystemExit(f"respell: {n} names would be {to}")
    for name, to in new.items():
        if files[to] & files[name]:
            print(f"look: {name}: {to} stands there already, in {sorted(files[to] & files[name])[0]}")
    return new, local, shared


def turn_words(text, new, stay=()):
    def one(m):
        word = m.group()
        if word in stay or word not in new:
            return word
        before = text[: m.start()]
        if before.endswith("tie."):
            return word
        return new[word]

    return WORD.sub(one, text)


def turn_antt(text, new, stay):
    """Code by whole words; a comment the same, but for words of English."""
    out, at = [], 0
    for m in COMMENT.finditer(text):
        out += [turn_words(text[at : m.start()], new, stay), turn_prose(m.group(), new)]
        at = m.end()
    return "".join(out) + turn_words(text[at:], new, stay)


def turn_prose(text, new):
    return re.sub(r"(?<![\w-])[a-z][\w'-]*[\w']", lambda m: m.group() if m.group() in PROSE else new.get(m.group(), m.group()), text)


def turn_rt(text, new):
    """Names in clauses and imports, and in comments; Rust's own have no dash and no capital inside."""
    return re.sub(r'"(?:[^"\\\n]|\\.)*"|(?<![\w-])[a-z][\w\'-]*[\w\']', lambda m: m.group() if m.group()[0] == '"' or m.group() in PROSE else new.get(m.group(), m.group()), text)


def turn_page(text, new, names):
    """Text in backquotes alone; there names that port.py has spelled anew in the sources too."""

    def one(m):
        word = m.group()
        return new.get(word) or (snake(word) if snake(word) in names else word)

    return re.sub(r"`[^`\n]*`", lambda m: re.sub(r"(?<![\w-])[a-z][\w'-]*[\w']", one, m.group()), text)


def main(root):
    new, local, shared = table(root)
    turned = 0
    jobs = [(p, "antt") for p in antt(root)]
    jobs += [(p, "rt") for p in sorted(glob.glob(f"{root}/crates/*/src/**/*.rt", recursive=True))]
    for name in LAWS:
        new[name.replace("_", "-")] = name + "_lem"
    jobs += [(p, "page") for p in [f"{root}/README.md"] + sorted(glob.glob(f"{root}/docs/*.md"))]
    for path, kind in jobs:
        old = read(path)
        if kind == "antt":
            stay = local & set(WORD.findall(old)) if os.path.basename(path) == "Proof.antt" else set()
            declared = {m.group(3) for m in LINE.finditer(COMMENT.sub("", old))} if stay else set()
            text = turn_antt(old, new, {n for n in stay if n in declared and not n.endswith("-spec")})
        elif kind == "rt":
            text = turn_rt(old, {a: b for a, b in new.items() if a not in LAWS})
        else:
            text = turn_page(old, new, shared)
        if text != old:
            turned += 1
            with open(path, "w", encoding="utf-8") as f:
                f.write(text)
    with open(f"{root}/tools/respell/names.tsv", "w", encoding="utf-8") as f:
        f.writelines(f"{a}\t{b}\n" for a, b in sorted(new.items()))
    print(f"respell: {len(new)} names, {turned} files")


if __name__ == "__main__":
    main(sys.argv[1] if len(sys.argv) > 1 else ".")

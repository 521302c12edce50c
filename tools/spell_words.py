#!/usr/bin/env python3
"""Spells the repository's own words in today's way, in every file below crates/; run once, after port.py.

usage: python3 tools/spell_words.py [--list]

A definition, a field or a local word is in snake case. A lemma keeps a dash where its name gives the left side of its
equation, the outer call first, as std's `length-insert` does; each word of it is in snake case. A lemma that is no such
equation is named for what it says, in snake case. Comments, texts in quotes and the names that Rattle makes (goals,
steps) stay; in a comment only words with a dash are turned. --list prints the words and changes nothing. Two words
that would fall together stop it; a line 'look:' says where a new spelling stood in a file already.
"""

import pathlib
import re
import sys

TOKEN = re.compile(r"""--[^\n]*|//[^\n]*|b?"(?:[^"\\\n]|\\.)*"|[^\s(){}.;,@"«»]+""")
DECLARED = re.compile(
    r"^(?P<indent> *)(?:abbrev |unfoldable )?(?:pub )?(?:(?P<kind>record|data|ruleset) )?(?P<name>[^\s(){}.;,@\"«»:]+)"
    r"(?P<args>(?: +[({][^:]*:[^:]*?[)}])*) :(?!=) (?P<says>.*(?:\n +[→×(].*)*)",
    re.M,
)
RULESET = re.compile(r"^(?:pub )?ruleset (\S+)", re.M)
ANSWERS = ("Answers.antt", "Invariants.antt")


def snake(name):
    if re.match(r"[A-Z][a-z]", name):
        return re.sub(r"-([a-z])", lambda m: m[1].upper(), name)
    name = re.sub(r"(?<=[a-z0-9])([A-Z])(?=[a-z])", lambda m: "_" + m[1].lower(), name)
    return name.replace("-", "_")


def odd(name):
    return "-" in name or bool(re.match(r"[a-z]", name) and re.search(r"[a-z][A-Z][a-z]", name))


def left_side(says):
    """The head of the left side of the equation that a statement ends in, if it ends in one."""
    last = re.split(r"→", says)[-1]
    if "≡" not in last or "×" in last or "⊎" in last:
        return None
    head = re.match(r"[\s(]*([^\s(){}.;,]+)", last.split("≡")[0])
    return head and head[1]


def is_code(token):
    return not token.startswith(("--", "//", '"', 'b"'))


def main():
    files = sorted(p for p in pathlib.Path("crates").rglob("*") if p.suffix in (".antt", ".rt") and "out" not in p.parts)
    texts = {p: p.read_text() for p in files}
    defined, lemmas = set(), {}
    for p, text in texts.items():
        if p.suffix != ".antt":
            continue
        made = p.name in ANSWERS
        for m in DECLARED.finditer(text):
            name, says = m["name"], m["says"]
            if made and (says.startswith("goal.") or name == "goal"):
                continue
            if not odd(name):
                continue
            head = left_side(says)
            field = "specs" in p.parts or (m["indent"] and "where" not in text)
            if head and "proofs" in p.parts:
                lemmas.setdefault(name, set()).add(head)
            else:
                defined.add(name)
        defined.update(n for n in RULESET.findall(text) if odd(n))
    # a word that stands as a field or a definition anywhere is one
    lemmas = {n: hs for n, hs in lemmas.items() if n not in defined}
    words = {n: snake(n) for n in defined}
    many = sorted((n for n in words if "-" in n), key=len, reverse=True)
    for name, heads in lemmas.items():
        new = name
        new = re.sub(r"^getD(?=-)", "get_or", new)
        for word in many:
            new = re.sub(rf"(?<![\w-]){re.escape(word)}(?![\w-])|(?<=-){re.escape(word)}(?=-|$)|^{re.escape(word)}(?=-)", words[word], new)
        heads = {words.get(h, h) for h in heads}
        first = new.split("-")[0]
        words[name] = new if first in heads else snake(new)
    words = {old: new for old, new in words.items() if old != new}
    taken = {}
    for old, new in words.items():
        taken.setdefault(new, []).append(old)
    bad = [f"{' and '.join(olds)} would both be {new}" for new, olds in taken.items() if len(olds) > 1]
    for p, text in texts.items():
        here = {t for t in TOKEN.findall(text) if is_code(t)}
        for old in here & set(words):
            if words[old] in here:
                print(f"look: {p}: {old} meets {words[old]}")
    if "--list" in sys.argv:
        for old in sorted(words):
            print(old, words[old])
    for line in bad:
        print(line, file=sys.stderr)
    if "--list" in sys.argv or bad:
        return 1 if bad else 0
    for p, text in texts.items():
        made = p.name in ANSWERS

        def turned(m):
            token = m[0]
            if token.startswith(("--", "//")):
                return re.sub(r"[A-Za-z0-9_]+(?:-[A-Za-z0-9_]+)+", lambda w: words.get(w[0], w[0]), token)
            if token not in words:
                return token
            before = text[: m.start()]
            if made and (before.endswith("goal.") or re.search(r"(?:^|[\s(])[clw]\.$", before)):
                return token
            return words[token]

        new = TOKEN.sub(turned, text)
        if new != text:
            p.write_text(new)
    print(f"{len(words)} words spelled anew")
    return 0


sys.exit(main())

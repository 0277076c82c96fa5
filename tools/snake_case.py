#!/usr/bin/env python3
"""Spells this repository's own definitions and lemmas as Rattle's libraries spell theirs: words in snake case.

usage: tools/snake_case.py [--check] [ROOT]

A name that a definition file, a lemma file, an answer or an invariant declares with dashes, and each of theirs in
camel case with a small first letter, gets underscores: titleHalf is title_half, wiped-length is wiped_length.
Types and modules keep their capitals, names that Rattle makes keep their dashes, and the words of libraries and of
src/ stay. A lemma whose new name is a definition's ends in _lem. It turns whole words:
  crates/**/*.antt, *.rt, *.edit   code; in a comment what is in camel case, or has dashes and stands in backticks
  README.md, docs/**/*.md          what is in camel case; what has dashes where it stands in backticks
  host/**/*.sh                     what is in camel case: the tests that read definitions
--check writes nothing and says what would meet. A second run writes nothing more. The check of each crate decides.
"""
import collections
import os
import re
import sys

WORD = re.compile(r"[A-Za-z_][\w'-]*")
DECLARED = re.compile(r"(?m)^ *(?:(?:pattern|unfoldable|abbrev|pub|axiom) +)*([a-z_][\w'-]*)(?: \{[^{}\n]*\})* +:(?= |$)")
COMMENT = {".antt": re.compile(r"--[^\n]*"), ".rt": re.compile(r"//[^\n]*"), ".edit": re.compile(r"(?!)")}
CAMEL = re.compile(r"(?<![\w'-])[a-z]\w*?[a-z0-9][A-Z]\w*")
SPAN = re.compile(r"```.*?```|`[^`\n]*`", re.S)
ANSWERS = re.compile(r"/proofs/.*(Answers|Invariants|Proof)\.antt$")
# In a function's answers and invariants: the names that Rattle makes of goals, of what is known at one, and of a state.
MADE = re.compile(r"(?<![\w'-])(?:goal|c|w)\.([a-z_][\w'-]*)")
# Spelled by hand: a number or a group of capitals at the end is a word of its own, an entry's key is not the field of
# the facts, and a statement's part keeps its short name where a definition of that name stands beside it.
BY_HAND = {
    **{"nineFF": "nine_ff", "otherThan15": "other_than_15", "titleKey": "title_key_at", "stiKey": "sti_key_at"},
    **{"title-half": "title_half", "rule-half": "rule_half", "permits-total": "permits_total", "copies-total": "copies_total"},
    **{"every-call": "every_call", "other-pair": "of_other_pair", "wiped-rule": "wiped_rule"},
    **{"a-copy": "deletes_copy", "a-holder": "deletes_holder"},
}
# Words of the documents that are English or an argument of a program, and no names here.
ENGLISH = {"check-outs", "title-key", "sti-key"}


def snake(name):
    if name in BY_HAND:
        return BY_HAND[name]
    return re.sub(r"(?<=[a-z0-9])[A-Z]", lambda m: "_" + m[0].lower(), name).replace("-", "_")


def files_below(root):
    for folder, dirs, files in os.walk(os.path.join(root, "crates")):
        dirs[:] = sorted(d for d in dirs if d != "out")
        for f in sorted(files):
            if os.path.splitext(f)[1] in COMMENT:
                yield os.path.join(folder, f)
    for top, ending in (("docs", ".md"), ("host", ".sh")):
        for folder, _, files in os.walk(os.path.join(root, top)):
            yield from (os.path.join(folder, f) for f in sorted(files) if f.endswith(ending) and f != "PORT.md")
    yield os.path.join(root, "README.md")


def made(path, text):
    return {n for n in MADE.findall(text) if "-" in n} if ANSWERS.search(path) else set()


def declared(texts):
    """The names that the files declare: of definitions (in specs/, at a line's beginning or in a module), and all."""
    definitions, names = set(), set()
    for path, text in texts.items():
        if not path.endswith(".antt"):
            continue
        bare = COMMENT[".antt"].sub("", text)
        here = set(DECLARED.findall(bare))
        here -= made(path, bare)
        names |= here | set(CAMEL.findall(bare))
        if "/specs/" in path:
            definitions |= {n for n in here if "-" not in n}
    return definitions, names


def spellings(texts):
    definitions, names = declared(texts)
    taken = {snake(n) for n in definitions}
    # An edit or a page may have the older spelling of a definition that is turned already.
    elsewhere = {n for path, text in texts.items() if not path.endswith(".antt") for n in CAMEL.findall(text)}
    names |= {n for n in elsewhere if snake(n) in taken}
    table = {}
    for name in names:
        new = snake(name)
        if new != name:
            table[name] = new + "_lem" if "-" in name and new in taken and name not in BY_HAND else new
    return table


def turned(path, text, table):
    word = lambda m: table.get(m[0], m[0])
    camel = lambda m: m[0] if "-" in m[0] else word(m)
    spans = lambda t: pieces(SPAN, t, lambda s: WORD.sub(lambda m: m[0] if m[0] in ENGLISH else word(m), s), lambda s: WORD.sub(camel, s))
    kind = os.path.splitext(path)[1]
    if kind == ".md":
        return spans(text)
    if kind == ".sh":
        return WORD.sub(camel, text)
    table = {old: new for old, new in table.items() if old not in made(path, text)}
    return pieces(COMMENT[kind], text, spans, lambda t: WORD.sub(word, t))


def pieces(pattern, text, inside, outside):
    out, at = [], 0
    for m in pattern.finditer(text):
        out += [outside(text[at : m.start()]), inside(m[0])]
        at = m.end()
    return "".join(out + [outside(text[at:])])


def meetings(path, text, table):
    """Two words of a file's code that would become one."""
    kind = os.path.splitext(path)[1]
    words = set(WORD.findall(COMMENT[kind].sub("", text))) if kind in COMMENT else set()
    by_new = collections.defaultdict(set)
    for w in words:
        by_new[table.get(w, w)].add(w)
    return [(new, sorted(old)) for new, old in sorted(by_new.items()) if len(old) > 1]


def main():
    words = [w for w in sys.argv[1:] if w != "--check"]
    root = words[0] if words else "."
    texts = {}
    for path in files_below(root):
        with open(path, encoding="utf-8") as f:
            texts[path] = f.read()
    table = spellings(texts)
    changed = 0
    for path, text in texts.items():
        for new, old in meetings(path, text, table):
            print(f"meet: {path}: {', '.join(old)}: {new}")
        now = turned(path, text, table)
        if now != text:
            changed += 1
            if "--check" not in sys.argv:
                with open(path, "w", encoding="utf-8") as f:
                    f.write(now)
    print(f"{len(table)} names, {changed} files")


if __name__ == "__main__":
    main()

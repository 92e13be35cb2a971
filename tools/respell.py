#!/usr/bin/env python3
"""Brings the repository's own definitions, lemmas, fields and constructors of antt to today's spelling, once.

usage: tools/respell.py [--check] [--map]     at the top of the repository, right after the kit's port.py
       --check writes nothing, --map prints each old and new name

Words are in snake case, and a dash joins two names (`length-xors`), while a plain word is added with `_` (`xors_swap`). Types, modules and
facts keep their capitals, the functions, constants and types of src/ their names, and so do strings. A lemma whose new spelling is its
function's name gets `_lem`. Local names of a function's proof file stay. In a comment and on a page a name with a dash is turned only
between backticks, since there it may be a plain word.
"""

import glob
import re
import sys

ENDS = r"\s(){}.;,@\"«»`\[\]\\:|"
TOKEN = re.compile(rf"[^{ENDS}]+")
DECLARED = re.compile(r"(?m)^ *((?:(?:abbrev|unfoldable|pub) )*)(record |data )?([^\s(){}.;,:=]+)(?: \(.*\)| [^:=\n]*)? :(?= |$)")
# What stands for a name beside those that the repository defines: functions and relations of the library.
LIBRARY = set(
    """length take drop append replicate set sets map foldl nil cons get_or add sub mul div mod pow suc zero lt le pos ge min max xor bits
    bit_xor snoc not or and even odd""".split()
)
# Names whose new spelling another crate's name has, or a local one, in files that do not see this one.
APART = set("addAt allWhole byRow byTests dataGuard heldAfter inOrder tooLong twoBlocks roomOf".split())
# A lemma that would have its function's name.
GIVEN = {"room_of": "room_of_lem", "held_after": "held_after_lem"}
PAGES = ["README.md", "docs/*.md", "docs/changes/*.md"]


def read(path):
    with open(path, encoding="utf-8") as f:
        return f.read()


def files(*patterns):
    return sorted(p for it in patterns for p in glob.glob(it, recursive=True) if "/out/" not in p)


def is_of_function(path):
    return path.endswith("/Proof.antt")


def snake(word):
    """addAll -> add_all, getD -> get_or (which the library renamed)."""
    if word == "getD":
        return "get_or"
    if not word[:1].islower():
        return word
    return re.sub(r"(?<=[a-z0-9])[A-Z]", lambda m: "_" + m[0].lower(), word)


def declared():
    """Returns the names that files of specs/ and proofs/ declare, and those of them that are definitions or types."""
    every, defined = set(), set()
    for path in files("crates/*/specs/**/*.antt", "crates/*/proofs/**/*.antt"):
        if is_of_function(path):
            continue
        for marks, kind, name in (m.groups() for m in DECLARED.finditer(read(path))):
            every.add(name)
            if kind or "abbrev" in marks or "unfoldable" in marks or "/specs/" in path:
                defined.add(name)
    return every, defined


def bound():
    """Returns the words that stand for something in antt: what is not behind a dot, and in src/ the parameters and the clauses' words."""
    words = set()
    for path in files("crates/*/specs/**/*.antt", "crates/*/proofs/**/*.antt"):
        words |= set(re.findall(rf"(?<![.{ENDS[2:]}])(?<![^{ENDS}])[^{ENDS}]+", re.sub(r"\.[^{0}]+".format(ENDS), " ", read(path))))
    for path in files("crates/*/src/**/*.rt"):
        text = read(path)
        words |= {it for m in re.finditer(r"\bfn \w+[^{]*?\(([^{]*?)\)", text) for it in re.findall(r"(\w+):", m[1])}
        words |= {it for m in re.finditer(r"(?m)^ *(?:requires|ensures|ghost)\b[^{]*\{(.*)\}$", text) for it in TOKEN.findall(m[1])}
        words |= {it for m in re.finditer(r"ghost use ([^;]*);", text) for it in TOKEN.findall(m[1])}
    return words


def new_name(name, known):
    parts = [snake(it) for it in name.split("-")]
    said = parts[0]
    for before, part in zip(parts, parts[1:]):
        is_join = before in known and part in known
        said += ("-" if is_join else "_") + part
    return said


def renamed():
    every, defined = declared()
    # a name for another name to be joined to: no name with a dash is one
    known = {snake(it) for it in defined if "-" not in it} | LIBRARY
    taken = bound()
    news, left = dict(GIVEN), []
    for name in sorted(every, key=lambda it: ("-" in it, it)):
        to = new_name(name, known)
        if to == name:
            continue
        if (to in taken or to in news.values()) and name not in APART:
            to += "_lem"
            if to in taken or to in news.values():
                left.append((name, to))
                continue
        news[name] = to
    return news, left


def turned(text, news, comment, everywhere=True):
    """Returns the text with each name respelled; 'comment' is the mark that begins a comment."""

    def one(m):
        return news.get(m[0], m[0])

    def said(part):
        part = re.sub(r"`[^`\n]*`", lambda m: TOKEN.sub(one, m[0]), part)
        return TOKEN.sub(lambda m: m[0] if "-" in m[0] else one(m), part) if everywhere else part

    lines = []
    for line in text.split("\n"):
        at = 0 if comment is None else line.find(comment)
        if at < 0:
            at = len(line)
        if comment == "//":
            pieces = re.split(r"(\"[^\"]*\")", line[:at])
            head = "".join(it if it.startswith('"') else TOKEN.sub(one, it) for it in pieces)
        else:
            head = TOKEN.sub(one, line[:at])
        lines.append(head + said(line[at:]))
    return "\n".join(lines)


def main(flags):
    news, left = renamed()
    if "--map" in flags:
        for old, new in news.items():
            print(old, new)
    for old, new in left:
        print(f"left: {old} is not {new}, which is another name", file=sys.stderr)
    sources = [(p, "--") for p in files("crates/*/specs/**/*.antt", "crates/*/proofs/**/*.antt")]
    sources += [(p, "//") for p in files("crates/*/src/**/*.rt")]
    sources += [(p, "#") for p in files("crates/*/must-fail/*.edit")]
    sources += [(p, None) for p in files(*PAGES)]
    changed = 0
    for path, comment in sources:
        old = read(path)
        new = turned(old, news, comment)
        if new != old:
            changed += 1
            if "--check" not in flags:
                with open(path, "w", encoding="utf-8") as f:
                    f.write(new)
    print(f"respell: {len(news)} names, {len(left)} left, {changed} files", file=sys.stderr)
    return 0


if __name__ == "__main__":
    sys.exit(main(sys.argv[1:]))

#!/usr/bin/env python3
"""Spells the definitions and lemmas of the repository as today's Rattle does: words in snake case, types in camel case.

usage: tools/respell.py [--list]     (at the top of the repository, once, after port.py)

A name with a dash that a file of specs/ or proofs/ declares gets underscores, or, where it begins with a capital, capitals: `news-used` is
`news_used`, `Same-truth` is `SameTruth`. A name that a library has keeps its spelling, and so does one that a file of `proofs/` takes from
what Rattle makes for a function. A name whose new spelling is taken, by another definition or by a function of src/, gets the new name of
APART. Texts, comments, must-fail edits and pages that speak of a name are turned alike.
"""

import glob
import os
import re
import sys

NAME = r'[^\s(){}.;,@"«»\[\]|`]+'
TOKEN = re.compile(rf"(?<![^\s(){{}}.;,@\"«»\[\]|`]){NAME}")
DECLARED = re.compile(
    rf"(?m)^ *(?:(?:pub|abbrev|unfoldable|data|record|mutual|private) )*({NAME}(?: {NAME})*?)(?: [({{][^\n]*)? :(?= |$)"
)
HEAD = re.compile(rf"(?m)^ *(?:(?:pub|abbrev|unfoldable) )*(?:data|record) ({NAME})")
USE = re.compile(r"\buse ([^\s;{]+?)(?:\.\{([^}]*)\})?(?=[\s;]|$)")
MADE = re.compile(r"^(invariant|decreases|loop|returns|ensures|requires)-|-spec$|^μ-|^statement$")
ITEM = re.compile(r"\b(?:const|static|struct|enum|type|trait|fn|mod) (\w+)")
OWN = re.compile(r"Rattle\.(\w+)\.(?:specs|proofs)\b")

# A respelled name that would meet another: what it is called instead.
APART = {
    "block-line": "block_line_written",
    "body-size": "body_size_of",
    "conversion-at": "conversion_found",
    "has-hash": "holds_hash",
    "in-first": "within_first",
    "in-second": "within_second",
    "is-prenex": "is_prenex_form",
    "kind-of": "kind_of_word",
    "of-skolem": "of_skolem_stage",
    "pnf-snf": "snf_of_prenex",
    "push-not": "push_negation",
    "put-done": "put_was_done",
    "Free-of": "free_of",
    "Tidy-of": "tidy_of",
}

# In comments and pages this is the name of a conversion.
SPOKEN = {"pnf-snf"}


def turned(name):
    parts = name.split("-")
    if name[:1].isupper():
        return parts[0] + "".join(p[:1].upper() + p[1:] for p in parts[1:])
    return "_".join(parts)


def code(text):
    return re.sub(r"--.*", "", text)


def main():
    listed = "--list" in sys.argv
    crates = sorted(os.path.basename(os.path.dirname(p)) for p in glob.glob("crates/*/"))
    antt = [f for f in glob.glob("crates/*/specs/**/*.antt", recursive=True) + glob.glob("crates/*/proofs/**/*.antt", recursive=True)]
    rust = glob.glob("crates/*/src/**/*.rt", recursive=True)
    declared, library, plain = {}, {}, {}
    items = set()
    for f in rust:
        items |= set(ITEM.findall(open(f).read()))
    for f in antt:
        text = code(open(f).read())
        walk = os.path.basename(f) == "Proof.antt"
        for m in DECLARED.finditer(text):
            for name in m[1].split(" "):
                if "-" in name.strip("-") and not (walk and MADE.search(name)):
                    declared.setdefault(name, set()).add(f)
                elif "-" not in name and name not in (":", "→"):
                    plain.setdefault(name, set()).add(f)
        for m in HEAD.finditer(text):
            if "-" in m[1]:
                declared.setdefault(m[1], set()).add(f)
        for path, names in USE.findall(text):
            own = OWN.match(path)
            if not (own and own[1] in crates):
                for name in re.split(r"[,\s]+", names):
                    library.setdefault(name, set()).add(f)
    both = {n for n in declared if n in library}
    names = {}
    back = {}
    for name in sorted(declared):
        if name in both:
            print(f"look: {name} is declared in {sorted(declared[name])[:3]} and taken from a library in {sorted(library[name])[:3]}")
        new = APART.get(name) or turned(name)
        if new in back:
            print(f"together: {name} and {back[new]} are both {new}: {sorted(declared[name])[:2]}")
        if new in plain:
            print(f"taken: {name} is {new}, which {sorted(plain[new])[:3]} has: {sorted(declared[name])[:2]}")
        if new in library:
            print(f"lent: {name} is {new}, a library's: {sorted(library[new])[:2]} {sorted(declared[name])[:2]}")
        if new in items:
            print(f"item: {name} is {new}, an item of src/: {sorted(declared[name])[:2]}")
        back[new] = name
        names[name] = new
    if listed:
        print(len(names), "names")
        return
    turn_all(names, library, antt, rust)


def turn_all(names, library, antt, rust):
    edits = glob.glob("crates/*/must-fail/*.edit") + glob.glob("tests/edits/**/*.edit", recursive=True)
    pages = ["README.md", "crates.txt"] + glob.glob("docs/*.md") + glob.glob("tests/*.md") + glob.glob("bindings/**/*.md", recursive=True)

    for f in antt + rust + edits + pages:
        text = open(f).read()
        own = {n for n in names if not (n in library and f in library[n])}
        # What a file calls a definition of another, by `as`, is its own.
        here = dict(names)
        if os.path.basename(f) != "Proof.antt":
            for name in re.findall(rf" as ({NAME})", text):
                if "-" in name and not name.startswith("◌"):
                    here[name] = APART.get(name) or turned(name)
                    own.add(name)
                    if re.search(rf"(?<![\w-]){here[name]}(?![\w-])", code(text)):
                        print(f"alias: {f} has {here[name]} already")
        told = own - SPOKEN
        page = f.endswith(".md") or f == "crates.txt"
        comment = re.compile(r"(--|//).*|#.*" if f.endswith(".edit") else r"(--|//).*")
        new = ""
        for line in text.splitlines(keepends=True):
            m = None if page else comment.search(line)
            cut = 0 if page else m.start() if m else len(line)
            # What stands in quotes stays.
            for i, part in enumerate(re.split(r'("(?:[^"\\]|\\.)*")', line[:cut])):
                new += part if i % 2 else TOKEN.sub(lambda m: here[m[0]] if m[0] in own else m[0], part)
            new += TOKEN.sub(lambda m: here[m[0]] if m[0] in told else m[0], line[cut:])
        if new != text:
            open(f, "w").write(new)


main()

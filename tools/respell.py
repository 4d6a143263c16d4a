#!/usr/bin/env python3
"""Brings the names of definitions and lemmas to the spelling of today's Rattle: facts and types in camel case, all
else in snake case. It was run once, at the top of the repository, right after the toolchain's own port.py.

A name is taken from where it is defined: at the head of a line of specs/ or of a lemma file in proofs/ (a definition, a
record's field, a constructor). It is then written anew wherever it stands as a whole word in a clause, a definition, a
proof or a page of docs/. Code, strings and made names (goals and their parts) have no such word.
"""
import glob
import re
import sys

DEFINED = re.compile(r"^\s*(?:abbrev |unfoldable |pub )*(?:record |data )?([A-Za-z][\w'-]*)\s*(?::|\(|\{|[a-z ]*:)")


def sources():
    for pattern in ("crates/*/specs/*.antt", "crates/*/proofs/*.antt"):
        yield from sorted(glob.glob(pattern))


def users():
    for pattern in ("crates/**/*.antt", "crates/**/*.rt", "README.md", "docs/*.md"):
        yield from sorted(f for f in glob.glob(pattern, recursive=True) if "/out/" not in f and "docs/PORT" not in f)


def respelled(name):
    if name[0].isupper():
        return "".join(part[0].upper() + part[1:] for part in name.split("-"))
    return name.replace("-", "_")


def defined():
    for path in sources():
        with open(path) as file:
            for line in file:
                found = DEFINED.match(line)
                if found and "-" in found.group(1):
                    yield found.group(1)


def main():
    names = {name: respelled(name) for name in defined()}
    texts = {}
    for path in users():
        with open(path) as file:
            texts[path] = file.read()
    word = r"(?<![\w'-])%s(?![\w'-])"
    for old, new in sorted(names.items()):
        for path, text in texts.items():
            if re.search(word % re.escape(new), text):
                print("falls together: %s with %s in %s" % (old, new, path))
    if len(set(names.values())) < len(names):
        sys.exit("two names fall together")
    any_name = re.compile(word % ("(%s)" % "|".join(sorted(map(re.escape, names), key=len, reverse=True))))
    for path, text in texts.items():
        changed = any_name.sub(lambda found: names[found.group(1)], text)
        if changed != text:
            with open(path, "w") as file:
                file.write(changed)
    for old, new in sorted(names.items()):
        print("%s -> %s" % (old, new))


if __name__ == "__main__":
    main()

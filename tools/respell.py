#!/usr/bin/env python3
"""Brings the names of this repository's own definitions and lemmas to today's spelling.

Definitions, lemmas, record fields and constructors are in snake case, types and facts in camel
case. What is declared in specs/ and in the lemma files of proofs/ is renamed, wherever it is
cited: in specs/, in proofs/ and in the clauses of src/. Names that Rattle makes, as those of
goals, keep their dashes, and so do comments and strings. Run once, at the top, after the
toolchain's own scripts. It stops where two names would fall together.
"""
import glob
import re
import sys

DECLARED = re.compile(
    r"^(?:abbrev |unfoldable )*(?:pub )?(?:(record|data) )?([^ :({=]+)(?: :| [({]|$)")
MEMBER = re.compile(r"^ +(?:pub )?([^ :(=]+) : ")


def declared(path):
    """The names that a file declares: of definitions and lemmas, of fields and constructors, and
    of lemmas that stand indented under shared arguments."""
    for line in open(path, encoding="utf-8"):
        if line.startswith(("--", "use ", "pub mod", "mod ", "unfolding ")):
            continue
        if m := DECLARED.match(line):
            if m.group(1) or " : " in line or line.rstrip().endswith(" :"):
                yield m.group(2)
        elif m := MEMBER.match(line):
            yield m.group(1)


def respelled(name):
    if name[0].isupper():
        return "".join(part[0].upper() + part[1:] for part in name.split("-"))
    return name.replace("-", "_")


def own_files():
    return sorted(glob.glob("crates/*/specs/*.antt") + glob.glob("crates/*/proofs/*.antt"))


def renaming():
    names = {name for path in own_files() for name in declared(path)}
    renamed = {name: respelled(name) for name in names if "-" in name}
    clashes = sorted(new for new in renamed.values()
                     if new in names or list(renamed.values()).count(new) > 1)
    if clashes:
        sys.exit("fall together: " + ", ".join(clashes))
    return renamed


def rewrite(path, pattern, renamed, comment):
    def line_of(line):
        code, mark, rest = line.partition(comment)
        parts = re.split(r'("[^"]*")', code)
        parts[::2] = [pattern.sub(lambda m: renamed[m.group(0)], part) for part in parts[::2]]
        return "".join(parts) + mark + rest

    text = open(path, encoding="utf-8").read()
    new = "".join(line_of(line) for line in text.splitlines(keepends=True))
    if new != text:
        open(path, "w", encoding="utf-8").write(new)


def main():
    renamed = renaming()
    names = sorted(renamed, key=len, reverse=True)
    pattern = re.compile(r"(?<![\w'-])(" + "|".join(map(re.escape, names)) + r")(?![\w'-])")
    for path in glob.glob("crates/*/specs/*.antt") + glob.glob("crates/*/proofs/**/*.antt",
                                                              recursive=True):
        rewrite(path, pattern, renamed, "--")
    for path in glob.glob("crates/*/src/**/*.rt", recursive=True):
        rewrite(path, pattern, renamed, "//")
    for old in sorted(renamed):
        print(f"{old} {renamed[old]}")


main()

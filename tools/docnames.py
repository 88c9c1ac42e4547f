#!/usr/bin/env python3
"""Names in the pages that are not in the code. Exits 1 if there are any.

A name is a word in backticks of README.md, docs/ and crates/NAME/README.md; the code is all of crates/, examples/ and tools/.
"""
import os
import re
import sys

TOP = os.path.join(os.path.dirname(os.path.abspath(__file__)), "..")
CODE = (".rt", ".antt", ".edit", ".py", ".sh", ".nts")
FOREIGN = {"rustc_next_trait_solver", "indexmap", "thiserror", "fold_binder", "Send", "TYPE", "HANDLES", "staticlib"}
COMMANDS = {"rt", "cd", "grep"}


def read(path):
    with open(path, encoding="utf-8") as f:
        return f.read()


def files(folder, endings):
    for at, _, names in sorted(os.walk(os.path.join(TOP, folder))):
        yield from (os.path.join(at, name) for name in sorted(names) if name.endswith(endings))


def pages():
    yield os.path.join(TOP, "README.md")
    yield from files("docs", ".md")
    yield from (page for page in files("crates", "README.md"))


def words_of_the_code():
    words = set(FOREIGN)
    words |= {os.path.basename(page)[: -len(".md")] for page in pages()}
    words |= {part for name in os.listdir(TOP) for part in name.split(".")}
    for folder in ("crates", "examples", "tools"):
        for path in files(folder, CODE):
            words |= set(re.split(r"[/.]", os.path.relpath(path, TOP)))
            words |= set(re.findall(r"[\w'+-]+|\w+", read(path)))
            words |= set(re.findall(r"\w+", read(path)))
    return words


def is_known(name, known):
    """Whether the code has the name, or one that begins with it where it ends with an underscore."""
    return name in known or name.strip("'") in known or name.endswith("_") and any(word.startswith(name) for word in known)


def names_of(page):
    text = re.sub(r"```.*?```", "", read(page), flags=re.S)
    for quoted in re.findall(r"`([^`\n]+)`", text):
        if quoted.split()[0] not in COMMANDS:
            yield from (word for word in re.findall(r"[A-Za-z_][\w'-]*", quoted) if len(word) > 2)


def main():
    known, missing = words_of_the_code(), False
    for page in pages():
        unknown = sorted({name for name in names_of(page) if not is_known(name, known)})
        if unknown:
            missing = True
            print(f"{os.path.relpath(page, TOP)}: {' '.join(unknown)}")
    sys.exit(missing)


if __name__ == "__main__":
    main()

#!/usr/bin/env python3
"""The glossary: the words of the public clauses, each with its room and the comment above its definition.

    tools/glossary.py             prints docs/GLOSSARY.md
    tools/glossary.py --check     exits 1 if docs/GLOSSARY.md is something else
    tools/glossary.py --bare      lists the words whose comment is missing, or cannot be read alone
    tools/glossary.py --trusted   counts what the theorem is made of, and all clauses of its call
"""
import collections
import os
import re
import sys
import textwrap

TOP = os.path.join(os.path.dirname(os.path.abspath(__file__)), "..")
CRATES = os.path.join(TOP, "crates")
PAGE = os.path.join(TOP, "docs", "GLOSSARY.md")
LIBRARY = "next_trait_solver"
SEVERAL = 3
THEOREM = ("nts_evaluation", "evaluate_root_goal", ("proved", "falls"))
COHERENCE = ("none", "keeps")
LAWS = "IsLawfulHandler"

USE = re.compile(r"(?:pub |ghost )*use (Rattle\.[^\s;{]+?)(?:\.\{([^}]*)\})?(?: as \S+?)?;?$")
HEAD = re.compile(r"((?:abbrev |unfoldable |data |record |opaque |pub )*)([^\s:({=]*)\s*(.*)$")
HANDED = re.compile(r"^Rattle\.(?:nts_\w+\.specs\.)+(?=nts_\w+\.)")
TOKEN = re.compile(r"[^\s(){}\[\],;]+")
CLAUSE = re.compile(r"(requires|ensures)\s+(\w*)\s*\{")


def read(path):
    with open(path, encoding="utf-8") as f:
        return f.read()


def files_below(folder, ending):
    for at, _, names in sorted(os.walk(folder)):
        for name in sorted(names):
            if name.endswith(ending):
                yield os.path.join(at, name)


def imported(line):
    """The words that a line imports, each with its room and its name there. A crate that hands on another is passed over."""
    use = USE.match(line)
    if not use or not use.group(2):
        return {}
    items = (item.strip().partition(" as ") for item in use.group(2).split(","))
    room = HANDED.sub("Rattle.", use.group(1))
    return {renamed or word: (room, word) for word, _, renamed in items}


def crates():
    return sorted(os.listdir(CRATES))


class Room:
    """A file of definitions: for each word its lines and the comment above it; and what is imported."""

    def __init__(self, path):
        self.path = path
        self.comment, self.lines, self.imports = {}, {}, {}
        comment, word, columns, typed = [], None, [0], None
        for line in read(path).split("\n"):
            text, column = line.strip(), len(line) - len(line.lstrip())
            if text.startswith("--"):
                comment.append(text[2:].strip())
                continue
            if text:
                while column < columns[-1]:
                    columns.pop()
                if typed is not None and column <= typed:
                    typed = None
                if USE.match(text):
                    self.imports.update(imported(text))
                elif re.match(r"(abbrev |unfoldable )*mutual\b|module ", text):
                    columns.append(column + 2)
                else:
                    kind, name, rest = HEAD.match(text).groups()
                    is_type = "data " in kind or "record " in kind
                    if typed is None and column == columns[-1] and (is_type or re.match(r":( |$)", rest)):
                        word, typed = name, column if is_type else None
                        self.comment[word], self.lines[word] = " ".join(comment), []
                    if word:
                        self.lines[word].append(text)
            comment = []


class Words:
    """All definitions of `specs/`, by room and name."""

    def __init__(self):
        self.rooms = {}
        for crate in crates():
            for path in files_below(os.path.join(CRATES, crate, "specs"), ".antt"):
                inner = os.path.relpath(path, os.path.join(CRATES, crate))[:-5].replace(os.sep, ".")
                name = f"Rattle.{crate}.{inner}"
                self.rooms[name] = Room(path)

    def find(self, path, word):
        """The room that defines the word, where `path` is the room that is imported, or one that hands the word on."""
        while path in self.rooms:
            room = self.rooms[path]
            if word in room.lines:
                return path, word
            if word not in room.imports:
                return None
            path, word = room.imports[word]
        above, _, last = path.rpartition(".")
        return self.find(above, last) if above in self.rooms else None

    def named_in(self, text, imports, own=None):
        """The definitions that a text names, by what is imported there."""
        for token in TOKEN.findall(text):
            for word in {token, token.split(".")[0]}:
                if own and word in self.rooms[own].lines:
                    yield own, word
                elif word in imports:
                    found = self.find(*imports[word])
                    if found:
                        yield found

    def promised(self, named):
        """The definitions that the records of promises among these name."""
        found = set()
        for room, word in named:
            if room.endswith(".Promises"):
                found |= set(self.named_in("\n".join(self.rooms[room].lines[word]), self.rooms[room].imports, room))
        return found

    def made_of(self, roots):
        """All definitions that these are made of, themselves among them."""
        seen, left = set(), list(roots)
        while left:
            key = left.pop()
            if key not in seen:
                seen.add(key)
                room, word = key
                text = "\n".join(self.rooms[room].lines[word])
                left += self.named_in(text, self.rooms[room].imports, room)
        return seen


def imports_of(source):
    """The words that the ghost imports of a source file name. Those of a trait count for the whole file."""
    return {word: room for line in source.split("\n") for word, room in imported(line.strip()).items()}


def braces(text, start):
    """The text between the brace at `start` and its partner."""
    depth = 0
    for at in range(start, len(text)):
        depth += {"{": 1, "}": -1}.get(text[at], 0)
        if depth == 0:
            return text[start + 1 : at]
    return text[start + 1 :]


def signature(lines, at, indent):
    """A function from its head to where its body begins, or to its semicolon where it has none."""
    for end in range(at, len(lines)):
        if lines[end] in (indent + "{", indent + "{}") or lines[end].endswith((" {", " {}", ";")):
            return "\n".join(lines[at : end + 1])
    return lines[at]


def functions(source):
    """Each function of a source file: of what it is a method, if it is one; whether it is public; its name; and its clauses."""
    owner, in_trait, lines = None, False, source.split("\n")
    for at, line in enumerate(lines):
        block = re.match(r"(?:pub )?(impl|trait)\b(?:<[^{]*?>)?\s*(?:[\w:<>', ]+ for )?(\w+)", line)
        head = re.match(r"( *)(pub |pub\(crate\) )?fn (\w+)", line)
        if block:
            owner, in_trait = block.group(2), block.group(1) == "trait"
        elif line.startswith("}"):
            owner, in_trait = None, False
        elif head:
            indent, public, name = head.groups()
            text = signature(lines, at, indent)
            clauses = [(clause.group(2), braces(text, clause.end() - 1)) for clause in CLAUSE.finditer(text)]
            yield owner, in_trait or public == "pub ", name, clauses


def exported():
    """What the library hands on: the names, by the crate that they come from."""
    names = collections.defaultdict(set)
    for path in files_below(os.path.join(CRATES, LIBRARY, "src"), ".rt"):
        for crate, rest in re.findall(r"pub use (?:nts_\w+::)*?(nts_\w+)::(?!nts_)([^;]+);", read(path)):
            items = braces(rest, rest.index("{")).split(",") if "{" in rest else [rest]
            names[crate] |= {item.split(" as ")[0].strip().split("::")[-1] for item in items if item.strip()}
    return names


def clause_words(words, crate, wanted):
    """What clauses of a crate name, of the functions for which `wanted` says so: for each call the definitions."""
    for path in files_below(os.path.join(CRATES, crate, "src"), ".rt"):
        source = read(path)
        imports = imports_of(source)
        for owner, public, name, clauses in functions(source):
            named = set()
            for label, text in clauses:
                if wanted(owner, public, name, label):
                    named |= set(words.named_in(text, imports))
            yield named | words.promised(named)


def public_words(words):
    """What stands in the clauses of functions that the library hands on, with the number of these functions."""
    calls = collections.Counter()
    for crate, names in exported().items():
        for named in clause_words(words, crate, lambda owner, public, name, _: public and (owner or name) in names):
            calls.update(named)
    return calls


def theorem_words(words, labels):
    """What the clauses of the theorem's call name: those with these labels, or all."""
    crate, call, _ = THEOREM
    return set().union(*clause_words(words, crate, lambda owner, _, name, label: name == call and (not labels or label in labels)))


def place(room):
    crate, _, inner = room[len("Rattle.") :].partition(".specs.")
    return f"{crate}/{inner.split('.')[-1]}"


def rows(words):
    """The words of the page: those of the clauses of several calls, those of the theorem's call, and the facts and the values, that is
    the words with a capital letter, of which the theorem is made."""
    several = {key for key, calls in public_words(words).items() if calls >= SEVERAL}
    made = {key for key in words.made_of(theorem_words(words, THEOREM[2])) if key[1][0].isupper()}
    for room, word in sorted(several | theorem_words(words, ()) | made, key=lambda key: (key[1].lower(), key)):
        yield word, place(room), words.rooms[room].comment[word], words.rooms[room].path


def page(words):
    lines = [
        "# Glossary",
        "",
        "The words of the contracts of the library's calls, and those of which [the theorem](THEOREM.md) is made. Printed by",
        "`tools/glossary.py`: behind each word stand its crate and its room, and then the comment above its definition.",
        "",
    ]
    for word, room, comment, _ in rows(words):
        lines += textwrap.wrap(f"- `{word}` {room}: {comment}", 116, subsequent_indent="  ", break_on_hyphens=False)
    return "\n".join(lines) + "\n"


def count(words, title, roots):
    lines, made = collections.Counter(), words.made_of(roots)
    for room, word in made:
        lines[room] += len(words.rooms[room].lines[word])
    print(f"{title}: {len(made)} definitions in {len(lines)} files, {lines.total()} lines;", end=" ")
    print("most in", ", ".join(f"{room.split('.')[-1]} {n}" for room, n in lines.most_common(8)))


def trusted(words):
    call, labels = THEOREM[1:]
    proved = theorem_words(words, labels[:1])
    laws = {(room, LAWS) for room in words.rooms if LAWS in words.rooms[room].lines}
    count(words, f"{labels[0]} of {call}", proved)
    count(words, ".. with the laws of a handler", proved | laws)
    count(words, f"{' and '.join(labels)}", theorem_words(words, labels))
    count(words, f"{' and '.join(COHERENCE)}", theorem_words(words, COHERENCE))
    count(words, f"all clauses of {call}", theorem_words(words, ()))


def main(arguments):
    words = Words()
    if arguments == ["--bare"]:
        for word, room, comment, path in rows(words):
            if not comment or comment.startswith(".."):
                print(f"{os.path.relpath(path, TOP)}: {word}: {comment}")
    elif arguments == ["--trusted"]:
        trusted(words)
    elif arguments == ["--check"]:
        if read(PAGE) != page(words):
            sys.exit("docs/GLOSSARY.md is not what tools/glossary.py prints")
    else:
        print(page(words), end="")


if __name__ == "__main__":
    main(sys.argv[1:])

#!/usr/bin/env python3
r"""Compares what `nts` prints, and its exit status, with what it should: for each program NAME.nts of this folder, with
NAME.out beside it, for the cases of cases/*.cases, and for a few long ones that are made here. Likewise what `nts_why` prints
for the cases of cases/why.

The proved programs are run where they are built (the gate leaves them). Else `nts` is built without proof, and `nts_why` is left
out.

A file has the cases of one topic, with comments between them:

    # Goals of one trait.
    == a type that has no impl
    trait T(type)
    goal T(u32)
    --
    no

That is a name, the text, `--`, and what is printed. Below the name may stand, each on a line of its own: `status 2`,
where a run ends with a status other than 0; `escapes`, where the text has \r, \t or \x80 for such bytes; and
`no line feed at the end`. In the text may stand `each:`, and then each line below it is a case of its own, behind the
lines above it.
"""
import collections
import difflib
import glob
import os
import re
import subprocess
import sys
import tempfile

HERE = os.path.dirname(os.path.abspath(__file__))
CRATE = os.path.join(HERE, "..", "crates", "nts")
PROGRAM = os.path.join(CRATE, "out", "nts")
WHY = os.path.join(HERE, "..", "crates", "nts_why", "out", "nts_why")
OPTIONS = re.compile(r"((status \d+|escapes|no line feed at the end)\n)*")

Case = collections.namedtuple("Case", "name text output status")


def texts_of(name, text):
    """The name and the text of each case that a text stands for."""
    before, *each = re.split(r"^each:\n", text, flags=re.M)
    if not each:
        return [(name, text)]
    return [(f"{name}: {line.strip()}", before + line) for line in each[0].splitlines(keepends=True)]


def bytes_of(text, options):
    if "no line feed" in options:
        text = text.removesuffix("\n")
    if "escapes" in options:
        return text.encode("ascii").decode("unicode_escape").encode("latin-1")
    return text.encode()


def cases_of_block(block):
    """The cases from one name to the next."""
    name, below = block.split("\n", 1)
    text, found, output = re.fullmatch(r"(.*?)(^--\n)(.*)", below, flags=re.M | re.S).groups()
    options = OPTIONS.match(text).group()
    status = re.search(r"status (\d+)", options)
    status = int(status.group(1)) if status else 0
    output = "".join(line for line in output.splitlines(keepends=True) if line.strip() and not line.startswith("#"))
    for name, text in texts_of(name, text[len(options):]):
        yield Case(name, bytes_of(text, options), output.encode(), status)


def programs():
    """The programs of this folder, each with its answers beside it."""
    for path in sorted(glob.glob(os.path.join(HERE, "*.nts"))):
        with open(path, "rb") as text, open(path.removesuffix(".nts") + ".out", "rb") as printed:
            output = printed.read()
            # A line that is refused is the last one that a run reads.
            status = 2 if re.search(rb"^line \d+: .*\n\Z", output, re.M) else 0
            yield Case(os.path.basename(path), text.read(), output, status)


def written_cases(*folder):
    for path in sorted(glob.glob(os.path.join(HERE, "cases", *folder, "*.cases"))):
        topic = os.path.basename(path)
        with open(path, encoding="utf-8") as file:
            for block in re.split(r"^== ", file.read(), flags=re.M)[1:]:
                try:
                    yield from (case._replace(name=f"{topic}: {case.name}") for case in cases_of_block(block))
                except (AttributeError, ValueError):
                    sys.exit(f"cases: {topic}: this is no case: {block}")


def long_cases():
    """Texts that are too long to be written out: a name, the lines, and the lines that are printed."""
    deep = "W(" * 50_000 + "u8" + ")" * 50_000
    rules = ["trait T(type)", "type W(type)", "impl T(?X)", "trait Pair(type, type)", "impl Pair(?X, ?X)"]
    yield "a type in 50,000 types", [*rules, f"goal T({deep})", f"goal Pair(?x, {deep})"], ["yes", "yes", f"  ?x = {deep}"]

    facts = [line for i in range(999) for line in (f"type C{i}", f"impl T(C{i})")]
    goals = ["type Last", "impl T(Last)", "goal T(Last)", "goal T(C0)", "goal T(u8)"]
    yield "one of a thousand impls", ["trait T(type)", *facts, *goals], ["yes", "yes", "no"]

    rules = ["trait Y(type)", "trait N(type)", "trait G(type)", "impl Y(u8)", "impl Y(u16)"]
    for last, answer in (("Y(u16)", "yes"), ("N(u8)", "no"), ("Y(?A)", "maybe ambiguity")):
        rule = "impl G(u8) <- " + "Y(u8), " * 999 + last
        yield f"a thousand conditions, and the last is {last}", [*rules, rule, "goal G(u8)"], [answer]

    # Each goal has as many candidates as the chain is long, of which one fits.
    chain = [line for i in range(100) for line in (f"type C{i + 1}", f"impl T(C{i + 1}) <- T(C{i})")]
    rules = ["trait T(type)", "type C0", "impl T(C0)", *chain]
    yield "a chain of a hundred impls", [*rules, "depth 65535", "goal T(C100)"], ["yes"]

    # The tree of such a goal is a hundred high.
    rules = ["trait Clone(type)", "type Vec(type)", "impl Clone(u32)", "impl Clone(Vec(?T)) <- Clone(?T)"]
    goals = [f"goal Clone({'Vec(' * 100}{of}{')' * 100})" for of in ("u32", "u8")]
    depths = [line for depth in (101, 100, 99) for line in (f"depth {depth}", *goals)]
    answers = ["yes", "no", "yes", "no", "maybe overflow", "maybe overflow"]
    yield "a goal of height 100, at a depth above it, at it, and below", [*rules, *depths], answers


def cut_cases():
    """A text that is cut after each of its bytes: up to its last bracket it is refused in one line, or says nothing."""
    lines = ["trait T(type)", "type W(type)", "impl T(u32)", "impl T(W(?A)) <- T(?A)", "goal T(W(u32))"]
    text = bytes_of_lines(lines)
    for end in range(len(text) + 1):
        yield text[:end], end >= len(text) - 1


def faults_of_cut(text, is_whole):
    run = subprocess.run([PROGRAM], input=text, stdout=subprocess.PIPE, timeout=60)
    if is_whole:
        is_right = (run.returncode, run.stdout) == (0, b"yes\n")
    elif run.returncode == 0:
        is_right = run.stdout == b""
    else:
        is_right = run.returncode == 2 and re.fullmatch(rb"line \d+: .+\n", run.stdout)
    return [] if is_right else [f"status {run.returncode}, {run.stdout}"]


def bytes_of_lines(lines):
    return "".join(f"{line}\n" for line in lines).encode()


def all_cases():
    yield from programs()
    yield from written_cases()
    for name, lines, printed in long_cases():
        yield Case(f"long: {name}", bytes_of_lines(lines), bytes_of_lines(printed), 0)


def shown(output):
    """The lines of an output, each as far as a reader looks."""
    return [line[:200] for line in output.decode(errors="backslashreplace").split("\n")]


def faults_proved(case, program=PROGRAM):
    """What is wrong with what a proved program does."""
    try:
        run = subprocess.run([program], input=case.text, stdout=subprocess.PIPE, timeout=60)
    except subprocess.TimeoutExpired:
        return ["it does not end in a minute"]
    faults = []
    if run.returncode != case.status:
        faults.append(f"status {run.returncode} in place of {case.status}")
    if run.stdout != case.output:
        faults += ["other output", *difflib.ndiff(shown(case.output), shown(run.stdout))]
    return faults


def faults_unproved(cases):
    """What is wrong with what a program does that is built without proof, by case."""
    with tempfile.TemporaryDirectory() as folder:
        for i, case in enumerate(cases):
            for ending, content in (("", case.text), (".stdout", case.output)):
                with open(os.path.join(folder, f"case{i}{ending}"), "wb") as file:
                    file.write(content)
        command = ["rt", "try", "--seconds", "600", "--cases", folder]
        run = subprocess.run(command, cwd=CRATE, stdout=subprocess.PIPE, stderr=subprocess.STDOUT)
    log = run.stdout.decode(errors="backslashreplace")
    ends = re.findall(r"^case=case(\d+) .*\bstatus=(\d+) .*\boutput=(\w+)", log, re.M)
    found = {int(i): [f"status {status}, output {output}"] for i, status, output in ends}
    right = [[f"status {case.status}, output expected"] for case in cases]
    faults = [[] if found.get(i) == right[i] else found.get(i, ["it does not end"]) for i in range(len(cases))]
    if any(faults):
        print(log)
    return faults


def main():
    cases = list(all_cases())
    if os.access(PROGRAM, os.X_OK):
        faults = [faults_proved(case) for case in cases]
        for text, is_whole in cut_cases():
            cases.append(Case(f"cut: {text}", text, b"", 0))
            faults.append(faults_of_cut(text, is_whole))
        if os.access(WHY, os.X_OK):
            told = list(written_cases("why"))
            cases += told
            faults += [faults_proved(case, WHY) for case in told]
    else:
        print("cases: the proved program is not built, so one that is built without proof is run")
        faults = faults_unproved(cases)
    for case, found in zip(cases, faults):
        if found:
            print("\n    ".join([case.name, *found]))
    wrong = sum(map(bool, faults))
    print(f"cases: {wrong} of {len(cases)} are wrong" if wrong else f"cases: {len(cases)} print what they should")
    sys.exit(1 if wrong else 0)


if __name__ == "__main__":
    main()

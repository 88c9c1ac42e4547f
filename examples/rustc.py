#!/usr/bin/env python3
"""Compares answers of `nts` with what rustc's next trait solver says: for each program of rustc/, whose lines `//| ` are the same
question in the language of `nts`. rustc takes a program where `nts` answers yes, and refuses it for what does not hold, for what is
not known, or for an overflow.

PROGRAM is the proved `nts`, that of this folder's crate where none is given. rustc's solver is one of its unstable options, which
RUSTC_BOOTSTRAP allows.
"""
import glob
import os
import re
import subprocess
import sys
import tempfile

HERE = os.path.dirname(os.path.abspath(__file__))
PROGRAM = os.environ.get("PROGRAM", os.path.join(HERE, "..", "crates", "nts", "out", "nts"))
CODES = {
    "E0271": "no",
    "E0277": "no",
    "E0282": "maybe ambiguity",
    "E0283": "maybe ambiguity",
    "E0284": "maybe ambiguity",
    "E0275": "maybe overflow",
}


def answer_of_rustc(path, folder):
    command = ["rustc", "--edition", "2021", "--emit", "metadata", "--out-dir", folder, "-Znext-solver=globally", path]
    run = subprocess.run(command, env={**os.environ, "RUSTC_BOOTSTRAP": "1"}, stderr=subprocess.PIPE, text=True)
    if run.returncode == 0:
        return "yes"
    codes = re.findall(r"^error\[(E\d+)\]", run.stderr, re.M)
    answers = {CODES.get(code, f"another error, {code}") for code in codes}
    return answers.pop() if len(answers) == 1 else f"these errors: {sorted(answers)}, {run.stderr}"


def answer_of_nts(text):
    run = subprocess.run([PROGRAM], input=text, stdout=subprocess.PIPE, text=True)
    return run.stdout.split("\n")[0]


def main():
    wrong = 0
    with tempfile.TemporaryDirectory() as folder:
        for path in sorted(glob.glob(os.path.join(HERE, "rustc", "*.rs"))):
            with open(path, encoding="utf-8") as file:
                text = "".join(re.findall(r"^//\| (.*\n)", file.read(), re.M))
            ours, theirs = answer_of_nts(text), answer_of_rustc(path, folder)
            wrong += ours != theirs
            name = os.path.basename(path).removesuffix(".rs").replace("_", " ")
            print(f"{name}: {ours}" if ours == theirs else f"{name}: {ours}, but rustc says {theirs}")
    print(f"rustc: {wrong} differ")
    sys.exit(1 if wrong else 0)


if __name__ == "__main__":
    main()

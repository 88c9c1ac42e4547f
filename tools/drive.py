#!/usr/bin/env python3
"""Checks crates in the order of crates.txt, a few at a time, and keeps what was checked: after an edit only what it
touches is checked again. It is for work on proofs; the verdict is the gate's.

    tools/drive.py [--workers N] [--jobs N] [--tests] [CRATE..]

Without names it takes all crates. A crate whose files, and those of the libraries that it uses, are as they were when it
was last proved here is passed over. What it checks with stands in each crate's folder out/, and so does the log."""
import argparse, hashlib, os, shutil, subprocess, sys, time
from concurrent.futures import FIRST_COMPLETED, ThreadPoolExecutor, wait

ROOT = os.path.dirname(os.path.dirname(os.path.abspath(__file__)))
KIT = os.path.dirname(os.path.dirname(os.path.realpath(shutil.which("rt") or sys.exit("rt is not on the path"))))


def read_crates():
    uses = {}
    for line in open(f"{ROOT}/crates.txt"):
        if line.strip() and not line.startswith("#"):
            name, rest = line.split(":", 1)
            uses[name.split()[0]] = rest.split()
    return uses


USES = read_crates()
stamps = {}


def folder(crate):
    return f"{ROOT}/crates/{crate}"


def below(crate):
    """All crates of the repository that a crate rests on."""
    found, left = set(), list(USES[crate])
    while left:
        one = left.pop()
        if one in USES and one not in found:
            found.add(one)
            left += USES[one]
    return sorted(found)


def stamp_of(crate):
    """Says of which files, and of which libraries below, a check was."""
    h = hashlib.sha256(" ".join(USES[crate]).encode())
    for room in ("src", "specs", "proofs"):
        for path, _, files in sorted(os.walk(f"{folder(crate)}/{room}")):
            for name in sorted(files):
                file = os.path.join(path, name)
                h.update(os.path.relpath(file, ROOT).encode() + open(file, "rb").read())
    for one in USES[crate]:
        h.update(stamps.get(one, "").encode())
    return h.hexdigest()


def words(crate):
    main = "src/main.rt" if os.path.exists(f"{folder(crate)}/src/main.rt") else "src/lib.rt"
    found = ["--crate-name", crate, main, "--extern", f"std={KIT}/rlibs/std.rlib", "-L", f"dependency={KIT}/rlibs"]
    for one in USES[crate]:
        at = f"{folder(one)}/out/rlib" if one in USES else f"{KIT}/rlibs"
        found += ["--extern", f"{one}={at}/{one}.rlib"]
    for one in below(crate):
        found += ["-L", f"dependency={folder(one)}/out/rlib"]
    found += ["--antt-project", f"{KIT}/rattle/logic/antt-project.json", "--logic-built", f"{KIT}/logic_built"]
    return main, found + ["--links", f"{crate}=", "--incremental", "out/incremental"]


def has_tests(crate):
    files = (os.path.join(path, name) for path, _, names in os.walk(f"{folder(crate)}/src") for name in names)
    return any("#[test]" in open(file).read() for file in files)


def run(crate, args):
    began, out = time.time(), f"{folder(crate)}/out"
    os.makedirs(f"{out}/rlib", exist_ok=True)
    tested = args.tests and has_tests(crate)
    stamps[crate] = stamp_of(crate)
    mark = stamps[crate] + (" tests" if tested else "")
    seen = open(f"{out}/stamp").read() if os.path.exists(f"{out}/stamp") else ""
    if seen.startswith(mark):
        return True, None
    main, options = words(crate)
    call = lambda what, log: subprocess.run([f"{KIT}/bin/rattle", *what], cwd=folder(crate), stdout=log, stderr=log)
    with open(f"{out}/log", "w") as log:
        call(["check", *(["--test"] if tested else []), *options, "--jobs", args.jobs], log)
    proved = "logic=proved" in open(f"{out}/log").read()
    if proved and main == "src/lib.rt":
        with open(f"{out}/log", "a") as log:
            proved = call(["build", *options, "--jobs", "1", "-o", f"out/rlib/{crate}.rlib"], log).returncode == 0
    if proved:
        open(f"{out}/stamp", "w").write(mark)
    return proved, f"{crate}: {'proved' if proved else 'NOT PROVED, see ' + out + '/log'} ({time.time() - began:.0f} s)"


def main():
    parser = argparse.ArgumentParser(description=__doc__, formatter_class=argparse.RawDescriptionHelpFormatter)
    parser.add_argument("--workers", type=int, default=4, help="crates at a time")
    parser.add_argument("--jobs", default="2", help="jobs of a check")
    parser.add_argument("--tests", action="store_true", help="prove the tests too")
    parser.add_argument("crates", nargs="*")
    args = parser.parse_args()
    left = [c for c in USES if not args.crates or c in args.crates]
    for crate in USES:
        if crate not in left:
            stamps[crate] = stamp_of(crate)
    done, running = {c: True for c in USES if c not in left}, {}
    with ThreadPoolExecutor(args.workers) as pool:
        while left or running:
            for crate in list(left):
                known = [done.get(one) for one in USES[crate] if one in USES]
                if len(running) < args.workers and None not in known:
                    left.remove(crate)
                    if all(known):
                        running[pool.submit(run, crate, args)] = crate
                    else:
                        done[crate] = False
            for task in wait(running, return_when=FIRST_COMPLETED).done if running else []:
                done[running.pop(task)], said = task.result()
                if said:
                    print(said, flush=True)
    failed = [c for c in USES if not done[c]]
    print("all proved" if not failed else f"not proved: {' '.join(failed)}")
    sys.exit(1 if failed else 0)


if __name__ == "__main__":
    main()

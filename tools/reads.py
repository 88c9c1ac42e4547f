#!/usr/bin/env python3
"""How many files the gate reads for its sums, and which crates cost most of that.

Before and after each library the gate sums up the files of the crate and, along the lines of crates.txt, those of each library
that it names, again for each way down. So a crate costs its own files and what each crate of its line costs: that doubles
with each layer that names all below it. What a crate takes through another one (`pub use`) stands in no line."""
import os

TOP = os.path.join(os.path.dirname(os.path.abspath(__file__)), "..")


def lines():
    with open(f"{TOP}/crates.txt", encoding="utf-8") as f:
        for line in f:
            head, _, uses = line.partition("#")[0].strip().partition(":")
            if head:
                yield head.split(), uses.split()


def files_of(crate):
    folder = f"{TOP}/crates/{crate}"
    return sum(len(names) for part in ("src", "specs", "proofs") for _, _, names in os.walk(f"{folder}/{part}"))


def main():
    reads, summed = {}, {}
    for (crate, *kind), uses in lines():
        reads[crate] = files_of(crate) + sum(reads.get(one, 0) for one in uses)
        if "staticlib" not in kind and not os.path.exists(f"{TOP}/crates/{crate}/src/main.rt"):
            summed[crate] = 2 * reads[crate]
    for crate in sorted(summed, key=lambda one: -summed[one])[:12]:
        print(f"{summed[crate]:10,} {crate}")
    print(f"{sum(summed.values()):10,} in all")


if __name__ == "__main__":
    main()

#!/usr/bin/env bash
# Tries the wrong bodies of crates/NAME/wrong-bodies/, of the crates that are named or of all, as the gate tries those of must-fail/.
# The gate leaves these out for their time. It works on a copy of what is committed, and proves the libraries below first.
# The last line says whether all were refused.
set -eu
cd "$(dirname "$0")/.."
work=$(mktemp -d)
trap 'rm -rf "$work"' EXIT
git clone -q . "$work/tree"
cd "$work/tree"
names=("$@")
if [ $# = 0 ]; then
    for folder in crates/*/wrong-bodies; do
        names+=("$(basename "$(dirname "$folder")")")
    done
fi
for name in "${names[@]}"; do
    mkdir -p "crates/$name/must-fail"
    cp "crates/$name"/wrong-bodies/*.edit "crates/$name/must-fail/"
done
if rt must-fail "${names[@]}"; then
    echo "all refused: ${names[*]}"
else
    echo "some were let through, or do not fit the text"
    exit 1
fi

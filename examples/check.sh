#!/usr/bin/env bash
# Compares the library example of README.md with the crate that it is quoted from. Then cases.py runs the programs of this folder
# and the short texts of cases/. Where the proved program is built (the gate leaves it), it runs these, its answers on random programs
# are compared with what a plain search finds (against.py), and it is used by hand: each answer comes before the next line is sent,
# and a run whose output can't be written fails.
set -u
here=$(cd "$(dirname "$0")" && pwd)
quoted=$(sed -n '/^```rust$/,/^```$/p' "$here/../README.md" | sed '1d;$d')
example=$(cat "$here/../crates/nts_uses/src/clone.rt")
if [ -z "$quoted" ] || [ "${example#*"$quoted"}" = "$example" ]; then
    echo "README: its example is not that of crates/nts_uses/src/clone.rt"
    exit 1
fi
echo "README: quotes the example as it is"
cd "$here/../crates/nts" || exit 1
python3 "$here/cases.py" || exit 1

by_hand() {
    coproc nts { "$here/../crates/nts/out/nts"; }
    local to=${nts[1]} from=${nts[0]} first='' second=''
    printf 'trait Clone(type)\nimpl Clone(u8)\ngoal Clone(u8)\n' >&"$to"
    read -r -t 60 first <&"$from"
    printf 'goal Clone(u32)\n' >&"$to"
    read -r -t 60 second <&"$from"
    exec {to}>&-
    [ "$first $second" = 'yes no' ]
}
if [ ! -x out/nts ]; then
    echo "examples: the proved program is not built, so it was not used by hand, nor on random programs"
    exit 0
fi
python3 "$here/against.py" --programs 100 || exit 1
if by_hand; then
    echo "examples: each answer comes before the next line is sent"
else
    echo "examples: an answer waits for the next line"
    exit 1
fi
for name in nts nts_why; do
    cd "$here/../crates/$name" || exit 1
    [ -x "out/$name" ] || continue
    "out/$name" < stdin > /dev/full
    if [ $? != 1 ]; then
        echo "examples: $name does not say by its status that nothing could be written"
        exit 1
    fi
done
echo "examples: a run whose output can't be written fails"

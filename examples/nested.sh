#!/usr/bin/env bash
# How deep goals may be nested on the machine's stack (`ulimit -s`). It proves and builds the program, and then looks for the
# deepest goal of the form Clone(Vec(..Vec(u32)..)) that is answered.
set -u
here=$(cd "$(dirname "$0")" && pwd)
cd "$here/../crates/nts" || exit 1
program=${1:-out/nts}
[ -x "$program" ] || rt run < stdin > /dev/null || exit 1
work=$(mktemp -d)
trap 'rm -r "$work"' EXIT
answers() {
    {
        printf 'trait Clone(type)\ntype Vec(type)\nimpl Clone(u32)\nimpl Clone(Vec(?T)) <- Clone(?T)\ndepth 65535\ngoal Clone('
        yes 'Vec(' | head -n "$1" | tr -d '\n'
        printf u32
        yes ')' | head -n "$1" | tr -d '\n'
        printf ')\n'
    } > "$work/program"
    [ "$("$program" < "$work/program" 2> /dev/null)" = yes ]
} 2> /dev/null
low=0
high=65000
while [ $((high - low)) -gt 1 ]; do
    middle=$(((low + high) / 2))
    if answers "$middle"; then low=$middle; else high=$middle; fi
done
stack=$(ulimit -s)
if [ "$stack" = unlimited ]; then
    echo "no limit on the stack: goals nested $low deep are answered"
else
    echo "on a stack of $stack kB goals nested $low deep are answered: $((stack * 1024 / low)) bytes a goal"
fi

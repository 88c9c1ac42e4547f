#!/usr/bin/env bash
# Runs programs of this folder, all or those that are named, with one allocation refused in each run: the first, the
# second, the fourth and so on, up to the last. Such a run must end with status 3, and what it printed must be a
# beginning of NAME.out. A run that has fewer allocations must print NAME.out and end with its own status.
#
# Each run is compiled anew, so a program takes minutes.
set -u
here=$(cd "$(dirname "$0")" && pwd)
rt=${RT:-rt}
cd "$here/../crates/nts" || exit 1
work=$(mktemp -d)
trap 'rm -r "$work"' EXIT
failed=0
say() {
    echo "sweep: $1"
    failed=1
}
[ $# -gt 0 ] || set -- "$here"/*.nts
for program in "$@"; do
    program="$here/$(basename "$program" .nts).nts"
    name=$(basename "$program" .nts)
    wanted="${program%.nts}.out"
    n=1
    while [ "$n" -le 1048576 ]; do
        "$rt" try --fail-alloc "$n" < "$program" > "$work/got" 2> "$work/log"
        status=$?
        if [ "$status" != 3 ]; then
            cmp -s "$work/got" "$wanted" || say "$name: status $status and other output where allocation $n is refused"
            break
        fi
        head -c "$(wc -c < "$work/got")" "$wanted" | cmp -s - "$work/got" || say "$name: wrong output where allocation $n is refused"
        n=$((n * 2))
    done
    echo "$name: looked at each power of two below $n"
done
[ "$failed" = 0 ] && echo "sweep: no wrong answer"
exit "$failed"

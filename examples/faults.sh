#!/usr/bin/env bash
# Runs each row of crates/nts_faults, or those that are named, with each allocation refused in turn, over one build: a
# call that is refused memory must leave the content of its table as it was.
#
# `rt run` proves and builds the program, unless PROGRAM names one that is built. Each run gets a malloc and a realloc of
# which the Nth call is refused, and in a second round the one after it too, by a few lines of C that are loaded before
# it: so this needs a C compiler ($CC, or cc). Such a run must end with status 3, and print nothing or `NAME: memory, as
# before`; or it goes on, where a list that is refused room to spare asks for just what it needs, and ends as a run does in
# which nothing is refused: with status 0 and `NAME: done` or `NAME: no, as before`. The first run with fewer allocations
# than N must end so.
set -u
here=$(cd "$(dirname "$0")" && pwd)
rt=${RT:-rt}
cd "$here/../crates/nts_faults" || exit 1
work=$(mktemp -d)
trap 'rm -r "$work"' EXIT
cat > "$work/refuse.c" <<'C'
#include <stddef.h>
#include <stdlib.h>
#include <unistd.h>
extern void *__libc_malloc(size_t);
extern void *__libc_realloc(void *, size_t);
static long count, refused = -1, wide = 1;
static int refuses(void) {
    if (refused < 0) {
        const char *wanted = getenv("REFUSED");
        refused = wanted ? atol(wanted) : 0;
        wanted = getenv("WIDE");
        wide = wanted ? atol(wanted) : 1;
    }
    if (refused == 0 || ++count < refused || count >= refused + wide)
        return 0;
    /* tells the script that the allocation was reached */
    return write(9, "x", 1) != 0;
}
void *malloc(size_t size) { return refuses() ? NULL : __libc_malloc(size); }
void *realloc(void *old, size_t size) { return refuses() ? NULL : __libc_realloc(old, size); }
C
"${CC:-cc}" -O1 -shared -fPIC -o "$work/refuse.so" "$work/refuse.c" || exit 1
program=${PROGRAM:-}
if [ -z "$program" ]; then
    "$rt" run < stdin > "$work/got" 2> "$work/log" && cmp -s "$work/got" stdout || {
        cat "$work/log"
        echo "faults: the program does not run"
        exit 1
    }
    program=out/nts_faults
fi
failed=0
say() {
    echo "faults: $1"
    failed=1
}
[ $# -gt 0 ] || set -- fact condition refused outlives relate equate canonicalize instantiate apply open hide context
# Runs a row, with so many allocations refused from that one on.
run() {
    : > "$work/reached"
    echo "$row" | timeout 60 env REFUSED="$1" WIDE="$2" LD_PRELOAD="$work/refuse.so" "$program" > "$work/got" 9> "$work/reached"
    status=$?
    got=$(cat "$work/got")
    [ -s "$work/reached" ]
}
for row in "$@"; do
    wanted="$row: done"
    [ "$row" = refused ] && wanted="refused: no, as before"
    n=0
    inside=0
    on=0
    while n=$((n + 1)) && run "$n" 1; do
        for wide in 1 2; do
            [ "$wide" = 1 ] || run "$n" 2
            case "$status $got" in
                "3 $row: memory, as before") [ "$wide" = 2 ] || inside=$((inside + 1)) ;;
                "3 ") ;;
                "0 $wanted") [ "$wide" = 2 ] || on=$((on + 1)) ;;
                *) say "$row: status $status where $wide from allocation $n on are refused: $got" ;;
            esac
        done
    done
    [ "$status $got" = "0 $wanted" ] || say "$row: status $status where nothing is refused: $got"
    [ "$inside" -gt 0 ] || say "$row: its call is never refused memory"
    echo "$row: $((n - 1)) allocations, each refused: the call answers so at $inside, the run goes on with less at $on"
done
[ "$failed" = 0 ] && echo "faults: the table is always as before"
exit "$failed"

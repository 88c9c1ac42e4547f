#!/usr/bin/env bash
# The time that the proved program (or the one that is named) takes for goals, as a ratio of that of SWI-Prolog for the same goals, each
# in one run: goals that it reads and answers one by one at its prompt, as `nts` does, and goals that a loop of its own reads, calls
# and answers. No test depends on what it prints.
set -u
here=$(cd "$(dirname "$0")" && pwd)
cd "$here/../crates/nts" || exit 1
program=${1:-out/nts}
[ -x "$program" ] || rt run < stdin > /dev/null || exit 1
command -v swipl > /dev/null || { echo "prolog: there is no swipl here"; exit 1; }
work=$(mktemp -d)
trap 'rm -r "$work"' EXIT
times() { yes "$2" | head -n "$1" | tr -d '\n'; }
printf 'clone(u32).\nclone(vec(T)) :- clone(T).\n' > "$work/rules.pl"
cat > "$work/loop.pl" << 'PL'
:- initialization((answer, halt)).
answer :- read_term(T, []), ( T == end_of_file -> true ; ( call(T) -> write(yes) ; write(no) ), nl, answer ).
PL
clone='trait Clone(type)\ntype Vec(type)\nimpl Clone(u32)\nimpl Clone(Vec(?T)) <- Clone(?T)\n'
# n goals of three levels, and one goal of n levels.
goals() { printf "$clone" > "$work/nts"; yes 'goal Clone(Vec(Vec(u32)))' | head -n "$1" >> "$work/nts"; yes 'clone(vec(vec(u32))).' | head -n "$1" > "$work/pl"; }
nested() { { printf "$clone"'depth 65535\ngoal Clone('; times "$1" 'Vec('; printf u32; times "$1" ')'; printf ')\n'; } > "$work/nts"; { printf 'clone('; times "$1" 'vec('; printf u32; times "$1" ')'; printf ').\n'; } > "$work/pl"; }
# Nanoseconds of a run.
took() { local from; from=$(date +%s%N); "$@" > "$work/out" 2>&1; echo $(($(date +%s%N) - from)); }
ours() { "$program" < "$work/nts"; }
prompt() { swipl -q -f "$work/rules.pl" < "$work/pl"; }
loop() { swipl -q -l "$work/rules.pl" "$work/loop.pl" < "$work/pl"; }
for workload in "goals 10000" "nested 2000"; do
    $workload
    a=$(took ours) && b=$(took prompt) && c=$(took loop)
    printf '%-12s %d.%02d of the time of the prompt, %d.%02d of that of the loop\n' "$workload" $((a / b)) $((a * 100 / b % 100)) $((a / c)) $((a * 100 / c % 100))
done

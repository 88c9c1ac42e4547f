#!/usr/bin/env bash
# What goals cost: instructions of the proved program (or of the one that is named), counted by valgrind, so that no run
# depends on time. For each workload of n parts it prints what a part costs, and how often as much 2n parts cost as n do:
# 2 is linear.
set -u
here=$(cd "$(dirname "$0")" && pwd)
cd "$here/../crates/nts" || exit 1
program=${1:-out/nts}
[ -x "$program" ] || rt run < stdin > /dev/null || exit 1
command -v valgrind > /dev/null || { echo "costs: there is no valgrind here"; exit 1; }
work=$(mktemp -d)
trap 'rm -r "$work"' EXIT
times() { yes "$2" | head -n "$1" | tr -d '\n'; }
clone='trait Clone(type)\ntype Vec(type)\nimpl Clone(u32)\nimpl Clone(Vec(?T)) <- Clone(?T)\n'
# A goal that is nested n deep.
nested() { printf "$clone"'depth 65535\ngoal Clone('; times "$1" 'Vec('; printf u32; times "$1" ')'; printf ')\n'; }
# n goals of three levels.
goals() { printf "$clone"; yes 'goal Clone(Vec(Vec(u32)))' | head -n "$1"; }
# n types, each with an impl, and one goal.
facts() { printf 'trait T(type)\n'; for ((i = 0; i < $1; i++)); do printf 'type A%d\nimpl T(A%d)\n' "$i" "$i"; done; printf 'goal T(A0)\n'; }
# An impl with n conditions.
wide() { printf 'trait C(type)\nimpl C(u8)\ntrait W(type)\nimpl W(?T) <- C(?T)'; times $(($1 - 1)) ', C(?T)'; printf '\ngoal W(u8)\n'; }
# n traits, each of which holds by the one before.
chain() { printf 'trait C0(type)\nimpl C0(?T)\n'; for ((i = 1; i <= $1; i++)); do printf 'trait C%d(type)\nimpl C%d(?T) <- C%d(?T)\n' "$i" "$i" $((i - 1)); done; printf 'depth 65535\ngoal C%d(u8)\n' "$1"; }
# An alias that is another one, and so on, n times.
aliased() { printf 'trait T(type)\nimpl T(u8)\nalias A0\nnorm A0 = u8\n'; for ((i = 1; i <= $1; i++)); do printf 'alias A%d\nnorm A%d = A%d\n' "$i" "$i" $((i - 1)); done; printf 'depth 65535\ngoal T(A%d)\n' "$1"; }
# A type with n aliases side by side.
beside() { printf 'trait Same(type, type)\nimpl Same(?T, ?T)\nalias A\nnorm A = u8\ntype L(type'; times $(($1 - 1)) ', type'; printf ')\ngoal Same(L(A'; times $(($1 - 1)) ', A'; printf '), L(u8'; times $(($1 - 1)) ', u8'; printf '))\n'; }
count() {
    "$1" "$2" > "$work/program"
    valgrind --tool=callgrind --callgrind-out-file=/dev/null "$program" < "$work/program" 2> "$work/log" | tail -n 1 > "$work/last"
    [ "$(cat "$work/last")" = yes ] || { echo "costs: $1 of $2 is not answered yes" >&2; return 1; }
    sed -n 's/.*Collected *: *//p' "$work/log"
}
for workload in nested goals facts wide chain aliased beside; do
    n=2000
    # Each alias nests two goals, and the machine's stack is not to run out.
    [ $workload = aliased ] && n=500
    once=$(count $workload $n) && twice=$(count $workload $((2 * n))) || exit 1
    part=$(((twice - once) / n))
    printf '%-7s %6d instructions a part, and twice the parts cost %d.%02d times as much\n' "$workload" "$part" $((twice / once)) $((twice * 100 / once % 100))
done

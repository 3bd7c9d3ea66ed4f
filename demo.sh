#!/bin/sh
# Proves and builds `check` into target/programs, and checks nine records on seven cabinets: with a figure that is one too high, then
# with their own. With the argument `plan` it proves and builds `plan` too and plans these records first, with `all` every program.
cd "$(dirname "$0")" || exit 2
case ${1:-check} in
check) names=check ;;
plan) names='check plan' ;;
all) names='check plan pack table rows listing curve worst page ask commit operator certify join rounds replay' ;;
*)
    echo "usage: ./demo.sh [plan | all]"
    exit 2
    ;;
esac
.ci/build $(for name in $names; do echo "${name}_main"; done) || exit 1
nine=crates/check_main/stdin
if [ -n "$1" ]; then
    nine=target/nine.placement
    target/programs/plan <crates/plan_main/stdin >$nine
fi
echo "with 6 for the figure, the number at place 7:"
{ head -c 7 $nine; printf '\6'; tail -c +9 $nine; } | target/programs/check
echo "as it is:"
target/programs/check <$nine

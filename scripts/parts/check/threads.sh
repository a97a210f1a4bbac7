#!/usr/bin/env bash
# runs the tests of many threads on one shared board again and again: they pass whatever the order of the threads' calls
#
# usage: scripts/check threads [TIMES]     50 times, if no number is given
#
# `rt test` proves and builds the tests first, over the work that earlier runs kept. The last line is 'N runs passed', or
# says which run failed; the status is 1 then.
set -uo pipefail
top=$(realpath "${BASH_SOURCE[0]}")
top=${top%/scripts/*}
. "$top/scripts/parts/common.sh"
need_kit 'check threads'
cd "$top/crates/board_tests" || exit 1
times=${1:-50}
runner=$(dirname "$(realpath "$(command -v rt)")")/rattle-test
said=$(mktemp)
trap 'rm -f "$said"' EXIT
rt test -- drawn >"$said" 2>&1 || { cat "$said"; echo 'check threads: run 1 failed'; exit 1; }
for ((run = 2; run <= times; run++)); do
    "$runner" --seconds 60 --filter drawn out/board_tests_tests >"$said" 2>&1 && continue
    cat "$said"
    echo "check threads: run $run failed"
    exit 1
done
echo "$times runs passed"
